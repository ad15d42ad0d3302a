"""Reports of runs: what is legal and what isn't, and the faults of edits."""
import random
import unittest

from documents.run_documents import possible_report, run_document
from reading.declarations import declaration_fault
from reading.edits import Document
from reading.generator import lacking_summaries, summary
from reading.histories import are_in_turns, first_fault

DOCUMENTS = 60
TWO_BLOCKS = {'viewport': [800, 600], 'nodes': [
    {'id': 1, 'parent': 0, 'kind': 'element', 'style': {'display': 'block'}},
    {'id': 2, 'parent': 1, 'kind': 'element', 'style': {'display': 'block', 'width': '100px', 'height': '50px'}}]}
SET = {'do': 'set', 'node': 2, 'property': 'width', 'value': '200px'}
TREE = ['box 1 0 0 0 51200 3200', 'box 2 0 0 0 6400 3200']
WIDE_TREE = ['box 1 0 0 0 51200 3200', 'box 2 0 0 0 12800 3200']


class Reports(unittest.TestCase):
    def fault_of(self, editors, lines):
        """The number of the first line that isn't legal, or None."""
        fault = first_fault(dict(TWO_BLOCKS, editors=editors), '\n'.join(lines) + '\n')
        return fault and fault[0]

    def test_edit_and_sync(self):
        lines = ['edit 1 0 accepted 1', 'publish 1', 'sync 1 1 1', *WIDE_TREE, 'final 1', *WIDE_TREE, 'laid 3']
        self.assertIsNone(self.fault_of([[SET, {'do': 'sync'}]], lines))

    def test_tree_of_an_older_version(self):
        lines = ['edit 1 0 accepted 1', 'publish 1', 'sync 1 1 1', *TREE, 'final 1', *TREE, 'laid 3']
        self.assertEqual(5, self.fault_of([[SET, {'do': 'sync'}]], lines))

    def test_latest_shows_what_was_published_last(self):
        editors = [[SET], [{'do': 'latest'}, {'do': 'latest'}]]
        head = ['publish 0', 'latest 2 0 0', *TREE, 'edit 1 0 accepted 1']
        tail = ['final 1', *WIDE_TREE, 'laid 6']
        self.assertIsNone(self.fault_of(editors, head + ['latest 2 1 0', *TREE, 'publish 1'] + tail))
        self.assertIsNone(self.fault_of(editors, head + ['publish 1', 'latest 2 1 1', *WIDE_TREE] + tail))
        self.assertEqual(7, self.fault_of(editors, head + ['publish 1', 'latest 2 1 0', *TREE] + tail))

    def test_sync_shows_all_that_was_accepted(self):
        lines = ['publish 0', 'edit 1 0 accepted 1', 'sync 1 1 0', *TREE, 'publish 1', 'final 1', *WIDE_TREE, 'laid 3']
        self.assertEqual(3, self.fault_of([[SET, {'do': 'sync'}]], lines))

    def test_commands_in_their_order_and_all_of_them(self):
        clear = {'do': 'clear', 'node': 2, 'property': 'width'}
        self.assertEqual(1, self.fault_of([[SET, clear]], ['edit 1 1 accepted 1', 'edit 1 0 accepted 2']))
        self.assertEqual(3, self.fault_of([[SET, clear]], ['edit 1 0 accepted 1', 'publish 1', 'final 1', *WIDE_TREE]))

    def test_version_is_published_once_and_at_the_end(self):
        self.assertEqual(2, self.fault_of([], ['publish 0', 'publish 0', 'final 0', *TREE, 'laid 3']))
        self.assertEqual(1, self.fault_of([], ['final 0', *TREE, 'laid 3']))

    def test_fewer_cells_than_the_contexts_have(self):
        self.assertEqual(5, self.fault_of([], ['publish 0', 'final 0', *TREE, 'laid 2']))

    def test_turns(self):
        self.assertTrue(are_in_turns('publish 0\nedit 2 0 accepted 1\nlatest 10 0 0\nsync 2 1 1\nfinal 1\n'))
        self.assertFalse(are_in_turns('edit 10 0 accepted 1\nedit 2 0 accepted 2\n'))
        self.assertFalse(are_in_turns('edit 1 1 accepted 1\nlatest 2 0 1\n'))

    def test_reports_that_may_be_are_legal(self):
        for number in range(DOCUMENTS):
            run = run_document(99, number)
            self.assertIsNone(first_fault(run, possible_report(run, random.Random(number))))

    def test_report_without_a_line_is_not_legal(self):
        for number in range(DOCUMENTS):
            run, rng = run_document(99, number), random.Random(number)
            lines = possible_report(run, rng).split('\n')[:-1]
            del lines[rng.randrange(len(lines))]
            self.assertIsNotNone(first_fault(run, '\n'.join(lines) + '\n'))


class Edits(unittest.TestCase):
    def test_faults(self):
        document = Document(TWO_BLOCKS)
        insert = {'do': 'insert', 'kind': 'element', 'index': 0, 'id': 3, 'parent': 1}
        for fault, edit in (
                ('E1', dict(SET, node=9)), ('E1', dict(insert, parent=9)),
                ('E3', {'do': 'text', 'node': 1, 'text': ''}),
                ('E4', dict(insert, id=2)), ('E5', dict(insert, index=2)), ('E6', {'do': 'remove', 'node': 1}),
                ('E10', dict(SET, property='colour')), ('E11', dict(SET, value='10')),
                ('E10', dict(insert, style={'b': '', 'width': '1'})),
                ('E11', dict(insert, style={'x': '', 'width': '1'})),
                (None, SET), (None, insert)):
            self.assertEqual(fault, document.fault(edit), edit)

    def test_insertion_before_the_child_with_the_index(self):
        document = Document(TWO_BLOCKS)
        document.apply({'do': 'insert', 'kind': 'text', 'text': 'a', 'index': 0, 'id': 3, 'parent': 1})
        document.apply({'do': 'insert', 'kind': 'text', 'text': 'b', 'index': 2, 'id': 4, 'parent': 1})
        self.assertEqual([1, 3, 2, 4], [node['id'] for node in document.as_run()['nodes']])


class Declarations(unittest.TestCase):
    def test_values(self):
        for name, text in (('width', ' 1PX\t'), ('width', '.5em'), ('width', '0'), ('width', '-0%'),
                           ('width', 'inherit'),
                           ('line-height', '+1.5'), ('border-spacing', '1px \n 0'), ('z-index', '-7'), ('top', '-1px')):
            self.assertIsNone(declaration_fault(name, text), (name, text))

    def test_no_values(self):
        for name, text in (('width', '1'), ('width', '1 px'), ('width', '-1px'), ('width', '1.px'), ('width', 'none'),
                           ('line-height', '-1'), ('border-spacing', '1px 2px 3px'), ('z-index', '1.0'), ('float', ''),
                           ('width', '1234567890px'), ('width', '1ex'), ('text-indent', 'auto')):
            self.assertEqual('E11', declaration_fault(name, text), (name, text))


class Generator(unittest.TestCase):
    def test_summary(self):
        self.assertEqual('nodes 5\naccepted 1\npieces 6\nmark 2786056128\n', summary(1, 1))

    def test_summaries_without_memory(self):
        self.assertEqual([['accepted 0'], ['accepted 1']], sorted(text.splitlines()[1:2] for text in lacking_summaries(1, 1)))
        self.assertIn(summary(2, 1), lacking_summaries(2, 1))


if __name__ == '__main__':
    unittest.main()
