"""Batches of edits: what a report may say of them, and the faults of their forms."""
import json
import unittest

from reading.edits import Document
from reading.generator import summary
from reading.histories import first_fault
from reading.refusals import first_fault as first_fault_of_bytes

NODES = [{'id': 1, 'parent': 0, 'kind': 'element', 'style': {'display': 'block'}},
         {'id': 2, 'parent': 1, 'kind': 'element', 'style': {
             'display': 'block', 'width': '100px', 'height': '50px', 'margin-left': 'auto', 'margin-right': 'auto'}}]
TREE = ['box 1 0 0 0 51200 3200', 'box 2 0 22400 0 6400 3200']
LOW_TREE = ['box 1 0 0 0 51200 640', 'box 2 0 19200 0 12800 640']
PUT = {'do': 'insert', 'id': 5, 'parent': 1, 'index': 1, 'kind': 'element', 'style': {'display': 'block', 'height': '10px'}}
SYNC = {'do': 'sync'}


def set_to(node, name, value):
    return {'do': 'set', 'node': node, 'property': name, 'value': value}


def batch(*edits):
    return {'do': 'batch', 'edits': list(edits)}


def run(*commands):
    return {'viewport': [800, 600], 'nodes': NODES, 'editors': [list(commands)]}


class Histories(unittest.TestCase):
    def fault_of(self, commands, lines):
        """The number of the first line that isn't legal, or None."""
        fault = first_fault(run(*commands), '\n'.join(lines) + '\n')
        return fault and fault[0]

    def test_list_is_refused_whole_at_its_place(self):
        refused = batch(set_to(2, 'width', '200px'), set_to(99, 'width', '1px'))
        accepted = batch(set_to(2, 'width', '200px'), set_to(2, 'height', '10px'))
        rest = ['publish 1', 'sync 1 2 1', *LOW_TREE, 'final 1', *LOW_TREE, 'laid 6']
        both = (refused, accepted, SYNC)
        self.assertIsNone(self.fault_of(both, ['edit 1 0 refused E1 at 1', 'edit 1 1 accepted 1', *rest]))
        self.assertEqual(1, self.fault_of(both, ['edit 1 0 refused E1 at 2', 'edit 1 1 accepted 1', *rest]))
        self.assertEqual(1, self.fault_of(both, ['edit 1 0 refused E1', 'edit 1 1 accepted 1', *rest]))
        self.assertEqual(2, self.fault_of(both, ['edit 1 0 refused E1 at 1', 'edit 1 1 accepted 2', *rest]))

    def test_refused_list_leaves_nothing(self):
        refused = batch(set_to(2, 'height', '10px'), set_to(2, 'width', 'wide'))
        lines = ['edit 1 0 refused E11 at 1', 'publish 0', 'final 0', *TREE, 'laid 3']
        self.assertIsNone(self.fault_of([refused], lines))

    def test_list_of_one_edit_is_refused_without_a_place(self):
        lines = ['publish 0', 'final 0', *TREE, 'laid 3']
        self.assertIsNone(self.fault_of([batch(set_to(9, 'width', '1px'))], ['edit 1 0 refused E1', *lines]))
        self.assertEqual(1, self.fault_of([batch(set_to(9, 'width', '1px'))], ['edit 1 0 refused E1 at 0', *lines]))
        self.assertEqual(1, self.fault_of([set_to(9, 'width', '1px')], ['edit 1 0 refused E1 at 0', *lines]))

    def test_list_inserts_then_sets(self):
        tree = ['box 1 0 0 0 51200 3840', TREE[1], 'box 5 0 0 3200 2560 640']
        lines = ['edit 1 0 accepted 1', 'publish 1', 'final 1', *tree, 'laid 3']
        self.assertIsNone(self.fault_of([batch(PUT, set_to(5, 'width', '40px'))], lines))

    def test_version_of_a_list_is_one_more(self):
        edits = [set_to(2, 'width', '%dpx' % width) for width in range(3)]
        tree = ['box 1 0 0 0 51200 3200', 'box 2 0 25536 0 128 3200']
        self.assertIsNone(self.fault_of([batch(*edits)], ['edit 1 0 accepted 1', 'publish 1', 'final 1', *tree, 'laid 3']))
        self.assertEqual(1, self.fault_of([batch(*edits)], ['edit 1 0 accepted 3', 'publish 3', 'final 3', *tree, 'laid 3']))


class Lists(unittest.TestCase):
    def test_insertion_below_what_was_put_in(self):
        document = Document(run())
        self.assertIsNone(document.take([PUT, dict(PUT, id=6, parent=5, index=0)]))
        self.assertEqual([1, 2, 5, 6], [node['id'] for node in document.as_run()['nodes']])

    def test_id_that_was_taken_out_is_used_again(self):
        document = Document(run())
        self.assertIsNone(document.take([{'do': 'remove', 'node': 2}, dict(PUT, id=2, index=0), set_to(2, 'width', '1px')]))
        self.assertEqual(('E4', 1), document.take([PUT, dict(PUT, id=2)]))
        self.assertEqual([1, 2], [node['id'] for node in document.as_run()['nodes']])

    def test_first_fault_is_at_the_least_place(self):
        document = Document(run())
        self.assertEqual(('E1', 1), document.take([{'do': 'remove', 'node': 2}, set_to(2, 'width', '1px'), {'do': 'remove', 'node': 1}]))
        self.assertEqual(('E6', 0), document.take([{'do': 'remove', 'node': 1}, set_to(9, 'width', '1px')]))


class Forms(unittest.TestCase):
    def refusal_of(self, *commands):
        return first_fault_of_bytes(json.dumps(run(*commands)).encode())

    def test_list_of_edits(self):
        self.assertEqual('refused I3 edits command 1 0\n', self.refusal_of({'do': 'batch'}))
        self.assertEqual('refused I3 edits command 1 1\n', self.refusal_of(SYNC, batch()))
        self.assertEqual('refused I4 edits command 1 0\n', self.refusal_of({'do': 'batch', 'edits': {}}))
        self.assertEqual('refused I4 edits command 1 0\n', self.refusal_of({'do': 'batch', 'edits': None}))

    def test_most_edits(self):
        edit = set_to(2, 'width', '1px')
        self.assertIsNone(self.refusal_of(batch(*[edit] * 1024)))
        self.assertEqual('refused I10 1 0\n', self.refusal_of(batch(*[edit] * 1025)))
        self.assertEqual('refused I10 1 1\n', self.refusal_of(SYNC, batch(*[1] * 1025)))

    def test_elements(self):
        for element in (1, None, [], 'set', {'do': 'batch', 'edits': [PUT]}, SYNC, {'do': 'latest'}, {'do': 'move'}):
            self.assertEqual('refused I4 do command 1 0\n', self.refusal_of(batch(PUT, element)), element)
        self.assertEqual('refused I3 do command 1 0\n', self.refusal_of(batch({})))
        self.assertEqual('refused I3 value command 1 0\n', self.refusal_of(batch(PUT, {'do': 'set', 'node': 2, 'property': 'width'})))
        self.assertEqual('refused I9 index command 1 0\n', self.refusal_of(batch(dict(PUT, index=-1))))
        self.assertIsNone(self.refusal_of(batch(set_to(2, 'colour', 'red'))))

    def test_generator(self):
        self.assertEqual(['nodes 261', 'accepted 4'], summary(65, 1).splitlines()[:2])
        self.assertEqual('nodes 5\naccepted 1\npieces 6\nmark 2786056128\n', summary(1, 1))


if __name__ == '__main__':
    unittest.main()
