"""Random run documents with editors, and reports of them as a program may write them.

Several editors change the same few nodes, so that whether an edit has a fault depends on the order of the history. Some
commands are batches.
"""
import random

from documents.atomic_documents import atomic_document
from documents.block_documents import document
from documents.positioned_documents import positioned_document
from documents.table_documents import table_document
from documents.text_documents import text_document
from reading.batches import edits_of, refusal
from reading.edits import Document
from reading.report import context_count, report

DRAWS = (document, text_document, atomic_document, table_document, table_document, positioned_document)
EDITORS = [0, 1, 1, 2, 2, 3, 4, 16]
COMMANDS = [0, 1, 2, 3, 4, 5, 6, 8]
EDITS = ['set'] * 6 + ['clear'] * 2 + ['text'] * 2 + ['insert'] * 3 + ['remove'] * 2
BATCHES = ['batch'] * 6
EDITS_OF_A_BATCH = [1, 2, 2, 3, 3, 4, 6, 12]
BAD_DECLARATIONS = [('colour', 'red'), ('Width', '1px'), ('width', '10'), ('width', '-1px'), ('display', 'flex'),
                    ('margin-top', '1 px'), ('line-height', '-1'), ('float', ''), ('', ''), ('font-size', '1.px')]
GOOD_DECLARATIONS = [('z-index', '-3'), ('visibility', 'hidden'), ('border-spacing', '1px 2px'), ('width', ' AUTO\n'),
                     ('empty-cells', 'inherit'), ('caption-side', 'bottom'), ('height', '+.5Px'), ('line-height', '0')]


class RunDocument:
    """Draws a document and the commands of its editors."""

    def __init__(self, rng):
        self.rng, self.choice = rng, rng.choice
        self.draw_document = rng.choice(DRAWS)
        self.base = self.drawn_document()
        self.kinds = {node['id']: node['kind'] for node in self.base['nodes']}
        self.next_id = 1000

    def hit(self, hundredths):
        return self.rng.random() * 100 < hundredths

    def drawn_document(self):
        """A document of the kind of this run."""
        return self.draw_document(self.rng.randrange(10 ** 6), 0)

    def draw(self):
        editors = [[self.command() for _ in range(self.choice(COMMANDS))] for _ in range(self.choice(EDITORS))]
        return dict(self.base, editors=editors)

    def command(self):
        return getattr(self, self.choice(EDITS + ['latest', 'sync'] * 2 + BATCHES))()

    def node(self, kind=None):
        """The id of a node, of this kind where there is one; now and then of none."""
        ids = [ident for ident in self.kinds if kind in (None, self.kinds[ident])]
        return 999999 if self.hit(3) or not ids else self.choice(ids)

    def declaration(self):
        if self.hit(5):
            return self.choice(BAD_DECLARATIONS)
        if self.hit(5):
            return self.choice(GOOD_DECLARATIONS)
        declared = [item for node in self.drawn_document()['nodes'] for item in node.get('style', {}).items()]
        return self.choice(declared) if declared else ('width', '20px')

    # -- commands

    def set(self):
        name, text = self.declaration()
        return {'do': 'set', 'node': self.node('element' if self.hit(80) else None), 'property': name, 'value': text}

    def clear(self):
        declared = [(node['id'], name) for node in self.base['nodes'] for name in node.get('style', {})]
        if not declared or self.hit(20):
            return {'do': 'clear', 'node': self.node(), 'property': self.declaration()[0]}
        ident, name = self.choice(declared)
        return {'do': 'clear', 'node': ident, 'property': name}

    def text(self):
        texts = [node['text'] for node in self.drawn_document()['nodes'] if 'text' in node] + ['a b']
        return {'do': 'text', 'node': self.node('text' if self.hit(85) else None), 'text': self.choice(texts)}

    def insert(self):
        fields = self.choice(self.drawn_document()['nodes'][1:] or [{'kind': 'text', 'text': 'a'}])
        ident = self.node() if self.hit(10) else self.next_id
        self.next_id += 1
        self.kinds.setdefault(ident, fields['kind'])
        place = {'id': ident, 'parent': self.node('element' if self.hit(90) else None)}
        return {'do': 'insert', 'index': self.choice([0, 0, 1, 2, 3]), **fields, **place}

    def remove(self):
        return {'do': 'remove', 'node': self.node() if self.hit(90) else 1}

    def batch(self):
        edits = []
        for _ in range(self.choice(EDITS_OF_A_BATCH)):
            edits.append(getattr(self, self.choice(EDITS))())
            if edits[-1]['do'] in ('insert', 'remove') and self.hit(40):
                edits.append(self.follow(edits[-1]))
        return {'do': 'batch', 'edits': edits}

    def follow(self, edit):
        """An insertion below the node that was put in, or with the id of the one that was taken out."""
        if edit['do'] == 'insert':
            return dict(self.insert(), parent=edit['id'], index=0)
        return dict(self.insert(), id=edit['node'])

    def latest(self):
        return {'do': 'latest'}

    def sync(self):
        return {'do': 'sync'}


def run_document(seed, number):
    """The run document of a seed and a number."""
    return RunDocument(random.Random('runs %d/%d' % (seed, number))).draw()


def crowded_run(seed, number):
    """Sixteen editors with as many commands as a run may have: 512 each, 16 of which read. They change two nodes."""
    rng = random.Random('crowds %d/%d' % (seed, number))
    lengths = ['%dpx' % width for width in (0, 1, 20, 70, 300, 900)]

    def edit():
        kind = rng.choice(['set', 'set', 'clear', 'text'])
        if kind == 'text':
            return {'do': kind, 'node': 3, 'text': rng.choice(['a', 'a b', 'some words'])}
        declared = {'node': 2, 'property': rng.choice(['width', 'margin-left', 'height'])}
        return {'do': kind, **declared, **({'value': rng.choice(lengths)} if kind == 'set' else {})}

    def script():
        commands = [edit() for _ in range(496)] + [{'do': rng.choice(['latest', 'sync'])} for _ in range(16)]
        rng.shuffle(commands)
        return commands

    nodes = [{'id': 1, 'parent': 0, 'kind': 'element', 'style': {'display': 'block'}},
             {'id': 2, 'parent': 1, 'kind': 'element', 'style': {'display': 'block', 'overflow': 'hidden'}},
             {'id': 3, 'parent': 2, 'kind': 'text', 'text': 'some words'}]
    return {'viewport': [800, 600], 'nodes': nodes, 'editors': [script() for _ in range(16)]}


# -- a report that may be

def tree_of(current):
    return report(current.as_run()).splitlines()[2:]


def possible_report(run, rng):
    """A report of a run whose editors came to the lock in some order; what `latest` shows may be old."""
    current, published, accepted, lines = Document(run), None, 0, []
    tree = []
    scripts = [list(enumerate(commands)) for commands in run['editors']]
    turns = [editor for editor, commands in enumerate(scripts) for _ in commands]
    rng.shuffle(turns)
    for editor in turns:
        index, command = scripts[editor].pop(0)
        kind = command['do']
        if kind in ('latest', 'sync'):
            if published != accepted and (kind == 'sync' or published is None or rng.random() < 0.3):
                published, tree = accepted, tree_of(current)
                lines.append('publish %d' % published)
            lines += ['%s %d %d %d' % (kind, editor + 1, index, published)] + tree
            continue
        edits = edits_of(command)
        fault = current.take(edits)
        accepted += not fault
        verdict = refusal(edits, *fault) if fault else 'accepted %d' % accepted
        lines.append('edit %d %d %s' % (editor + 1, index, verdict))
    if published != accepted:
        tree = tree_of(current)
        lines.append('publish %d' % accepted)
    lines += ['final %d' % accepted] + tree + ['laid %d' % (3 * context_count(current.as_run()))]
    return '\n'.join(lines) + '\n'
