"""Documents that edits change, and the faults of edits.

An edit is a command of a run document: `set`, `clear`, `text`, `insert` or `remove`. A list of edits is taken whole or not at all.
"""
import copy

from reading.batches import MOST_NODES
from reading.cascade import styled
from reading.declarations import declaration_fault

GREATEST_DEPTH = 128
MOST_BYTES_OF_A_TEXT, MOST_BYTES = 65536, 1048576
TREE_FIELDS = ('do', 'index', 'parent')


class Node:
    """A node with its fields, its parent and its children; the fields are those of a run document."""

    def __init__(self, fields, parent):
        self.fields = {name: fields[name] for name in fields if name not in TREE_FIELDS}
        if fields['kind'] != 'text':
            self.fields['style'] = dict(fields.get('style', {}))
        self.parent, self.children = parent, []
        self.depth = parent.depth + 1 if parent else 1

    def subtree(self):
        yield self
        for child in self.children:
            yield from child.subtree()

    def kind(self):
        return self.fields['kind']

    def bytes_of_text(self):
        return len(self.fields['text'].encode()) if self.kind() == 'text' else 0


class Document:
    """The tree of a run document, as its sheet styles it; what is inserted later doesn't meet the sheet."""

    def __init__(self, run):
        self.settings = {name: run[name] for name in ('viewport', 'face') if name in run}
        self.root, self.by_id = None, {}
        for fields in styled(run)['nodes']:
            parent = self.by_id.get(fields['parent'])
            node = self.add(fields, parent, len(parent.children) if parent else 0)
            self.root = self.root or node

    def add(self, fields, parent, index):
        node = Node(fields, parent)
        if parent:
            parent.children.insert(index, node)
        self.by_id[fields['id']] = node
        return node

    def as_run(self):
        """A run document without editors, with the nodes in document order."""
        nodes = (dict(node.fields, parent=node.parent.fields['id'] if node.parent else 0)
                 for node in self.root.subtree())
        return dict(self.settings, nodes=list(nodes))

    # -- faults

    def fault(self, edit):
        """The first fault of an edit, `E1` to `E11`, or None."""
        return first_bad_declaration(edit) or FAULTS[edit['do']](self, edit)

    def fault_of_style(self, edit):
        node = self.by_id.get(edit['node'])
        if node is None:
            return 'E1'
        return 'E2' if node.kind() == 'text' else None

    def fault_of_text(self, edit):
        node = self.by_id.get(edit['node'])
        if node is None:
            return 'E1'
        if node.kind() != 'text':
            return 'E3'
        return self.fault_of_length(edit['text'], node.bytes_of_text())

    def fault_of_length(self, text, bytes_before):
        """A text is too long, or all texts together are, where it comes in place of so many bytes."""
        length = len(text.encode())
        together = sum(node.bytes_of_text() for node in self.by_id.values()) - bytes_before + length
        return 'E9' if length > MOST_BYTES_OF_A_TEXT or together > MOST_BYTES else None

    def fault_of_insertion(self, edit):
        parent = self.by_id.get(edit['parent'])
        if parent is None:
            return 'E1'
        if parent.kind() != 'element':
            return 'E2'
        if edit['id'] in self.by_id:
            return 'E4'
        if edit['index'] > len(parent.children):
            return 'E5'
        if len(self.by_id) >= MOST_NODES:
            return 'E7'
        if parent.depth >= GREATEST_DEPTH:
            return 'E8'
        return self.fault_of_length(edit['text'], 0) if edit['kind'] == 'text' else None

    def fault_of_removal(self, edit):
        node = self.by_id.get(edit['node'])
        if node is None:
            return 'E1'
        return 'E6' if node is self.root else None

    # -- changes

    def take(self, edits):
        """Makes all edits of a list, or none where one has a fault: the first fault and its place, or None."""
        later = copy.deepcopy(self) if len(edits) > 1 else self
        for place, edit in enumerate(edits):
            fault = later.fault(edit)
            if fault:
                return fault, place
            later.apply(edit)
        vars(self).update(vars(later))
        return None

    def apply(self, edit):
        """Makes an edit that has no fault."""
        kind = edit['do']
        if kind == 'insert':
            self.add(edit, self.by_id[edit['parent']], edit['index'])
            return
        node = self.by_id[edit['node']]
        if kind == 'set':
            node.fields['style'][edit['property']] = edit['value']
        elif kind == 'clear':
            node.fields['style'].pop(edit['property'], None)
        elif kind == 'text':
            node.fields['text'] = edit['text']
        else:
            node.parent.children.remove(node)
            for gone in node.subtree():
                del self.by_id[gone.fields['id']]


FAULTS = {'set': Document.fault_of_style, 'clear': Document.fault_of_style, 'text': Document.fault_of_text,
          'insert': Document.fault_of_insertion, 'remove': Document.fault_of_removal}


def first_bad_declaration(edit):
    """`E10` or `E11` of the first declaration, by the bytes of its name, that has one."""
    if edit['do'] in ('set', 'clear'):
        return declaration_fault(edit['property'], edit.get('value') if edit['do'] == 'set' else None)
    if edit['do'] == 'insert' and edit['kind'] != 'text':
        style = edit.get('style', {})
        faults = (declaration_fault(name, style[name]) for name in sorted(style, key=str.encode))
        return next(filter(None, faults), None)
    return None
