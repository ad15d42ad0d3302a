"""The nodes of a run document, with what kind of box each generates (CSS 2.2, 9.2, 9.3 and 9.7)."""
from reading.cascade import styled
from reading.styles import UNITS_PER_PX, computed_style

FLOATS = ('left', 'right')
ABSOLUTE = ('absolute', 'fixed')


class Node:
    """A node of the document, with its computed style; a text has that of an element without declarations.

    `display` is the used value, and `place` the place in document order. `box` is added where boxes are made: that
    which the node generates by itself, the wrapper of a table.
    """

    def __init__(self, fields, parent):
        self.id, self.kind, self.parent = fields['id'], fields['kind'], parent
        self.text = fields.get('text', '')
        self.is_replaced = self.kind == 'replaced'
        self.natural = [side * UNITS_PER_PX for side in fields['natural']] if self.is_replaced else None
        self.colspan, self.rowspan = fields.get('colspan', 1), fields.get('rowspan', 1)
        self.children = []
        declarations = {} if self.kind == 'text' else fields.get('style', {})
        self.style = computed_style(declarations, parent.style if parent else None)
        self.is_hidden = self.word('display') == 'none' or (parent is not None and parent.is_hidden)
        self.display = self.used_display()
        self.place = self.box = self.known_childs_style = None

    def word(self, name):
        """The keyword of a property."""
        return self.style[name].amount

    def used_display(self):
        """`display` after the table of 9.7; `list-item` is `block`, since there are no markers.

        A replaced element is a block or inline.
        """
        display = self.word('display')
        if display == 'list-item' or (self.is_replaced and display == 'table'):
            display = 'block'
        elif self.is_replaced and display not in ('block', 'none'):
            display = 'inline'
        if self.is_out_of_flow() or self.parent is None:
            if display == 'inline-table':
                return 'table'
            if display in ('inline', 'inline-block') or (display.startswith('table') and display != 'table'):
                return 'block'
        return display

    def is_absolute(self):
        return self.word('position') in ABSOLUTE

    def is_floating(self):
        """An absolute box doesn't float (9.7)."""
        return self.word('float') in FLOATS and not self.is_absolute()

    def is_out_of_flow(self):
        return self.is_absolute() or self.is_floating()

    def is_inline_box(self):
        """It generates an inline box, which holds what its children generate."""
        return self.display == 'inline' and not self.is_replaced

    def is_atomic(self):
        """It stands in a line as one box (9.2.2)."""
        return self.display in ('inline-block', 'inline-table') or (self.is_replaced and self.display == 'inline')

    def childs_style(self):
        """The style of a child for which nothing is declared, as of an anonymous box."""
        if self.known_childs_style is None:
            self.known_childs_style = computed_style({}, self.style)
        return self.known_childs_style


def read_nodes(run):
    """The root of a run document's nodes, as its sheet styles them, which are linked to their parents and children."""
    root, by_id = None, {}
    for fields in styled(run)['nodes']:
        parent = by_id[fields['parent']] if root else None
        node = by_id[fields['id']] = Node(fields, parent)
        if parent:
            parent.children.append(node)
        root = root or node
    waiting = [root]
    for place in range(len(by_id)):
        node = waiting.pop()
        node.place = place
        waiting += reversed(node.children)
    return root
