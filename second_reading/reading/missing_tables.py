"""Boxes of tables that are missing, and white space there that is irrelevant (CSS 2.2, 17.2.1).

Each rule looks at the children of one box and not below them. A box out of the flow stands for an inline box, so it is
wrapped as a text is; `display` tells them apart no further than that it is none of a table's inner boxes.
"""
from itertools import groupby

TABLES = ('table', 'inline-table')
ROW_GROUPS = ('table-row-group', 'table-header-group', 'table-footer-group')
PROPER_CHILDREN = ROW_GROUPS + ('table-row', 'table-column-group', 'table-column', 'table-caption')
INNER = PROPER_CHILDREN + ('table-cell',)

# By the parent: the boxes that may be below it without another table between.
DESCENDANTS = {**dict.fromkeys(TABLES, INNER), **dict.fromkeys(ROW_GROUPS, ('table-row', 'table-cell')),
               'table-row': ('table-cell',)}
# By the parent: its children, and what is put round others.
CHILDREN = {**dict.fromkeys(TABLES, (PROPER_CHILDREN, 'table-row')),
            **dict.fromkeys(ROW_GROUPS, (('table-row',), 'table-row')),
            'table-row': (('table-cell',), 'table-cell')}


class Anonymous:
    """A box that no node generates by itself, with what is in it; its node is the nearest element around it."""

    def __init__(self, display, node, children):
        self.display, self.node, self.children = display, node, children
        self.style = node.childs_style()


def is_white(part):
    """A text of white space, whatever its `white-space` is."""
    return part.display == 'text' and not part.text.strip(' \t\r\n')


def is_irrelevant(display, before, after):
    """White space between two parts, or at an end where one is None, in a parent of this display (the first stage)."""
    neighbours = [part.display for part in (before, after) if part]
    if display in DESCENDANTS and all(neighbour in DESCENDANTS[display] for neighbour in neighbours):
        return True
    return len(neighbours) == 2 and all(neighbour in INNER for neighbour in neighbours)


def without_white_space(display, parts):
    """The parts without the white space that is irrelevant; texts of it that stand together are one."""
    stretches = [(white, list(stretch)) for white, stretch in groupby(parts, is_white)]
    found = []
    for place, (white, stretch) in enumerate(stretches):
        before = stretches[place - 1][1][-1] if place > 0 else None
        after = stretches[place + 1][1][0] if place + 1 < len(stretches) else None
        if not white or not is_irrelevant(display, before, after):
            found += stretch
    return found


def wrapped(parts, is_wrapped, display, node):
    """The parts, with one anonymous box round each stretch of those that are to be wrapped."""
    found = []
    for inside, stretch in groupby(parts, is_wrapped):
        found += [Anonymous(display, node, list(stretch))] if inside else stretch
    return found


def with_table_boxes(display, parts, node):
    """The children of a box, as they are after the three stages; the node is the nearest element's.

    - What isn't relevant is removed.
    - Children that may not stand in a box of a table get a row or a cell round them.
    - Rows get their cells, and tables their rows, where a parent is missing.
    """
    if display == 'table-column':
        return []
    if display == 'table-column-group':
        return [part for part in parts if part.display == 'table-column']
    parts = without_white_space(display, parts)
    if display in CHILDREN:
        children, wrapper = CHILDREN[display]
        return wrapped(parts, lambda part: part.display not in children, wrapper, node)
    parts = wrapped(parts, lambda part: part.display == 'table-cell', 'table-row', node)
    table = 'inline-table' if display == 'inline' else 'table'
    return wrapped(parts, lambda part: part.display in PROPER_CHILDREN, table, node)
