"""The boxes of a document (CSS 2.2, 9.2, 9.4 and 17.4).

A block container holds blocks, or it holds inline content: texts, inline boxes, and the atomic boxes and floats among
them. What stands beside blocks is put into anonymous blocks. A table is two boxes: the wrapper is a block container
that holds the captions and the table box, and the table box holds rows of cells.
"""
from collections import namedtuple

from reading.collapsed_borders import collapse_borders
from reading.grid import Band, Grid
from reading.missing_tables import ROW_GROUPS, TABLES, Anonymous
from reading.nodes import Node
from reading.parts import InlineBox, children_of, is_atomic, is_blank, is_block, is_out_of_flow

# The boxes of a column of the grid, None for one that isn't there.
Column = namedtuple('Column', 'element group')


class Box:
    """A block container or a replaced box. `sizes` adds its margins, borders, paddings and sizes.

    Its children are blocks and boxes out of the flow, or it has inline content, with the atomic boxes of its lines and
    the boxes out of the flow that are met there. Where that comes to no line that is seen, these are its children.
    `preferred` adds its preferred widths, `blocks` the flow of a context's own box, and `page` its corner on the page.
    The shift is that of what a cell holds.
    """

    table, collapsed_border, shift, flow = None, None, 0, None

    def __init__(self, part, parent):
        self.is_anonymous = isinstance(part, Anonymous)
        self.node = part.node if self.is_anonymous else part
        self.parent, self.style, self.display = parent, part.style, part.display
        self.is_absolute = not self.is_anonymous and part.is_absolute()
        self.is_floating = not self.is_anonymous and part.is_floating()
        self.is_replaced = not self.is_anonymous and part.is_replaced
        self.is_atomic = parent is not None and is_atomic(part)
        self.is_context = (parent is None or self.is_floating or self.style['overflow'].amount != 'visible'     # 9.4.1
                           or self.is_absolute or self.is_atomic or self.is_replaced
                           or self.display in TABLES + ('table-cell', 'table-caption'))
        self.side = self.style['float'].amount if self.is_floating else 'none'
        self.clear = 'none' if self.is_atomic or self.display in TABLES else self.style['clear'].amount    # 9.5.2, 17.4
        self.children, self.line_boxes, self.inline_content = [], [], []
        self.content, self.has_lines = None, False
        self.colspan, self.rowspan = (1, 1) if self.is_anonymous else (self.node.colspan, self.node.rowspan)
        if not self.is_anonymous:
            self.node.box = self
        self.fill(children_of(part))

    def is_out_of_flow(self):
        return self.is_floating or self.is_absolute

    def fill(self, parts):
        """Gives the box what its node's children generate (9.2.1.1)."""
        if not any(map(is_block, parts)):
            self.hold_inline_content(parts)
            return
        run = []
        for part in parts:
            if is_block(part):
                self.end_run(run)
                self.children.append(make_box(part, self))
                run = []
            else:
                run.append(part)
        self.end_run(run)

    def end_run(self, run):
        """Wraps what stands beside blocks in an anonymous block, if some of it is in the flow and not blank."""
        if all(is_out_of_flow(part) or is_blank(part) for part in run):
            self.children += [make_box(part, self) for part in run if is_out_of_flow(part)]
        else:
            self.children.append(Box(Anonymous('block', self.node, run), self))

    def hold_inline_content(self, parts):
        """Texts and inline boxes, atomic boxes and boxes out of the flow, whose containing block is this box."""
        self.inline_content = self.with_boxes(parts, self)

    def with_boxes(self, parts, holder):
        """The parts, with boxes for those that have boxes of their own; each part knows what holds it directly."""
        for place, part in enumerate(parts):
            if isinstance(part, InlineBox):
                self.with_boxes(part.children, part)
            elif isinstance(part, (Node, Anonymous)):
                part = parts[place] = make_box(part, self)
                self.line_boxes.append(part)
            part.holder = holder
        return parts

    def hold_no_lines(self):
        """No line of the inline content is seen, so what is out of the flow is as that among blocks."""
        self.children += self.line_boxes
        self.line_boxes = []

    def children_in_flow(self):
        """The children that are in the flow (9.3)."""
        return [child for child in self.children if not child.is_out_of_flow()]


class Wrapper(Box):
    """The wrapper of a table (17.4): the captions above it, the table box, and those below it."""

    def fill(self, parts):
        captions = [Box(part, self) for part in parts if part.display == 'table-caption']
        self.table = Table(self, [part for part in parts if part.display != 'table-caption'])
        below = [caption for caption in captions if caption.style['caption-side'].amount == 'bottom']
        self.children = [caption for caption in captions if caption not in below] + [self.table] + below


class InnerBox:
    """A row group, a row, a column group or a column, with the boxes in it."""

    def __init__(self, part, children):
        self.node = part.node if isinstance(part, Anonymous) else part
        self.style, self.display, self.children = part.style, part.display, children


class Table(Box):
    """A table box (17.5). Its children are its cells; its row boxes are its row groups, and its rows that are in none.

    Both are in document order, and the bands and rows of the grid in visual order. `page` settles which layout its
    columns have, and `preferred` adds what those of an automatic table and its captions need.
    """

    is_automatic = False

    def __init__(self, wrapper, parts):
        self.parent, self.node, self.style, self.display = wrapper, wrapper.node, wrapper.style, 'table-box'
        self.is_anonymous = self.is_context = True
        self.is_floating = self.is_absolute = self.is_replaced = self.is_atomic = self.has_lines = False
        self.side = self.clear = 'none'
        self.children, self.line_boxes, self.inline_content = [], [], []
        self.collapses = self.style['border-collapse'].amount == 'collapse'
        inner_boxes = [self.inner_box(part) for part in parts]
        self.row_boxes = [box for box in inner_boxes if box.display in ROW_GROUPS + ('table-row',)]
        self.columns = columns_of([box for box in inner_boxes if box not in self.row_boxes])
        self.grid = Grid(bands_of(self.row_boxes), len(self.columns))
        self.columns += [Column(None, None)] * (self.grid.column_count - len(self.columns))
        if self.collapses:
            collapse_borders(self)

    def inner_box(self, part):
        """The box of a row group, a row, a column group or a column; cells become children of the table box."""
        if part.display != 'table-row':
            return InnerBox(part, [self.inner_box(child) for child in children_of(part)])
        cells = [Box(cell, self) for cell in children_of(part)]
        self.children += cells
        return InnerBox(part, cells)


def columns_of(column_boxes):
    """The columns for which there are elements; a group without columns stands for as many as it spans (17.3)."""
    found = []
    for box in column_boxes:
        if box.display == 'table-column':
            found += [Column(box, None)] * box.node.colspan
        elif box.children:
            found += [Column(element, box) for element in box.children for _ in range(element.node.colspan)]
        else:
            found += [Column(None, box)] * box.node.colspan
    return found


def bands_of(row_boxes):
    """The bands in visual order: the first header group stands first, and the first footer group last (17.2)."""
    heads = [box for box in row_boxes if box.display == 'table-header-group'][:1]
    feet = [box for box in row_boxes if box.display == 'table-footer-group'][:1]
    bands = []
    for box in heads + [box for box in row_boxes if box not in heads + feet] + feet:
        if box.display != 'table-row':
            bands.append(Band(box, box.children))
        elif bands and bands[-1].group is None:
            bands[-1].rows.append(box)
        else:
            bands.append(Band(None, [box]))
    return bands


def make_box(part, parent):
    """The box of a node, or an anonymous one; of a table its wrapper."""
    return Wrapper(part, parent) if part.display in TABLES else Box(part, parent)


def boxes_of_context(box):
    """The boxes below a context's own box that stand in it, inner contexts' own boxes among them, in document order.

    Those of captions and table box are in the order in which they stand.
    """
    for child in box.children + box.line_boxes:
        yield child
        if not child.is_context:
            yield from boxes_of_context(child)
