"""Where the boxes of a document stand on the page, absolute boxes among them (CSS 2.2, 9.3, 9.6, 10.1 and 10.6.4).

Boxes in the flow are laid out first, and then absolute ones in document order, each with what is in it.
"""
from collections import namedtuple

from reading.automatic_columns import has_automatic_layout
from reading.blocks import lay_out_context
from reading.boxes import make_box
from reading.columns import left_of_column
from reading.content import Content
from reading.offsets import offset_in, relative_offset, solve_absolute
from reading.preferred import find_preferred_widths
from reading.rows import edges_down
from reading.sizes import equation_out_of_flow, find_sizes, find_sizes_with, within_bounds
from reading.styles import UNITS_PER_PX, resolve, size_within_limit, within_limit

# A place on the page, and a rectangle there.
Corner = namedtuple('Corner', 'left top')
Rect = namedtuple('Rect', 'left top width height')


def moved(corner, left, top):
    return Corner(corner.left + left, corner.top + top)


def find_content(box, face):
    """Sets what the lines of the block containers from a box on would hold."""
    for child in box.children + box.line_boxes:
        find_content(child, face)
    box.content = Content(box, face)


def find_table_layouts(box):
    """Settles which tables from a box on have the automatic layout."""
    for child in box.children + box.line_boxes:
        find_table_layouts(child)
    if box.table:
        box.table.is_automatic = has_automatic_layout(box.table)


def find_lines(box):
    """Settles which block containers from a box on have lines; one without a line that is seen has none (9.4.2).

    Edges have to be known, so absolute boxes are left out.
    """
    for child in box.children + box.line_boxes:
        if not child.is_absolute:
            find_lines(child)
    box.has_lines = box.content.has_seen_line()
    if not box.has_lines:
        box.hold_no_lines()


def solve_down(box, containing_block, static_top):
    """The offset, margins and content height of an absolute box that is laid out (10.6.4, 10.6.5).

    A wrapper is as high as its table and captions are.
    """
    style = box.style
    top, bottom = (resolve(style[name], containing_block.height) for name in ('top', 'bottom'))
    before, after = (resolve(style[name], containing_block.width) for name in ('margin-top', 'margin-bottom'))

    def with_height(height):
        return solve_absolute(containing_block.height - edges_down(box), top, bottom, before, after, height, static_top,
                              lambda available: box.flow.auto_height, are_always_equal=True)

    if box.is_replaced or box.table:
        return with_height(box.border_box_height - edges_down(box))
    return within_bounds(with_height, box.given_height, box.min_height, box.max_height)


# -- places

class Page:
    """The page of a document that has a box; the viewport is in px (10.1).

    Each table has the fixed layout, unless there are automatic tables.
    """

    def __init__(self, root_node, viewport, face, automatic_tables):
        self.viewport = Rect(0, 0, *(side * UNITS_PER_PX for side in viewport))
        self.contexts, self.waiting = [], []
        self.root = make_box(root_node, None)
        if automatic_tables:
            find_table_layouts(self.root)
        find_content(self.root, face)
        find_preferred_widths(self.root)
        self.place_root()
        while self.waiting:
            first = min(self.waiting, key=lambda box: box.node.place)
            self.waiting.remove(first)
            self.place_absolute(first)
        self.contexts.sort(key=lambda box: box.node.place)

    def place_root(self):
        """A root that floats right ends at the viewport's right edge, and one that is absolute is as any other."""
        root, viewport = self.root, self.viewport
        if root.is_absolute:
            root.static_position = Corner(0, 0)
            self.waiting.append(root)
            return
        find_sizes(root, viewport.width, viewport.height)
        find_lines(root)
        lay_out_context(root)
        left = root.margin.left
        if root.side == 'right':
            left = viewport.width - root.margin.right - root.border_box_width
        self.place(root, moved(Corner(left, root.margin.top),
                               *relative_offset(root.style, viewport.width, viewport.height)))

    def place(self, box, corner):
        """Sets the corners of the border boxes of a context's own box and of all in it that is in the flow."""
        box.corner = corner
        if not box.is_anonymous:
            self.contexts.append(box)
        if box.display == 'table-box':
            for cell in box.children:
                area = box.grid.areas[cell]
                self.place(cell, moved(corner, left_of_column(box, area.column), box.rows.tops[area.row]))
        else:
            self.place_inside(box, box.flow, moved(corner, 0, box.shift))

    def place_inside(self, box, flow, origin):
        """Places what a box holds; the origin is where the corner of its context is for that."""
        box.origin, box.lines = origin, flow.lines.get(box, [])
        for child in box.children + box.line_boxes:
            child_origin = moved(origin, *offset_in(box, child))
            if child.is_absolute:
                child.static_position = moved(child_origin, flow.left[child], flow.top[child])
                self.waiting.append(child)
                continue
            child.corner = moved(child_origin, flow.left[child], flow.top[child])
            if child.is_context:
                self.place(child, child.corner)
            else:
                child.border_box_height = flow.height[child]
                self.place_inside(child, flow, child_origin)

    # -- absolute boxes

    def containing_block(self, box):
        """The viewport for a fixed box; else the padding box of the nearest positioned block container around it.

        A table counts with its wrapper, and its inner boxes don't.
        """
        node = box.node.parent if box.node.word('position') == 'absolute' else None
        while node:
            if node.word('position') != 'static' and node.display in ('block', 'inline-block', 'table', 'inline-table'):
                return self.padding_box(node.box)
            node = node.parent
        return self.viewport

    def padding_box(self, box):
        border = box.border
        return Rect(box.corner.left + border.left, box.corner.top + border.top,
                    box.border_box_width - border.left - border.right,
                    box.border_box_height - border.top - border.bottom)

    def place_absolute(self, box):
        """Lays out an absolute box: its widths, then what is in it, then its height."""
        containing_block = self.containing_block(box)
        static_left = box.static_position.left - containing_block.left
        static_top = box.static_position.top - containing_block.top
        across = find_sizes_with(lambda *given: equation_out_of_flow(*given, static_left),
                                 box, containing_block.width, containing_block.height)
        find_lines(box)
        lay_out_context(box)
        down = solve_down(box, containing_block, static_top)
        box.margin = box.margin._replace(top=within_limit(down.before), bottom=within_limit(down.after))
        box.border_box_height = size_within_limit(down.size) + edges_down(box)
        self.place(box, Corner(containing_block.left + within_limit(across.start) + box.margin.left,
                               containing_block.top + within_limit(down.start) + box.margin.top))
