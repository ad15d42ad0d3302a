"""Block formatting contexts: blocks whose margins collapse, floats and clearance (CSS 2.2, 9.4.1, 9.5, 9.5.2, 10.6).

It is slow on purpose: what the standard calls a hypothetical position is got by laying a context out once more for each
box with `clear`.
"""
from reading.boxes import boxes_of_context
from reading.floats import ContainingBlock, bottoms_to_clear, clears, place_float, place_solid
from reading.lines import lay_lines
from reading.margins import MarginRuns, bottom_margin, top_margin
from reading.rows import Rows, edges_down
from reading.sizes import used_height
from reading.styles import size_within_limit


class Flow:
    """The places and heights of the boxes of a context (9.4.1), from the top left corner of its own border box.

    The boxes with clearance are given, each with its hypothetical edge. Inner contexts are laid out before. Of absolute
    boxes there are static positions: at the content edge, where an empty block would stand, or at the top of a line.
    """

    def __init__(self, context_box, hypothetical_edges):
        self.context_box, self.hypothetical_edges = context_box, hypothetical_edges
        self.runs = MarginRuns(context_box, hypothetical_edges.keys())
        self.marks, self.left, self.top, self.height = {}, {}, {}, {}
        self.lines, self.lines_end = {}, {}
        self.bottoms_to_clear = {}              # of the floats before a box
        self.floats = []                        # margin boxes, in document order
        self.content_boxes = {}
        self.start = 0                          # of the run that the next margin is in
        self.content_height = self.place_all()

    def place_all(self):
        """Places all boxes; gives the content height of the context, which reaches round its floats (10.6.7)."""
        content_top = self.open_content_box(self.context_box, 0, 0).top
        self.start = content_top
        self.place_content(self.context_box)
        children = self.context_box.children_in_flow()
        end = self.start + self.runs.whole(bottom_margin(children[-1])) if children else content_top
        end = self.lines_end.get(self.context_box, end)
        bottom = max([end] + [other.bottom for other in self.floats])
        self.auto_height = size_within_limit(bottom - content_top)
        return used_height(self.context_box, self.auto_height)

    def place_content(self, box):
        """Places what is in a box whose content box is open: its lines, or its blocks and floats."""
        if box.has_lines:
            lines = lay_lines(box.content, self.content_boxes[box], self.floats, self.keep_float)
            self.lines[box], self.lines_end[box] = lines.lines, lines.bottom
            for line in lines.lines:
                for atomic, left, top in line.atomic_corners:
                    self.left[atomic], self.top[atomic] = left, top
            for anchored, top in lines.static_tops.items():
                self.left[anchored], self.top[anchored] = self.content_boxes[box].left, top
        for child in box.children:
            self.place(child)

    def open_content_box(self, box, left, top):
        """The content box of a box whose border box has this corner."""
        content_left = left + box.border.left + box.padding.left
        content_top = top + box.border.top + box.padding.top
        self.content_boxes[box] = ContainingBlock(content_left, content_top, content_left + box.width)
        return self.content_boxes[box]

    def mark(self, box):
        """Where the flow puts the top border edge (8.3.1).

        - A box that isn't collapsed through stands at the end of its top margin's run.
        - One that is collapsed through stands with its parent where the parent's top margin is in the run,
        - and else where it would stand if it had a bottom border.
        """
        if not self.runs.collapses_through(box):
            return self.start + self.runs.whole(top_margin(box))
        parent = box.parent
        if parent is not self.context_box and self.runs.adjoin(top_margin(parent), top_margin(box)):
            return self.marks[parent]
        return self.start + self.runs.before(bottom_margin(box))

    def clear(self, box):
        """Moves the start so that a box with clearance comes to stand at its clear edge (9.5.2)."""
        self.bottoms_to_clear[box] = bottoms_to_clear(box.clear, self.floats)
        if box not in self.hypothetical_edges:
            return
        clear_edge = max([self.hypothetical_edges[box]] + self.bottoms_to_clear[box])
        if self.runs.collapses_through(box):
            self.start = clear_edge - self.runs.before(bottom_margin(box))
        else:
            self.start = clear_edge - self.runs.whole(top_margin(box))

    def place(self, box):
        """Places a box and all in it that is of this context."""
        if box.is_floating:
            self.place_float(box)
            return
        if box.is_absolute:
            self.left[box], self.top[box] = self.content_boxes[box.parent].left, self.mark(box)
            return
        self.clear(box)
        self.marks[box] = self.mark(box)
        if box.is_context:
            self.place_solid(box)
        else:
            self.place_block(box)

    def place_float(self, box):
        """A float, which is an empty block in the flow and leaves the start as it is (9.5.1)."""
        mark = self.mark(box)
        self.marks[box] = mark
        height = box.margin.top + box.border_box_height + box.margin.bottom
        self.keep_float(place_float(box, height, self.content_boxes[box.parent], mark, self.floats))

    def keep_float(self, margin_box):
        """Makes a float one of the earlier floats of all that comes after."""
        box = margin_box.box
        self.floats.append(margin_box)
        self.left[box] = margin_box.left + box.margin.left
        self.top[box] = margin_box.top + box.margin.top

    def place_solid(self, box):
        """A solid box, after which the flow goes on from its bottom border edge (9.5)."""
        height = box.border_box_height
        containing_block = self.content_boxes[box.parent]
        self.left[box], self.top[box] = place_solid(box, height, containing_block, self.marks[box], self.floats)
        self.height[box] = height
        self.start = self.top[box] + height

    def place_block(self, box):
        """A block of this context, with what is in it (9.4.1); its height is known after that (10.6.3)."""
        self.left[box] = self.content_boxes[box.parent].left + box.margin.left
        self.top[box] = self.marks[box]
        content_top = self.open_content_box(box, self.left[box], self.top[box]).top
        if box.border.top or box.padding.top:
            self.start = content_top
        self.place_content(box)
        content_height = used_height(box, self.content_bottom(box) - content_top)
        self.height[box] = content_top - self.top[box] + content_height + box.padding.bottom + box.border.bottom
        if not self.runs.collapses_through(box):
            self.start = self.top[box] + self.height[box]

    def content_bottom(self, box):
        """Where the content ends for a height of `auto` (10.6.3), which is

        - at the bottom of the last line,
        - below the bottom margin of the last child in the flow, if it doesn't collapse with the box's,
        - else at the bottom border edge of the last one whose top margin doesn't collapse with that,
        - else at the top.
        """
        if box.has_lines:
            return self.lines_end[box]
        children = box.children_in_flow()
        if children and not self.runs.adjoin(bottom_margin(children[-1]), bottom_margin(box)):
            return self.start + self.runs.whole(bottom_margin(children[-1]))
        for child in reversed(children):
            if not self.runs.adjoin(top_margin(child), bottom_margin(box)):
                return self.top[child] + self.height[child]
        return self.content_boxes[box].top


# -- clearance

def has_clearance(box, hypothetical_edge, hypothetical_flow):
    """The hypothetical edge isn't past the floats to clear, or one of these has its mark in the run above (9.5.2)."""
    runs = hypothetical_flow.runs
    is_past = all(hypothetical_edge >= bottom for bottom in hypothetical_flow.bottoms_to_clear[box])
    moves_with_float = any(clears(box.clear, other.side)
                           and runs.has(top_margin(other.box))
                           and runs.stands_before(top_margin(other.box), top_margin(box))
                           and runs.adjoin(top_margin(other.box), top_margin(box))
                           for other in hypothetical_flow.floats)
    return moves_with_float or not is_past


def find_clearance(context_box):
    """The hypothetical edges of the boxes with clearance.

    In the hypothetical flow of a box the boxes before it have the clearance that they have, and it and those after it
    have none; so they are found in document order.
    """
    hypothetical_edges = {}
    for box in boxes_of_context(context_box):
        if box.is_out_of_flow() or box.clear == 'none':
            continue
        hypothetical_flow = Flow(context_box, hypothetical_edges)
        hypothetical_edge = hypothetical_flow.marks[box]
        if has_clearance(box, hypothetical_edge, hypothetical_flow):
            hypothetical_edges[box] = hypothetical_edge
    return hypothetical_edges


def lay_out_context(box):
    """Sets the flow of a context's own box and the height of its border box, inner contexts first.

    Absolute boxes stand in no flow, and are laid out once they have places.
    """
    for inner in boxes_of_context(box):
        if inner is box.table:
            lay_out_table(inner)
        elif inner.is_context and not inner.is_absolute:
            lay_out_context(inner)
    box.flow = Flow(box, find_clearance(box))
    box.border_box_height = box.flow.content_height + edges_down(box)


def lay_out_table(table):
    """Sets the rows of a table box and the heights of its border box and its cells, all cells first."""
    for cell in table.children:
        lay_out_context(cell)
    table.rows = Rows(table)
    for cell in table.children:
        cell.border_box_height, cell.shift = table.rows.height_of_cell(cell), table.rows.shift(cell)
    table.border_box_height = table.rows.content_height() + edges_down(table)
