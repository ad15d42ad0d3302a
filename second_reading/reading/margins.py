"""Margins that adjoin and collapse (CSS 2.2, 8.3.1).

In document order the margins of a context stand in one sequence: the top margin of a box, those of its children, its
bottom margin. A run is all margins there that adjoin, one directly or over others; it collapses to one margin.
"""
from collections import namedtuple

from reading.boxes import boxes_of_context

Margin = namedtuple('Margin', 'box edge')


def top_margin(box):
    return Margin(box, 'top')


def bottom_margin(box):
    return Margin(box, 'bottom')


def collapsed(amounts):
    """The greatest of the positive margins plus the least of the negative ones."""
    return max([0] + amounts) + min([0] + amounts)


def amount(margin):
    """The used margin; a box out of the flow stands in the sequence as an empty block without margins."""
    if margin.box.is_out_of_flow():
        return 0
    return margin.box.margin.top if margin.edge == 'top' else margin.box.margin.bottom


def sequence(box):
    """The margins below a context's own box, in document order."""
    for child in box.children:
        yield top_margin(child)
        if not child.is_context:
            yield from sequence(child)
        yield bottom_margin(child)


class MarginRuns:
    """The runs of a context, where these boxes in it have clearance."""

    def __init__(self, context_box, with_clearance):
        self.context_box, self.with_clearance = context_box, with_clearance
        self.margins = list(sequence(context_box))
        self.places = {margin: place for place, margin in enumerate(self.margins)}
        self.joined = {margin: margin for margin in self.margins}        # a forest; each tree is a run
        self.join_children(context_box)
        for box in boxes_of_context(context_box):
            if self.has(top_margin(box)):
                self.join_box(box)
        self.members = {}
        for margin in self.margins:
            self.members.setdefault(self.run(margin), []).append(margin)

    # -- which margins adjoin

    def collapses_through(self, box):
        """The box's own margins adjoin: it has no height, and neither has what is in it."""
        if box.is_out_of_flow():
            return True
        if box.is_context or box.border.top or box.padding.top or box.padding.bottom or box.border.bottom:
            return False
        if box.has_lines:
            return False
        if box.min_height or box.given_height not in (None, 0):
            return False
        return all(self.collapses_through(child) and child not in self.with_clearance for child in box.children)

    def ends_with_clearance(self, box):
        """A child with clearance that is collapsed through is among the last children, with only such ones after it.

        Its margins then collapse with those of the siblings after it, and not with the parent's bottom margin.
        """
        for child in reversed(box.children):
            if not self.collapses_through(child):
                return False
            if child in self.with_clearance:
                return True
        return False

    def join_children(self, box):
        """Joins the bottom margin of each child and the top margin of its next sibling, which has no clearance."""
        for child, sibling in zip(box.children, box.children[1:]):
            if sibling not in self.with_clearance:
                self.join(bottom_margin(child), top_margin(sibling))

    def join_box(self, box):
        """Joins the margins of a box with each other, and with those of its first and last child."""
        if self.collapses_through(box):
            self.join(top_margin(box), bottom_margin(box))
        if box.is_context or not box.children:
            return
        self.join_children(box)
        first, last = box.children[0], box.children[-1]
        if not (box.border.top or box.padding.top) and first not in self.with_clearance:
            self.join(top_margin(box), top_margin(first))
        if (not (box.border.bottom or box.padding.bottom) and box.given_height is None and box.min_height == 0
                and not self.ends_with_clearance(box)):
            self.join(bottom_margin(last), bottom_margin(box))

    def join(self, margin, other):
        """Makes one run of the runs of two margins."""
        self.joined[self.run(other)] = self.run(margin)

    # -- runs

    def run(self, margin):
        """The run of a margin, as one margin that stands for it."""
        while self.joined[margin] != margin:
            margin = self.joined[margin]
        return margin

    def adjoin(self, margin, other):
        return self.run(margin) == self.run(other)

    def has(self, margin):
        """The margin stands in the sequence; those of boxes in lines don't."""
        return margin in self.places

    def stands_before(self, margin, other):
        """In document order."""
        return self.places[margin] < self.places[other]

    def whole(self, margin):
        """What the run of a margin collapses to."""
        return collapsed([amount(other) for other in self.members[self.run(margin)]])

    def before(self, margin):
        """What the margins before a margin in its run collapse to."""
        members = self.members[self.run(margin)]
        return collapsed([amount(other) for other in members if self.stands_before(other, margin)])
