"""Where the baselines of boxes stand in a line, and how high the line is (CSS 2.2, 10.8.1).

Above is positive here: a raise of 1 puts a baseline one unit above another one.
"""
from collections import namedtuple

from reading.baselines import baseline_of_atomic
from reading.styles import Value, resolve, used_line_height, within_limit

# How far a box reaches above and below its baseline.
Extent = namedtuple('Extent', 'above below')
# A line's extent from the baseline of its strut, and how far the baseline of each of its boxes stands above that one.
Shape = namedtuple('Shape', 'extent raises')

EDGES_OF_LINES = ('top', 'bottom')
BASELINE = Value('word', 'baseline')


def extent_of_font(box, face):
    """The extent of an inline box or a strut; half of the leading is above."""
    size = box.style['font-size']
    ascent, descent = face.ascent(size), face.descent(size)
    leading = used_line_height(box.style, face) - (ascent + descent)
    return Extent(ascent + leading // 2, descent + (leading - leading // 2))


def extent_of_atomic(box):
    """The extent of the margin box of an atomic box, which is laid out."""
    height = box.margin.top + box.border_box_height + box.margin.bottom
    baseline = baseline_of_atomic(box)
    if baseline is None:
        return Extent(height, 0)
    return Extent(box.margin.top + baseline, height - box.margin.top - baseline)


def vertical_align(box):
    """The value for a box in a line; that of an inline-table is used on the table box inside the wrapper (17.4)."""
    return BASELINE if box.display == 'inline-table' else box.style['vertical-align']


def raise_over_parent(box, extent, parent, face):
    """How far the baseline of a box stands above that of its parent, for all values but `top` and `bottom`."""
    align = vertical_align(box)
    size = parent.style['font-size']
    if align.kind == 'length':
        return within_limit(align.amount)
    if align.kind == 'percentage':
        return resolve(align, used_line_height(box.style, face))
    return within_limit({
        'baseline': 0,
        'sub': -(size // 5),
        'super': size // 3,
        'middle': (face.x_height(size) + extent.below - extent.above) // 2,
        'text-top': face.ascent(size) - extent.above,
        'text-bottom': extent.below - face.descent(size),
    }[align.amount])


def edge_of_line(box, strut):
    """The edge of the line at which a box stands, `top` or `bottom`, or None."""
    align = vertical_align(box).amount
    return align if box is not strut and align in EDGES_OF_LINES else None


def raises_over_roots(boxes, extents, strut, face):
    """For each box the root of its aligned subtree, and how far its baseline stands above the root's.

    The root is the nearest box outward that is `top` or `bottom`, or the strut.
    """
    found = {}
    for box in boxes:
        if box is strut or edge_of_line(box, strut):
            found[box] = box, 0
        else:
            root, parents_raise = found[box.holder]
            found[box] = root, parents_raise + raise_over_parent(box, extents[box], box.holder, face)
    return found


def shape_of_line(boxes, extents, face):
    """The shape of a line with these boxes, each after the one that holds it; the first is the strut.

    The aligned subtree of the strut has its place first. Then those that are `top` extend the line downward, and after
    them those that are `bottom` extend it upward.
    """
    strut = boxes[0]
    over_roots = raises_over_roots(boxes, extents, strut, face)
    subtrees = {}
    for box, (root, over_root) in over_roots.items():
        aboves, belows = subtrees.setdefault(root, ([], []))
        aboves.append(extents[box].above + over_root)
        belows.append(extents[box].below - over_root)
    subtrees = {root: Extent(max(aboves), max(belows)) for root, (aboves, belows) in subtrees.items()}
    above, below = subtrees[strut]
    edges = {root: edge_of_line(root, strut) for root in subtrees}
    below = max([below] + [sum(subtrees[root]) - above for root in edges if edges[root] == 'top'])
    above = max([above] + [sum(subtrees[root]) - below for root in edges if edges[root] == 'bottom'])
    root_raises = {strut: 0}
    for root, edge in edges.items():
        if edge == 'top':
            root_raises[root] = above - subtrees[root].above
        elif edge == 'bottom':
            root_raises[root] = subtrees[root].below - below
    raises = {box: root_raises[root] + over_root for box, (root, over_root) in over_roots.items()}
    return Shape(Extent(above, below), raises)
