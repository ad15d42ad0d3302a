"""Floats, and boxes beside them (CSS 2.2, 9.5 and 9.5.1, with 9.5.2 for `clear` on floats).

Each place is looked for among all tops and left edges where something begins or ends, the highest first.
"""
from collections import namedtuple

ONE_UNIT = 1


class ContainingBlock(namedtuple('ContainingBlock', 'left top right')):
    """The edges of the content box that floats in it may not pass."""

    def mirrored(self):
        return ContainingBlock(-self.right, self.top, -self.left)


class FloatBox(namedtuple('FloatBox', 'box side left top right bottom')):
    """The margin box of a placed float."""

    def mirrored(self):
        side = 'left' if self.side == 'right' else 'right'
        return FloatBox(self.box, side, -self.right, self.top, -self.left, self.bottom)


def clears(clear, side):
    """A box with this `clear` goes past the floats of the side (9.5.2)."""
    return clear == 'both' or clear == side


def bottoms_to_clear(clear, floats):
    """The bottoms of the margin boxes that a box with this `clear` goes past (9.5.2)."""
    return [other.bottom for other in floats if clears(clear, other.side)]


def is_next_to(top, height, other):
    """A box at a top, and an earlier float: their ranges share a point, a range having its top and not its bottom."""
    if other.bottom - other.top < ONE_UNIT:
        return False
    if height < ONE_UNIT:
        return other.top <= top < other.bottom
    return max(top, other.top) < min(top + height, other.bottom)


def tops_from(highest, floats):
    """The highest top, and below it those at which what is next to a box changes."""
    return sorted({highest} | {y for other in floats for y in (other.top, other.bottom) if y > highest})


def highest_top(box, containing_block, mark, earlier):
    """The highest top that a float may have, whatever its left edge."""
    return max([containing_block.top]                       # rule 4: not above its containing block
               + [mark]                                     # rule 5: not above an earlier block ..
               + [other.top for other in earlier]           # .. or float
               + bottoms_to_clear(box.clear, earlier))      # 9.5.2


def obeys_rules(left, right, containing_block, reaching_below, lefts, rights):
    """The rules of 9.5.1 for a left float at some top.

    Of the earlier floats some are left ones whose bottom is below that top, and some are next to the float.
    """
    if left < containing_block.left:                                                        # rule 1
        return False
    if any(left < other.right for other in reaching_below):                                 # rule 2
        return False
    if any(right > other.left for other in rights):                                         # rule 3
        return False
    if right > containing_block.right and any(other.right <= left for other in lefts):      # rule 7
        return False
    return True


def place_left_float(box, height, containing_block, highest, earlier):
    """The margin box of a left float: the highest place that the rules allow, and then the leftmost (8 and 9)."""
    width = box.margin.left + box.border_box_width + box.margin.right
    edges = sorted({containing_block.left} | {x for other in earlier for x in (other.left, other.right)})
    for top in tops_from(highest, earlier):
        reaching_below = [other for other in earlier if other.side == 'left' and top < other.bottom]
        next_to = [other for other in earlier if is_next_to(top, height, other)]
        lefts = [other for other in next_to if other.side == 'left']
        rights = [other for other in next_to if other.side == 'right']
        for left in edges:
            if obeys_rules(left, left + width, containing_block, reaching_below, lefts, rights):
                return FloatBox(box, 'left', left, top, left + width, top + height)
    raise AssertionError('a float has no place')


def place_float(box, height, containing_block, mark, earlier):
    """The margin box of a float, of the height of its margin box; a right float is a left one in the mirror image."""
    highest = highest_top(box, containing_block, mark, earlier)
    if box.side == 'left':
        return place_left_float(box, height, containing_block, highest, earlier)
    mirrored = [other.mirrored() for other in earlier]
    return place_left_float(box, height, containing_block.mirrored(), highest, mirrored).mirrored()


def place_solid(box, height, containing_block, mark, floats):
    """The left and top border edges of a context's own box in the flow, which overlaps no float (9.5).

    At the highest top that will do it stands right of the left floats that are next to it, or at its own margin.
    """
    for top in tops_from(mark, floats):
        next_to = [other for other in floats if is_next_to(top, height, other)]
        left = max([containing_block.left + box.margin.left]
                   + [other.right for other in next_to if other.side == 'left'])
        right = min([containing_block.right]
                    + [other.left for other in next_to if other.side == 'right'])
        if not next_to or left + box.border_box_width <= right:
            return left, top
    raise AssertionError('a box beside floats has no place')
