"""Offsets of relative boxes, and the equations of absolute ones (CSS 2.2, 9.4.3, 10.3.7, 10.3.8, 10.6.4 and 10.6.5).

None stands for `auto`. The equations across and down are one: from the start, which is left or top, to the end.
"""
from collections import namedtuple

from reading.styles import resolve, within_limit

# The used offset of the start, the margins at start and end, and the size.
Solved = namedtuple('Solved', 'start before after size')


def first_offset(style, names, base):
    """The offset by the first of two properties that isn't `auto`; the second one is of the other side."""
    start, end = (resolve(style[name], base) for name in names)
    if start is None:
        start = 0 if end is None else -end
    return within_limit(start)


def relative_offset(style, containing_width, containing_height):
    """How far a relative box stands right of its place and below it; left wins over right, and top over bottom."""
    if style['position'].amount != 'relative':
        return 0, 0
    return (first_offset(style, ('left', 'right'), containing_width),
            first_offset(style, ('top', 'bottom'), containing_height))


def offset_of_inlines(node, container):
    """How far the inline boxes of a node and around it move what is in it, in a block container.

    They move also a block that has broken them; there are none where the node generates another box.
    """
    left = top = 0
    while node and node.is_inline_box():
        offset = relative_offset(node.style, container.width, container.percentage_base)
        left, top, node = left + offset[0], top + offset[1], node.parent
    return left, top


def offset_in(container, box):
    """How far a box is moved in its block container, by its own offsets and by those of the inline boxes around it.

    In a wrapper nothing is moved; the table's offsets are used on the wrapper.
    """
    if container.table:
        return 0, 0
    left, top = relative_offset(box.style, container.width, container.percentage_base)
    inlines = offset_of_inlines(box.node if box.is_anonymous else box.node.parent, container)
    return left + inlines[0], top + inlines[1]


def shared_margins(before, after, room, are_always_equal):
    """The margins where nothing else is `auto`; both share the room, the first one rounded down.

    Across they don't share a room that is negative: the one at the end has it all.
    """
    if before is None and after is None:
        before = room // 2 if room >= 0 or are_always_equal else 0
        after = room - before
    elif before is None:
        before = room - after
    elif after is None:
        after = room - before
    return before, after


def solve_absolute(room, start, end, before, after, size, static, content_size, are_always_equal=False):
    """The equation start + before + size + after + end = room, the room being without borders and paddings.

    - With start, size and end given, margins of `auto` follow; if there are none, the end isn't heeded.
    - Else margins of `auto` are 0. Where start and end are `auto`, the start is the static position.
    - A size of `auto` is that of the content where an offset still is `auto`, by what is available; else it follows,
      and is at least 0.
    - A start of `auto` follows.
    """
    if None not in (start, size, end):
        before, after = shared_margins(before, after, room - start - size - end, are_always_equal)
        return Solved(start, before, after, size)
    before, after = before or 0, after or 0
    if start is None and end is None:
        start = static
    available = room - (start or 0) - before - after - (end or 0)
    if size is None:
        size = content_size(available) if None in (start, end) else max(0, available)
    if start is None:
        start = room - before - size - after - end
    return Solved(start, before, after, size)
