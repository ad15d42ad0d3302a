"""The used size of a replaced element (CSS 2.2, 10.3.2, 10.6.2 and the table of 10.4).

None stands for a size of `auto` and a greatest size of `none`.
"""
from collections import namedtuple

# The least and the greatest size in one direction.
Bounds = namedtuple('Bounds', 'least most')


def within(size, bounds):
    """A size after the three steps of 10.4 or 10.7: the least one wins."""
    if bounds.most is not None and size > bounds.most:
        size = bounds.most
    return max(size, bounds.least)


def fitted(natural, widths, heights):
    """The size of an element with both sizes `auto`: the line of the table of 10.4 for the bounds that are violated.

    Where the width and the height violate bounds of one kind, the one is kept that is violated more. A bound of `none`
    is violated by no size, and a greatest size is at least the least one.
    """
    w, h = natural
    least_w, least_h = widths.least, heights.least
    most_w, most_h = (None if most is None else max(least, most) for least, most in (widths, heights))
    too_wide, too_high = most_w is not None and w > most_w, most_h is not None and h > most_h
    too_narrow, too_low = w < least_w, h < least_h
    height_by, width_by = (lambda width: width * h // w), (lambda height: height * w // h)
    if too_wide and too_high:
        if most_w * h <= most_h * w:
            return most_w, max(least_h, height_by(most_w))
        return max(least_w, width_by(most_h)), most_h
    if too_narrow and too_low:
        if least_w * h <= least_h * w:
            width = width_by(least_h)
            return (width if most_w is None else min(most_w, width)), least_h
        height = height_by(least_w)
        return least_w, (height if most_h is None else min(most_h, height))
    if too_narrow and too_high:
        return least_w, most_h
    if too_wide and too_low:
        return most_w, least_h
    if too_wide:
        return most_w, max(height_by(most_w), least_h)
    if too_narrow:
        height = height_by(least_w)
        return least_w, (height if most_h is None else min(height, most_h))
    if too_high:
        return max(width_by(most_h), least_w), most_h
    if too_low:
        width = width_by(least_h)
        return (width if most_w is None else min(width, most_w)), least_h
    return w, h


def replaced_size(natural, width, height, widths, heights):
    """The used width and height, where `natural` has both natural sizes; the bounds are of the width and the height.

    Where one size is `auto`, it follows from the other, after the bounds of that, by the natural ratio.
    """
    natural_width, natural_height = natural
    if width is None and height is None:
        return fitted(natural, widths, heights)
    if width is not None:
        width = within(width, widths)
    if height is not None:
        height = within(height, heights)
    if height is None:
        height = within(width * natural_height // natural_width, heights)
    if width is None:
        width = within(height * natural_width // natural_height, widths)
    return width, height
