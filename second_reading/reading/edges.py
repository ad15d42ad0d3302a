"""Margins, borders and paddings (CSS 2.2, 8.3 to 8.5, 17.4, 17.5 and 17.6).

Percentages are of the base, also above and below; without a base they are 0, and so is `auto`. The wrapper of a table
has its margins, and the table box its borders and paddings; cells have no margins.
"""
from reading.missing_tables import TABLES
from reading.styles import SIDES, Edges, resolve, size_within_limit, within_limit

NO_EDGES = Edges(0, 0, 0, 0)


def borders(box):
    if box.display in TABLES:
        return NO_EDGES
    return box.collapsed_border or Edges(*(size_within_limit(box.style['border-%s-width' % side].amount)
                                           for side in SIDES))


def paddings(box, base):
    """A table whose borders collapse has no padding (17.6.2)."""
    if box.display in TABLES or (box.display == 'table-box' and box.collapses):
        return NO_EDGES
    return Edges(*(size_within_limit(resolve(box.style['padding-' + side], base) or 0) for side in SIDES))


def margins(box, base):
    if box.display in ('table-box', 'table-cell'):
        return NO_EDGES
    return Edges(*(within_limit(resolve(box.style['margin-' + side], base) or 0) for side in SIDES))
