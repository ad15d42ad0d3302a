"""The columns of a table in the automatic layout, and how wide they make it (CSS 2.2, 17.5.2.2).

Each column has a minimum and a maximum, by what its cells hold. Widths of cells are those of their border boxes. Widths
in percent of cells, columns and column groups are `auto`, paddings in percent are 0, and bounds aren't heeded.
"""
from collections import namedtuple
from itertools import groupby

from reading.columns import all_spacings_across, shares, spacing_across
from reading.edges import borders, paddings
from reading.styles import resolve

# Of columns the lists of their minimums and maximums, of a cell or a table the two widths.
Extent = namedtuple('Extent', 'minimum maximum')


def has_automatic_layout(table):
    """The fixed layout is that of tables which are `fixed` and have a width (17.5.2)."""
    return table.style['table-layout'].amount != 'fixed' or table.style['width'].amount == 'auto'


def length_of_width(box):
    """The width in a length, or 0; so it is where there is no box."""
    return box and resolve(box.style['width'], None) or 0


# -- from cells to columns

def extent_of_cell(cell):
    """A width that is given raises the minimum, and the maximum is no less than the minimum (step 1)."""
    edges = sum(each.left + each.right for each in (borders(cell), paddings(cell, None)))
    minimum = max(cell.least_width, length_of_width(cell)) + edges
    return Extent(minimum, max(cell.preferred_width + edges, minimum))


def add_what_is_missing(widths, column, count, needed, spacing):
    """Some columns, with the spacings between them, get at least as wide as is needed, in equal shares (step 3)."""
    missing = needed - sum(widths[column:column + count]) - spacing * (count - 1)
    for place, share in enumerate(shares(max(0, missing), count), column):
        widths[place] += share


def column_groups(table):
    """Each column group with its first column and how many it has."""
    for _, members in groupby(enumerate(table.columns), lambda member: id(member[1].group)):
        members = list(members)
        first, column = members[0]
        if column.group:
            yield column.group, first, len(members)


def extent_of_columns(table):
    """The minimums and maximums: by column elements and cells of one column, then by each other cell in its turn.

    At last column groups raise minimums, and no maximum stays below its minimum (steps 2 to 4).
    """
    widths = Extent(*([length_of_width(column.element) for column in table.columns] for _ in Extent._fields))
    cells = [(extent_of_cell(cell), area) for cell, area in table.grid.areas.items()]
    for extent, area in cells:
        if area.columns == 1:
            for name in Extent._fields:
                least = getattr(widths, name)
                least[area.column] = max(least[area.column], getattr(extent, name))
    spacing = spacing_across(table)
    for extent, area in cells:
        if area.columns > 1:
            for name in Extent._fields:
                add_what_is_missing(getattr(widths, name), area.column, area.columns, getattr(extent, name), spacing)
    for group, first, count in column_groups(table):
        add_what_is_missing(widths.minimum, first, count, length_of_width(group), spacing)
    return Extent(widths.minimum, [max(pair) for pair in zip(*widths)])


# -- from columns to the table

def extent_of_table(table):
    """The widths of a table's content box that its columns have at least and at most."""
    return Extent(*(sum(widths) + all_spacings_across(table) for widths in table.columns_extent))


def width_for_captions(table, padding):
    """The width of the content box with which the border box is as wide as the captions need."""
    return max(0, table.captions_width - sum(each.left + each.right for each in (borders(table), padding)))


def automatic_width(table, width, room, least, most):
    """The used width of the content box; with `auto` it is as wide as its columns like to be, in the room that it has.

    It is never less than its columns and captions need, whatever the bounds are.
    """
    columns = extent_of_table(table)
    needed = max(columns.minimum, width_for_captions(table, table.padding))
    used = max(needed, min(columns.maximum, room) if width is None else width)
    if most is not None and used > most:
        used = max(needed, most)
    if used < least:
        used = max(needed, least)
    return used


# -- from the table to columns

def grown_by_room_to_grow(minimums, maximums, space):
    """Columns between their minimums and maximums, each with its part of the space by what it can grow.

    Units that are left over go one each to the first columns that can grow.
    """
    growths = [maximum - minimum for minimum, maximum in zip(minimums, maximums)]
    beyond = space - sum(minimums)
    widths = [minimum + (growth and beyond * growth // sum(growths)) for minimum, growth in zip(minimums, growths)]
    growing = [column for column, growth in enumerate(growths) if growth]
    for column in growing[:space - sum(widths)]:
        widths[column] += 1
    return widths


def automatic_column_widths(table, width):
    """The widths of the columns of a table that has this content width, before any limit.

    All share what is beyond the maximums.
    """
    minimums, maximums = table.columns_extent
    space = width - all_spacings_across(table)
    beyond = space - sum(maximums)
    if beyond <= 0 or not maximums:
        return grown_by_room_to_grow(minimums, maximums, space)
    return [maximum + share for maximum, share in zip(maximums, shares(beyond, len(maximums)))]
