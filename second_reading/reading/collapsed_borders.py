"""Collapsed borders: which border wins at each edge of the grid, and what cells and table have of it (CSS 2.2, 17.6.2).

An edge is a side of one slot. Only the width of the winner counts in a layout, so what decides between borders of one
width isn't asked.
"""
from reading.styles import Edges, size_within_limit

UPRIGHT, LEVEL = ('right', 'left'), ('bottom', 'top')


def width_of_winner(candidates):
    """The width of the border that wins: `hidden` wins over all, then the widest; `none` has no width."""
    if any(box.style['border-%s-style' % side].amount == 'hidden' for box, side in candidates):
        return 0
    return max([0] + [size_within_limit(box.style['border-%s-width' % side].amount) for box, side in candidates])


def border_between(sides, cells, lines, groups, ending):
    """The width of the border at an edge.

    Each pair is what stands before the edge and behind it, None for nothing: cells, lines, which are rows or columns,
    and their groups. The sides are those by which these meet the edge. Lines of one group have none of the group's
    borders between them. `ending` has for each side what ends there with the grid.
    """
    pairs = [cells, lines] + ([groups] if groups[0] is not groups[1] else [])
    candidates = [(box, side) for pair in pairs for box, side in zip(pair, sides)]
    candidates += [(box, side) for boxes, side in zip(ending, sides) for box in boxes]
    return width_of_winner([(box, side) for box, side in candidates if box])


def before_and_behind(members, place):
    """The members of a list before and at a place, which may be one past the last; None for nothing."""
    return tuple(members[at] if 0 <= at < len(members) else None for at in (place - 1, place))


def ending_there(members, place, boxes):
    """What ends before the place, and what begins there: the boxes, where the place is an end of the list."""
    return boxes if place == len(members) else (), boxes if place == 0 else ()


def upright_border(table, row, column):
    """The width of the border left of a slot, or right of the last one."""
    grid, columns = table.grid, before_and_behind(table.columns, column)
    return border_between(
        UPRIGHT, [grid.slots.get((row, place)) for place in (column - 1, column)],
        [found and found.element for found in columns], [found and found.group for found in columns],
        ending_there(table.columns, column, (grid.rows[row], grid.band_of_row[row].group, table)))


def level_border(table, row, column):
    """The width of the border above a slot, or below the last one."""
    grid = table.grid
    return border_between(
        LEVEL, [grid.slots.get((place, column)) for place in (row - 1, row)], before_and_behind(grid.rows, row),
        [band and band.group for band in before_and_behind(grid.band_of_row, row)],
        ending_there(grid.rows, row, (table.columns[column].element, table.columns[column].group, table)))


# -- what cells and table have of them

def before_half(width):
    """What lies above or left of the middle of a border."""
    return width // 2


def behind_half(width):
    return width - width // 2


def borders_of_cell(table, area):
    """Along each side the greatest half that lies in the cell."""
    last_row, last_column = area.row + area.rows, area.column + area.columns
    rows, columns = range(area.row, last_row), range(area.column, last_column)
    return Edges(behind_half(max(level_border(table, area.row, column) for column in columns)),
                 before_half(max(upright_border(table, row, last_column) for row in rows)),
                 before_half(max(level_border(table, last_row, column) for column in columns)),
                 behind_half(max(upright_border(table, row, area.column) for row in rows)))


def borders_of_table(table):
    """The outer halves: left and right those of the first row, above and below the greatest ones."""
    rows, columns = range(len(table.grid.rows)), range(len(table.columns))
    if not rows or not columns:
        return Edges(0, 0, 0, 0)
    return Edges(before_half(max(level_border(table, 0, column) for column in columns)),
                 behind_half(upright_border(table, 0, len(columns))),
                 behind_half(max(level_border(table, len(rows), column) for column in columns)),
                 before_half(upright_border(table, 0, 0)))


def collapse_borders(table):
    """Sets the borders of a table whose borders collapse, and of its cells."""
    table.collapsed_border = borders_of_table(table)
    for cell, area in table.grid.areas.items():
        cell.collapsed_border = borders_of_cell(table, area)
