"""The columns of a table (CSS 2.2, 17.5.2.1).

Every table has the fixed layout. None stands for a width of `auto`.
"""
from reading.edges import borders, paddings
from reading.styles import resolve, size_within_limit


def spacing_across(table):
    """Between two columns, and beside the first and the last one (17.6.1)."""
    return 0 if table.collapses else size_within_limit(table.style['border-spacing'].amount[0])


def all_spacings_across(table):
    return spacing_across(table) * (len(table.columns) + 1) if table.columns else 0


def left_of_column(table, column):
    """From the left border edge of the table box; a table without columns has no spacing."""
    widths = table.column_widths[:column]
    return (table.border.left + table.padding.left + (spacing_across(table) if table.columns else 0)
            + sum(widths) + spacing_across(table) * len(widths))


def width_over_columns(table, column, count):
    """The width of some columns with the spacings between them (17.5.2.1)."""
    return sum(table.column_widths[column:column + count]) + spacing_across(table) * max(0, count - 1)


def width_of_rows(table):
    """From the first column to the last one; the content box of a table without columns."""
    return width_over_columns(table, 0, len(table.columns)) if table.columns else table.width


def shares(amount, count):
    """Equal shares of an amount; units that are left over go one each to the first ones."""
    share, over = divmod(amount, count)
    return [share + (place < over) for place in range(count)]


def width_of_cell(cell, base, wanted):
    """The width of a cell's border box as it is given; a percentage of it is of the base, and one of a padding of the table's width.

    Without these they are `auto` and 0.
    """
    width = resolve(cell.style['width'], base)
    if width is None:
        return None
    return width + sum(edges.left + edges.right for edges in (borders(cell), paddings(cell, wanted)))


def base_of_columns(table, wanted):
    """What percentages of columns are of: the width that the table is to have, less all spacings."""
    return None if wanted is None else max(0, wanted - all_spacings_across(table))


def own_widths(table, wanted):
    """The width that each column has of its own: its element's, else its share of that of the cell of the first row."""
    base = base_of_columns(table, wanted)
    widths = [column.element and resolve(column.element.style['width'], base) for column in table.columns]
    for cell in table.grid.cells_of_first_row():
        area, width = table.grid.areas[cell], width_of_cell(cell, base, wanted)
        if width is None:
            continue
        rest = max(0, width - spacing_across(table) * (area.columns - 1))
        for column, share in enumerate(shares(rest, area.columns), area.column):
            if widths[column] is None:
                widths[column] = share
    return widths


def column_widths(table, width):
    """The widths of the columns of a table that is to have this content width, before any limit.

    What the columns' own widths leave goes in equal shares to those without one, or to all if each has one.
    """
    widths = own_widths(table, width)
    takers = [column for column, own in enumerate(widths) if own is None] or list(range(len(widths)))
    widths = [own or 0 for own in widths]
    rest = max(0, width - all_spacings_across(table) - sum(widths))
    for column, share in zip(takers, shares(rest, len(takers)) if takers else []):
        widths[column] += share
    return widths


def used_columns(widths):
    """The used widths of columns, each within the limit."""
    return [size_within_limit(width) for width in widths]
