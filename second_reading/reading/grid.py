"""The grid of a table: which slots its cells take (CSS 2.2, 17.5).

A band is a row group, or a stretch of rows that are in none; no cell spans out of its band.
"""
from collections import namedtuple

Band = namedtuple('Band', 'group rows')
# The first row and column of a cell, and how many of each it takes.
Area = namedtuple('Area', 'row column rows columns')


def slots_of(area):
    """Each slot is its row and its column."""
    return [(row, column) for row in range(area.row, area.row + area.rows)
            for column in range(area.column, area.column + area.columns)]


class Grid:
    """The areas of the cells of these bands, the cells by their slots, and the bands by their rows.

    The places are the first rows of rows and row groups; that of an empty group is the next row, which may be one past
    the last.
    """

    def __init__(self, bands, column_elements):
        self.rows, self.band_of_row, self.places = [], [], {}
        self.areas, self.slots = {}, {}
        for band in bands:
            self.places[band.group] = len(self.rows)
            for place, row in enumerate(band.rows):
                self.places[row] = len(self.rows)
                self.place_cells(row, len(band.rows) - place)
                self.rows.append(row)
                self.band_of_row.append(band)
        self.column_count = max([column_elements] + [area.column + area.columns for area in self.areas.values()])

    def place_cells(self, row, rows_left):
        """Gives each cell of the next row the least column, right of the cells before it, where all slots are free."""
        column = 0
        for cell in row.children:
            area = Area(len(self.rows), column, min(cell.rowspan, rows_left), cell.colspan)
            while any(slot in self.slots for slot in slots_of(area)):
                area = area._replace(column=area.column + 1)
            self.areas[cell] = area
            self.slots.update(dict.fromkeys(slots_of(area), cell))
            column = area.column + area.columns

    def cells_of_first_row(self):
        return [cell for cell, area in self.areas.items() if area.row == 0]
