"""The rows of a table: their heights and baselines, and how far content stands down in cells (CSS 2.2, 17.5.3).

Tops and baselines are told from the top border edge of the table box.
"""
from reading.baselines import first_baseline
from reading.styles import resolve, size_within_limit

ALIGNED = ('top', 'middle', 'bottom')


def spacing_down(table):
    """Between two rows, and above the first and below the last one (17.6.1)."""
    return 0 if table.collapses else size_within_limit(table.style['border-spacing'].amount[1])


def edges_down(box):
    """What borders and paddings take of the height."""
    return box.border.top + box.padding.top + box.padding.bottom + box.border.bottom


def content_height(cell):
    """The height of a cell's border box that its content needs."""
    return cell.flow.auto_height + edges_down(cell)


def baseline_of_cell(cell):
    """From the cell's top border edge: that of its first line or row in the flow, or the bottom of its content edge.

    A height of its own moves that edge down where it is greater than what its content needs.
    """
    baseline = first_baseline(cell.flow, cell)
    if baseline is None:
        return cell.border.top + cell.padding.top + max(cell.flow.auto_height, cell.definite_height or 0)
    return baseline


def alignment_in_cell(cell):
    """Values that don't apply to cells are `baseline`."""
    align = cell.style['vertical-align'].amount
    return align if align in ALIGNED else 'baseline'


class Rows:
    """The rows of a table whose cells are laid out."""

    def __init__(self, table):
        self.table, self.areas, self.spacing = table, table.grid.areas, spacing_down(table)
        self.count = len(table.grid.rows)
        self.least_height = table.min_height if table.definite_height is None else table.definite_height
        self.shared_baselines = [self.shared_baseline(row) for row in range(self.count)]
        self.heights = self.find_heights()
        self.tops = self.find_tops()
        self.baselines = [self.baseline(row) for row in range(self.count)]

    # -- heights

    def shared_baseline(self, row):
        """The baseline of the cells on the baseline that begin in a row, from its top, or None."""
        return max((baseline_of_cell(cell) for cell in self.cells_that_begin(row)
                    if alignment_in_cell(cell) == 'baseline'), default=None)

    def cells_that_begin(self, row):
        return [cell for cell, area in self.areas.items() if area.row == row]

    def needed_height(self, cell):
        """What a cell needs: its height as it is given, and its content, moved down to the row's baseline."""
        given = 0 if cell.definite_height is None else cell.definite_height + edges_down(cell)
        return max(given, content_height(cell) + self.shift_to_baseline(cell))

    def shift_to_baseline(self, cell):
        if alignment_in_cell(cell) != 'baseline':
            return 0
        return self.shared_baselines[self.areas[cell].row] - baseline_of_cell(cell)

    def find_heights(self):
        """Row by row the least height; what a cell over several rows misses the last one adds, as for the table."""
        ending = {}
        for cell, area in self.areas.items():
            ending.setdefault(area.row + area.rows - 1, []).append(cell)
        heights = []
        for row, box in enumerate(self.table.grid.rows):
            height = size_within_limit(resolve(box.style['height'], None) or 0)
            for cell in ending.get(row, []):
                above = heights[self.areas[cell].row:]
                height = max(height, self.needed_height(cell) - sum(above) - self.spacing * len(above))
            heights.append(height)
        if heights:
            heights[-1] += max(0, self.least_height - sum(heights) - self.spacing * (self.count + 1))
        return [size_within_limit(height) for height in heights]

    # -- places

    def find_tops(self):
        """The tops of the rows, and behind them where another row would begin."""
        top = self.table.border.top + self.table.padding.top
        tops = [top + (self.spacing if self.heights else 0)]
        for height in self.heights:
            tops.append(tops[-1] + height + self.spacing)
        return tops

    def content_height(self):
        """The content height of the table."""
        if not self.heights:
            return self.least_height
        return size_within_limit(self.tops[-1] - self.table.border.top - self.table.padding.top)

    def bottom(self, row):
        return self.tops[row] + self.heights[row]

    def height_of_cell(self, cell):
        area = self.areas[cell]
        return self.bottom(area.row + area.rows - 1) - self.tops[area.row]

    def shift(self, cell):
        """How far the content of a cell stands below where it would stand at the top."""
        align = alignment_in_cell(cell)
        rest = self.height_of_cell(cell) - content_height(cell)
        return {'top': 0, 'middle': rest // 2, 'bottom': rest, 'baseline': self.shift_to_baseline(cell)}[align]

    def baseline(self, row):
        """The baseline of a row: the shared one, else the lowest bottom content edge of its cells, else its bottom."""
        if self.shared_baselines[row] is not None:
            return self.tops[row] + self.shared_baselines[row]
        edges = [self.tops[row] + self.height_of_cell(cell) - cell.padding.bottom - cell.border.bottom
                 for cell in self.cells_that_begin(row)]
        return max(edges, default=self.bottom(row))
