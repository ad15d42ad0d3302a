"""Random run documents with tables, and with boxes of tables that stand anywhere.

They are those of `atomic_documents` with tables among the boxes and in each other. Lengths are from short lists, so
that what divides evenly over columns and what doesn't are common, and so are borders of one width.
"""
import random
from collections import namedtuple

from documents.atomic_documents import ALIGNMENTS, NEAR_THE_LIMIT, AtomicDocument
from reading.styles import SIDES

# How often something is drawn, in hundredths: tables and stray boxes of tables among children, and what a table has.
# `fixed` is `table-layout`, `bound` is of the widths of tables and captions, and `short` is a text of short words.
TableProfile = namedtuple('TableProfile', 'table stray caption column group row_span column_span odd collapse spacing'
                                          ' width height edge border align filled fixed bound short',
                          defaults=[30, 8, 25])
TABLE_PROFILES = {
    'baselines':  TableProfile(55, 3,  15, 5,  15, 25, 5,  3,  15, 25, 30, 40, 40, 15, 90, 85),
    'borders':    TableProfile(60, 3,  10, 45, 45, 25, 30, 3,  95, 10, 45, 20, 10, 60, 20, 25),
    'captions':   TableProfile(60, 3,  80, 20, 10, 10, 20, 3,  25, 30, 50, 10, 30, 25, 5,  60, 10, 40, 50),
    'columns':    TableProfile(60, 3,  15, 60, 10, 10, 30, 3,  20, 50, 70, 10, 25, 15, 10, 30, 60),
    'contents':   TableProfile(60, 3,  10, 35, 15, 15, 35, 3,  20, 30, 35, 5,  20, 15, 10, 95, 5,  15, 85),
    'empty':      TableProfile(60, 3,  35, 65, 30, 15, 50, 5,  20, 50, 45, 10, 20, 20, 5,  10, 10, 20),
    'heights':    TableProfile(60, 3,  15, 5,  30, 45, 15, 3,  15, 50, 30, 60, 15, 15, 40, 40),
    'mixed':      TableProfile(50, 8,  20, 25, 30, 20, 20, 12, 35, 40, 40, 35, 20, 25, 40, 55),
    'missing':    TableProfile(40, 45, 15, 15, 25, 10, 10, 45, 20, 30, 20, 15, 10, 15, 20, 50),
    'groups':     TableProfile(60, 3,  45, 15, 85, 40, 15, 3,  20, 25, 15, 35, 10, 15, 20, 30),
    'percent':    TableProfile(60, 3,  25, 40, 30, 15, 20, 3,  15, 25, 80, 85, 20, 10, 30, 60, 60),
    'shrinking':  TableProfile(65, 5,  40, 30, 15, 10, 20, 5,  25, 40, 25, 15, 30, 20, 15, 75),
    'spans':      TableProfile(60, 2,  5,  10, 30, 60, 60, 3,  35, 35, 30, 30, 10, 40, 30, 30, 40),
    'wide spans': TableProfile(60, 2,  8,  50, 15, 10, 75, 3,  20, 40, 45, 5,  10, 15, 5,  75, 5,  15, 70),
}
TABLE_PROFILE_NAMES = sorted(TABLE_PROFILES) + ['borders', 'columns', 'heights', 'contents', 'wide spans']
MORE_NODES = [4, 6, 8, 10, 12, 16]
# How often a table without cells stands in the place of a child, in hundredths.
BARE_TABLE = 3
# How often one with cells over most columns does, beside what its spans add.
SPANNED_TABLE = 3
# How often a box of a table has a width near the limit of lengths, in hundredths.
GREAT_WIDTH = 0.3

TABLE_WIDTHS = ['50px', '60px', '99px', '100px', '33px', '70.015625px', '0', '50%', '100%', '33.33%', 'auto']
TABLE_HEIGHTS = ['0', '10px', '30px', '50px', '81px', '50%', '100%', 'auto']
GROUP_WIDTHS = ['30px', '60px', '60px', '90px', '99.015625px', '140px', '50%', '0']
COLUMN_WIDTHS = ['10px', '20px', '20px', '30px', '7.5px', '25%', '50%', '10%', 'auto', '0']
CAPTION_WIDTHS = ['10px', '20px', '30px', '41px', '60px', '99px', '140px', '25%', 'auto', '0']
CELL_WIDTHS = ['10px', '16px', '20px', '30px', '41px', '25%', '50%', '33.33%', 'auto', '0']
HEIGHTS = ['5px', '10px', '16px', '20px', '30px', '31px', '50%', '0', 'auto']
SPACINGS = ['1px', '2px', '5px', '0', '2px 3px', '1px 7px', '0 4px', '10px 0', '0.5px', '0.5em 0.1em', '3.015625px']
CELL_ALIGNMENTS = ['top', 'middle', 'bottom', 'baseline', 'middle', 'bottom', 'top', 'sub', '4px', 'text-bottom', '50%',
                   'inherit']
COLLAPSED_WIDTHS = ['1px', '2px', '3px', '3px', '5px', 'thin', 'medium', '0', '1.5px', '3.015625px', '4px', '0.2em']
BORDER_STYLES = ['solid', 'solid', 'solid', 'double', 'dashed', 'dotted', 'ridge', 'outset', 'groove', 'inset',
                 'hidden', 'hidden', 'none', 'inherit']
GROUPS = ['table-row-group', 'table-row-group', 'table-header-group', 'table-footer-group', 'table-footer-group']
INNER = GROUPS + ['table-row', 'table-row', 'table-cell', 'table-cell', 'table-cell', 'table-caption', 'table-column',
                  'table-column-group']
BLANKS = [' ', '\n', ' \n ', '\t', '\r', '']
SPANS = [2, 2, 2, 3, 3, 4, 64]
SHORT_WORDS = ['a', 'a', 'bb', 'ccc', 'dddd']


class TableDocument(AtomicDocument):
    """Draws the nodes of one document."""

    def __init__(self, rng):
        super().__init__(rng)
        self.tables = TABLE_PROFILES[rng.choice(TABLE_PROFILE_NAMES)]
        self.left += rng.choice(MORE_NODES)

    def draw(self):
        run = super().draw()
        root = run['nodes'][0]['style']
        if self.hit(3):
            root['display'] = self.choice(['table', 'inline-table', 'table-cell', 'table-row'])
        if self.hit(self.tables.collapse / 5):
            root['border-collapse'] = 'collapse'
        if self.hit(self.tables.spacing / 5):
            root['border-spacing'] = self.choice(SPACINGS)
        return run

    # -- the tree

    def add_child(self, parent, kind, depth):
        """One child: a table, a box of one without it, or what there is without tables."""
        if depth < 7 and self.hit(BARE_TABLE):
            self.add_bare_table(parent, depth)
        elif depth < 7 and self.hit(SPANNED_TABLE + self.tables.column_span / 4):
            self.add_spanned_table(parent)
        elif depth < 7 and self.hit(self.tables.table if depth < 3 else self.tables.table / 4):
            self.add_table(parent, depth)
            self.add_blank(parent)
        elif depth < 7 and self.hit(self.tables.stray):
            self.add_inner(parent, self.choice(INNER), depth)
        else:
            super().add_child(parent, kind, depth)

    def add_inner(self, parent, display, depth):
        """A box of a table of this display, with what may be in it."""
        if self.left <= 0:
            return
        if display in GROUPS:
            self.add_group(parent, display, depth)
        elif display == 'table-row':
            self.add_row_of_cells(parent, depth)
        elif display == 'table-cell':
            self.add_cell(parent, depth)
        elif display == 'table-caption':
            self.add_caption(parent, depth)
        else:
            self.add_column(parent, display, depth)

    def add_table(self, parent, depth):
        """A table with its captions, columns, row groups and rows, in about this order."""
        ident = self.add_element(parent, self.table_style())
        chances = (self.tables.caption, self.tables.caption / 2)
        parts = [part for chance in chances for part in ['table-caption'] * self.hit(chance)]
        if self.hit(self.tables.column):
            parts += [self.choice(['table-column', 'table-column', 'table-column-group'])
                      for _ in range(self.choice([1, 2, 2, 3]))]
        for _ in range(self.choice([0, 1, 1, 2, 2, 3, 4])):
            parts.append(self.choice(GROUPS) if self.hit(self.tables.group) else 'table-row')
        if self.hit(10):
            self.rng.shuffle(parts)
        for part in parts:
            self.add_blank(ident)
            self.add_odd(ident, depth)
            self.add_inner(ident, part, depth + 1)
        self.add_odd(ident, depth)
        self.add_blank(ident)

    def add_bare_table(self, parent, depth):
        """A table whose rows have no cells, and mostly no columns."""
        ident = self.add_element(parent, self.table_style())
        if self.hit(40):
            self.add_caption(ident, depth + 1)
        if self.hit(10):
            self.add_column(ident, 'table-column', depth + 1)
        for _ in range(self.choice([1, 2, 2, 3])):
            group = ident
            if self.hit(50):
                group = self.add_element(ident, self.inner_style(self.choice(GROUPS)))
            for _ in range(self.choice([0, 1, 1, 2])):
                style = self.inner_style('table-row')
                style['height'] = self.choice(HEIGHTS)
                self.add_element(group, style)

    def add_spanned_table(self, parent):
        """A table of a few columns, with cells of one column in one row and cells over columns in the others."""
        ident = self.add_element(parent, self.table_style())
        count = self.choice([2, 2, 3, 3, 4])
        if self.hit(max(35, self.tables.column)):
            self.add_column_groups(ident, count)
        spans = [[self.choice([1, 2, 2, count]) for _ in range(self.choice([1, 2]))] for _ in range(self.choice([1, 2, 3]))]
        spans.insert(self.choice([0, 0, len(spans)]), [1] * self.choice([count, count, count - 1]))
        for row in spans:
            style = self.inner_style('table-row')
            self.add_spanned_cells(self.add_element(ident, style), row)

    def add_column_groups(self, parent, count):
        """Groups that raise the widths of columns, some with columns that have a width of their own."""
        for _ in range(self.choice([1, 1, 2])):
            style = dict(self.inner_style('table-column-group'), width=self.choice(GROUP_WIDTHS))
            ident = self.add_element(parent, style)
            columns = self.choice([0, 0, 1, 2, count])
            if columns == 0:
                self.nodes[-1]['colspan'] = self.choice([1, 2, 2, count])
            for _ in range(columns):
                style = self.inner_style('table-column')
                if self.hit(30):
                    style['width'] = self.choice(COLUMN_WIDTHS)
                self.add_element(ident, style)

    def add_spanned_cells(self, parent, spans):
        for span in spans:
            style = self.inner_style('table-cell')
            if self.hit(30):
                self.add_cell_style(style)
            ident = self.add_element(parent, style)
            self.nodes[-1].update({'colspan': span} if span > 1 else {})
            if self.hit(85):
                words = [self.choice(SHORT_WORDS) * self.choice([1, 1, 1, 2, 4]) for _ in range(self.choice([1, 1, 2, 4, 7]))]
                self.add_text(ident, ' '.join(words))

    def add_group(self, parent, display, depth):
        ident = self.add_element(parent, self.inner_style(display))
        for _ in range(self.choice([0, 1, 1, 2, 2, 3])):
            self.add_blank(ident)
            self.add_odd(ident, depth)
            self.add_inner(ident, 'table-row', depth + 1)
        self.add_blank(ident)

    def add_row_of_cells(self, parent, depth):
        style = self.inner_style('table-row')
        if self.hit(self.tables.height / 2):
            style['height'] = self.choice(HEIGHTS)
        ident = self.add_element(parent, style)
        for _ in range(self.choice([0, 1, 1, 2, 2, 3, 3])):
            self.add_blank(ident)
            self.add_odd(ident, depth)
            self.add_inner(ident, 'table-cell', depth + 1)
        self.add_blank(ident)

    def add_cell(self, parent, depth):
        style = self.inner_style('table-cell')
        self.add_cell_style(style)
        ident = self.add_element(parent, style)
        for name, chance in (('colspan', self.tables.column_span), ('rowspan', self.tables.row_span)):
            if self.hit(chance):
                self.nodes[-1][name] = self.choice(SPANS)
        self.fill(ident, depth)

    def add_caption(self, parent, depth):
        style = self.inner_style('table-caption')
        if self.hit(35):
            style['caption-side'] = self.choice(['bottom', 'bottom', 'top', 'inherit'])
        if self.hit(20):
            style['width'] = self.choice(CAPTION_WIDTHS)
        self.add_width_bounds(style)
        if self.hit(15 + self.tables.height / 4):
            style['height'] = self.choice(HEIGHTS + ['50%', '100%'])
        self.add_edges(style, self.tables.edge, self.tables.edge)
        self.fill(self.add_element(parent, style), depth)

    def add_column(self, parent, display, depth):
        """A column, or a group with its columns or without."""
        style = self.inner_style(display)
        if self.hit(self.tables.width):
            style['width'] = self.choice(COLUMN_WIDTHS)
        ident = self.add_element(parent, style)
        if self.hit(20):
            self.nodes[-1]['colspan'] = self.choice([2, 2, 3])
        if display == 'table-column-group' and self.hit(60):
            for _ in range(self.choice([1, 1, 2])):
                self.add_blank(ident)
                self.add_inner(ident, 'table-column', depth + 1)
        elif self.hit(self.tables.odd / 2):
            self.add_text(ident, self.text())

    def add_blank(self, parent):
        """White space between boxes of tables, which comes to nothing in most places."""
        if self.hit(15) and self.left > 0:
            self.add_text(parent, self.choice(BLANKS))
            if self.hit(15):
                self.add_text(parent, self.choice(BLANKS))

    def add_odd(self, parent, depth):
        """Now and then what may not stand among boxes of a table."""
        if not self.hit(self.tables.odd / 2) or self.left <= 0:
            return
        if self.hit(50):
            self.add_inner(parent, self.choice(INNER), depth + 1)
        elif self.hit(50):
            super().add_child(parent, 'block', depth + 1)
        else:
            self.add_text(parent, self.text())
        self.add_blank(parent)

    def fill(self, ident, depth):
        """The content of a cell or a caption: mostly a text or nothing, or a block with a text."""
        if not self.hit(self.tables.filled):
            return
        for _ in range(self.choice([1, 1, 1, 2])):
            if self.left <= 0:
                return
            if self.hit(50):
                self.add_text(ident, self.text_in_cell())
            elif self.hit(25):
                self.add_text(self.add_element(ident, self.style_in_cell()), self.text_in_cell())
            else:
                self.add_child(ident, 'float', depth + 1)

    def text_in_cell(self):
        """Short words fit into columns between their minimums and maximums."""
        if self.hit(self.tables.short):
            return ' '.join(self.choice(SHORT_WORDS) for _ in range(self.choice([1, 1, 2, 2, 3, 4, 6])))
        return self.text()

    def style_in_cell(self):
        """A block whose baseline doesn't count, or whose height is in percent."""
        style = {'display': 'block'}
        if self.hit(50):
            style['height'] = self.choice(['50%', '100%', '20px', '10%'])
        if self.hit(self.tables.align / 1.5):
            style['overflow'] = 'hidden'
        if self.hit(20):
            style['margin-top'] = self.choice(['5px', '10px', '-5px'])
        return style

    # -- styles

    def table_style(self):
        """The declarations of a table."""
        tables = self.tables
        style = {'display': self.choice(['table', 'inline-table'] if self.hit(tables.align) else ['table'] * 3 +
                                        ['inline-table'])}
        if self.hit(20):
            style['float'] = self.choice(['left', 'right'])
        if self.hit(tables.collapse):
            style['border-collapse'] = self.choice(['collapse', 'collapse', 'separate', 'inherit'])
        if self.hit(tables.spacing):
            style['border-spacing'] = self.choice(SPACINGS)
        if self.hit(tables.width):
            style['width'] = self.choice(TABLE_WIDTHS)
        if self.hit(tables.height / 2):
            style['height'] = self.choice(TABLE_HEIGHTS)
        self.add_width_bounds(style)
        if self.hit(tables.height / 6):
            style[self.choice(['min-height', 'max-height'])] = self.choice(TABLE_HEIGHTS[:-1])
        self.add_edges(style, tables.edge / 2, tables.edge / 3)
        self.add_borders(style, tables.border / 2)
        for name, texts, chance in (('vertical-align', ALIGNMENTS, 12), ('clear', ['left', 'both'], 6),
                                    ('overflow', ['hidden', 'auto'], 6), ('table-layout', ['auto', 'inherit'], 8),
                                    ('caption-side', ['bottom', 'top'], tables.caption / 2)):
            if self.hit(chance):
                style[name] = self.choice(texts)
        if self.hit(tables.fixed):
            style['table-layout'] = 'fixed'
            if self.hit(75):
                style['width'] = self.choice(TABLE_WIDTHS[:-1])
        if self.hit(15):
            self.add_text_style(style)
        if self.hit(GREAT_WIDTH):
            style[self.choice(['width', 'min-width', 'padding-left', 'max-width'])] = self.choice(NEAR_THE_LIMIT)
        return style

    def add_width_bounds(self, style):
        """The least and the greatest width of a table or a caption."""
        for name in ('min-width', 'max-width'):
            if self.hit(self.tables.bound):
                style[name] = self.choice(TABLE_WIDTHS[:-1])

    def inner_style(self, display):
        """The declarations of a box of a table that have an effect on few kinds of them."""
        style = {'display': display}
        self.add_borders(style, self.tables.border if display != 'table-caption' else 5)
        if self.hit(5):
            self.add_edges(style, 30, 30)
        if self.hit(4):
            style[self.choice(['width', 'height', 'min-width', 'max-width', 'min-height', 'max-height'])] = '25px'
        if self.hit(GREAT_WIDTH):
            style['width'] = self.choice(NEAR_THE_LIMIT)
        if self.hit(4):
            style['overflow'] = 'hidden'
        if self.hit(2):
            style['float'] = self.choice(['left', 'right'])
        if self.hit(1.5):
            style['display'] = 'none'
        if self.hit(5):
            style['vertical-align'] = self.choice(CELL_ALIGNMENTS)
        return style

    def add_cell_style(self, style):
        """The size of a cell, and how its content stands in it."""
        tables = self.tables
        if self.hit(tables.width / 1.5):
            style['width'] = self.choice(CELL_WIDTHS)
        if self.hit(tables.height):
            style['height'] = self.choice(HEIGHTS)
        if self.hit(tables.align):
            style['vertical-align'] = self.choice(CELL_ALIGNMENTS)
        for side in SIDES:
            if self.hit(tables.edge):
                style['padding-' + side] = self.choice([self.pixels(), self.pixels(), '10%', '1px', '3.3px'])
        if self.hit(tables.align / 4):
            style['font-size'] = self.choice(['8px', '20px', '24px', '0'])
        if self.hit(tables.align / 4):
            style['line-height'] = self.choice(['0', '10px', '40px', '2'])

    def add_borders(self, style, chance):
        """Borders on some sides, or one on all."""
        if self.hit(chance / 4):
            width, line = self.choice(COLLAPSED_WIDTHS), self.choice(BORDER_STYLES)
            for side in SIDES:
                style['border-%s-style' % side], style['border-%s-width' % side] = line, width
        for side in SIDES:
            if self.hit(chance / 2):
                style['border-%s-style' % side] = self.choice(BORDER_STYLES)
                style['border-%s-width' % side] = self.choice(COLLAPSED_WIDTHS)


def table_document(seed, number):
    """The run document of a seed and a number."""
    return TableDocument(random.Random('tables %d/%d' % (seed, number))).draw()
