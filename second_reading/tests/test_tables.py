"""Tables worked out by hand from CSS 2.2, in px."""
import unittest

from tests.test_cases import LayoutCase, block


def of(display):
    """A function that makes an element of this display, as a block is written."""
    def element(ident, declarations='', *children):
        ident, style, children = block(ident, declarations, *children)
        return ident, dict(style, display=display), children
    return element


table, inline_table, caption = of('table'), of('inline-table'), of('table-caption')
row, cell, column = of('table-row'), of('table-cell'), of('table-column')
group, head, foot = of('table-row-group'), of('table-header-group'), of('table-footer-group')
inline = of('inline')


class Columns(LayoutCase):
    """Of tables with rows of a height of 5."""

    def widths_of_cells(self, declarations, *children):
        """Of a table whose cells have ids from 10 on, by their ids."""
        boxes = self.boxes_of(block(1, '', table(2, declarations, *children)))
        return [float(box.split()[3]) for ident in range(10, 20) for box in boxes if box.split()[0] == str(ident)][:4]

    def test_rest_is_shared_by_columns_without_a_width(self):
        self.assertEqual([50, 25, 25], self.widths_of_cells(
            'width: 100px', row(3, '', cell(10, 'width: 50px'), cell(11), cell(12))))

    def test_rest_is_shared_by_all_where_each_has_a_width(self):
        self.assertEqual([45, 55], self.widths_of_cells(
            'width: 100px', row(3, '', cell(10, 'width: 20px'), cell(11, 'width: 30px'))))

    def test_unit_that_is_left_over_goes_to_the_first(self):
        self.assertEqual([10.015625, 10, 10], self.widths_of_cells(
            'width: 30.015625px', row(3, '', cell(10), cell(11), cell(12))))

    def test_element_of_a_column_wins_over_its_cell(self):
        self.assertEqual([10, 90], self.widths_of_cells(
            'width: 100px', column(4, 'width: 10px'), row(3, '', cell(10, 'width: 60px'), cell(11))))

    def test_cells_of_later_rows_have_no_say(self):
        self.assertEqual([50, 50, 50, 50], self.widths_of_cells(
            'width: 100px', row(3, '', cell(10), cell(11)), row(4, '', cell(12, 'width: 80px'), cell(13))))

    def test_table_is_as_wide_as_its_columns(self):
        self.assertEqual([70, 80], self.widths_of_cells(
            'width: 100px', row(3, '', cell(10, 'width: 70px'), cell(11, 'width: 80px'))))

    def test_cell_counts_with_its_paddings_and_borders(self):
        self.assertEqual([36, 64], self.widths_of_cells(
            'width: 100px', row(3, '', cell(10, 'width: 20px; padding-left: 10px; padding-right: 5px;'
                                                ' border-left-style: solid; border-left-width: 1px'), cell(11))))

    def test_percentage_of_a_cell_is_of_the_table(self):
        self.assertEqual([30, 30], self.widths_of_cells(
            'width: 60px', row(3, '', cell(10, 'width: 50%'), cell(11))))

    def test_spacing_stands_between_columns_and_at_both_ends(self):
        self.assert_boxes(
            block(1, '', table(2, 'width: 100px; border-spacing: 4px 2px',
                               row(3, '', cell(4, 'height: 5px'), cell(5, '')))),
            '1 0 0 100 9', '2 0 0 100 9', '2 0 0 100 9', '3 4 2 92 5', '4 4 2 44 5', '5 52 2 44 5')


class RowsWithoutColumns(LayoutCase):
    def test_rows_and_groups_are_as_wide_as_the_content_box(self):
        self.assert_boxes(
            block(1, '', table(2, 'width: 60px; border-spacing: 4px 2px; padding-left: 3px', row(3, 'height: 5px'),
                               group(4, '', row(5, 'height: 6px')), caption(6, 'height: 1px'))),
            '1 0 0 100 18', '2 0 0 63 18', '2 0 1 63 17', '3 3 3 60 5', '4 3 10 60 6', '5 3 10 60 6', '6 0 0 63 1')

    def test_table_that_shrinks_has_rows_without_width(self):
        self.assert_boxes(
            block(1, '', table(2, 'float: left', row(3, 'height: 5px'))),
            '1 0 0 100 5', '2 0 0 0 5', '2 0 0 0 5', '3 0 0 0 5')


class Rows(LayoutCase):
    """Cells stand at the top unless said."""

    def test_cell_over_rows_adds_to_the_last_one(self):
        tall, small = 'vertical-align: top; height: 30px', 'vertical-align: top'
        spanning = cell(6, tall)
        self.spans = {6: {'rowspan': 3}}
        self.assert_boxes(
            block(1, '', table(2, 'width: 20px', row(3, 'height: 10px', cell(4, small), spanning),
                               row(7, '', cell(8, small)), row(9, '', cell(10, small)))),
            '1 0 0 100 30', '2 0 0 20 30', '2 0 0 20 30', '3 0 0 20 10', '7 0 10 20 0', '9 0 10 20 20',
            '4 0 0 10 10', '6 10 0 10 30', '8 0 10 10 0', '10 0 10 10 20')

    def test_height_that_is_left_goes_to_the_last_row(self):
        self.assert_boxes(
            block(1, '', table(2, 'width: 20px; height: 50px', row(3, 'height: 10px', cell(4)), row(5, '', cell(6)))),
            '1 0 0 100 50', '2 0 0 20 50', '2 0 0 20 50', '3 0 0 20 10', '5 0 10 20 40', '4 0 0 20 10', '6 0 10 20 40')

    def test_footer_group_stands_last_and_header_group_first(self):
        self.assert_boxes(
            block(1, '', table(2, 'width: 20px', foot(3, '', row(4, 'height: 1px')), row(5, 'height: 2px'),
                               head(6, '', row(7, 'height: 4px')), group(8, ''))),
            '1 0 0 100 7', '2 0 0 20 7', '2 0 0 20 7', '3 0 6 20 1', '4 0 6 20 1', '5 0 4 20 2', '6 0 0 20 4',
            '7 0 0 20 4', '8 0 6 20 0')

    def test_content_stands_in_its_cell_by_vertical_align(self):
        self.assert_texts(
            block(1, '', table(2, 'width: 60px', row(3, 'height: 51px', cell(4, 'vertical-align: top', (5, 'a')),
                                                     cell(6, 'vertical-align: middle', (7, 'b')),
                                                     cell(8, 'vertical-align: bottom', (9, 'c'))))),
            '5 0 2 8 16', '7 20 17.5 8 16', '9 40 33 8 16')

    def test_cells_on_the_baseline_share_it(self):
        # the first line of the second cell is 30 lower, and what the first one needs is more
        self.assert_texts(
            block(1, '', table(2, 'width: 60px', row(3, '', cell(4, '', (5, 'a')), cell(6, 'padding-top: 30px', (7, 'b')),
                                                     cell(8, 'vertical-align: bottom', (9, 'c'))))),
            '5 0 32 8 16', '7 20 32 8 16', '9 40 32 8 16')

    def test_height_of_a_cell_is_not_moved_to_the_baseline(self):
        self.assert_boxes(
            block(1, '', table(2, 'width: 40px', row(3, '', cell(4, 'height: 40px', (5, 'a')),
                                                     cell(6, 'padding-top: 30px', (7, 'b'))))),
            '1 0 0 100 50', '2 0 0 40 50', '2 0 0 40 50', '3 0 0 40 50',
            '4 0 0 20 50', '4 0 30 20 20', '5 0 32 8 16', '6 20 0 20 50', '6 20 30 20 20', '7 20 32 8 16')


class Captions(LayoutCase):
    def test_captions_stand_above_and_below(self):
        self.assert_boxes(
            block(1, '', table(2, 'width: 30px', caption(3, 'caption-side: bottom; height: 4px'),
                               row(4, 'height: 5px'), caption(5, 'height: 2px; margin-bottom: 1px; margin-left: 3px'))),
            '1 0 0 100 12', '2 0 0 30 12', '2 0 3 30 5', '4 0 3 30 5', '3 0 8 30 4', '5 3 0 27 2')

    def test_caption_does_not_make_a_table_wider(self):
        self.assert_boxes(
            block(1, '', table(2, 'float: left', caption(3, '', (4, 'aaaaa')), row(5, '', cell(6, '', (7, 'aa'))))),
            '1 0 0 100 40', '2 0 0 16 40', '2 0 20 16 20', '5 0 20 16 20', '3 0 0 16 20', '3 0 0 16 20', '4 0 2 40 16',
            '6 0 20 16 20', '6 0 20 16 20', '7 0 22 16 16')


class CollapsedBorders(LayoutCase):
    def test_halves_of_a_border(self):
        # 5 wins between the cells: 2 lie left of the middle and 3 right of it; the outer ones are 2, and 1 is outside
        border = 'border-left-width: 2px; border-left-style: solid; border-right-style: solid; border-right-width: '
        self.assert_boxes(
            block(1, '', table(2, 'border-collapse: collapse; width: 60px',
                               row(3, '', cell(4, border + '5px', block(5, 'height: 1px')),
                                   cell(6, border + '2px', block(7, 'height: 1px'))))),
            '1 0 0 100 1', '2 0 0 62 1', '2 0 0 62 1', '3 1 0 60 1',
            '4 1 0 30 1', '5 2 0 26.5 1', '6 31 0 30 1', '7 33.5 0 26.5 1')

    def test_hidden_wins_over_a_wider_border(self):
        self.assert_boxes(
            block(1, '', table(2, 'border-collapse: collapse; width: 60px; border-left-style: hidden',
                               row(3, '', cell(4, 'border-left-style: solid; border-left-width: 8px',
                                               block(5, 'height: 1px'))))),
            '1 0 0 100 1', '2 0 0 60 1', '2 0 0 60 1', '3 0 0 60 1', '4 0 0 60 1', '5 0 0 60 1')

    def test_first_row_alone_gives_the_table_its_left_border(self):
        thick = 'border-left-style: solid; border-left-width: 8px'
        self.assert_boxes(
            block(1, '', table(2, 'border-collapse: collapse; width: 60px', row(3, '', cell(4)),
                               row(5, '', cell(6, thick, block(7, 'height: 1px'))))),
            '1 0 0 100 1', '2 0 0 60 1', '2 0 0 60 1', '3 0 0 60 0', '5 0 0 60 1', '4 0 0 60 0', '6 0 0 60 1',
            '7 4 0 56 1')


class MissingBoxes(LayoutCase):
    def test_stray_cells_share_a_table_and_a_row(self):
        # the anonymous wrapper, its table box and its row are of the block
        self.assert_boxes(
            block(1, '', cell(2, 'height: 5px'), (3, ' '), cell(4)),
            '1 0 0 100 5', '1 0 0 100 5', '1 0 0 100 5', '1 0 0 100 5', '2 0 0 50 5', '4 50 0 50 5')

    def test_stray_cell_in_an_inline_box_stands_in_the_line(self):
        self.assert_boxes(
            block(1, '', inline(2, '', (3, 'a'), cell(4, '', (5, 'bb')), (6, 'c'))),
            '1 0 0 100 20', '1 0 0 100 20', '2 0 2 32 16', '3 0 2 8 16', '2 8 0 16 20', '2 8 0 16 20', '2 8 0 16 20',
            '6 24 2 8 16', '4 8 0 16 20', '4 8 0 16 20', '5 8 2 16 16')

    def test_text_in_a_row_has_a_cell(self):
        self.assert_boxes(
            block(1, '', table(2, 'width: 60px', row(3, '', (4, ' a '), cell(5, 'height: 4px')))),
            '1 0 0 100 20', '2 0 0 60 20', '2 0 0 60 20', '3 0 0 60 20', '3 0 0 30 20', '3 0 0 30 20', '4 0 2 8 16',
            '5 30 0 30 20')


if __name__ == '__main__':
    unittest.main()
