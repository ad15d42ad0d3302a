"""Tables of the automatic layout worked out by hand from CSS 2.2, 17.5.2.2, in px. A letter is 8 wide."""
import unittest

from tests.test_cases import LayoutCase, block
from tests.test_tables import caption, cell, column, of, row, table

column_group = of('table-column-group')


class AutomaticCase(LayoutCase):
    automatic_tables = True

    def widths_of(self, root, *idents):
        """Of the first box of each of these elements."""
        widths = {}
        for box in self.boxes_of(root):
            widths.setdefault(int(box.split()[0]), float(box.split()[3]))
        return [widths[ident] for ident in idents]

    def assert_cells(self, widths, declarations, *children):
        """The widths of the cells from the id 10 on in a table, in a block that is wide enough for all."""
        root = block(1, 'width: 400px', table(2, declarations, *children))
        self.assertEqual(widths, self.widths_of(root, *range(10, 10 + len(widths))))


class Columns(AutomaticCase):
    def test_what_is_beyond_the_maximums_goes_to_all(self):
        # 4267, 1067 and 1066 units: of the 3200 beyond the first column's maximum two are left over
        self.assert_cells([66.671875, 16.671875, 16.65625], 'width: 100px',
                          row(3, '', cell(10, 'width: 50px'), cell(11), cell(12)))

    def test_columns_grow_in_proportion(self):
        # by 24 and by 40, of which there are 20 in all
        self.assert_cells([23.5, 36.5], 'width: 60px', row(3, '', cell(10, '', (4, 'aa bb')), cell(11, '', (5, 'aaa bb c'))))

    def test_unit_that_is_left_over_goes_to_the_first_that_grows(self):
        self.assert_cells([8, 23.515625, 36.5], 'width: 68.015625px',
                          row(3, '', cell(10, '', (6, 'a')), cell(11, '', (4, 'aa bb')), cell(12, '', (5, 'aaa bb c'))))

    def test_cells_of_all_rows_have_a_say(self):
        self.assert_cells([24, 16, 24, 16], '', row(3, '', cell(10, '', (6, 'a')), cell(11, '', (7, 'aa'))),
                          row(4, '', cell(12, '', (8, 'aaa')), cell(13)))

    def test_width_of_a_cell_is_no_maximum(self):
        self.assert_cells([40, 16], '', row(3, '', cell(10, 'width: 20px', (4, 'aa bb')), cell(11, '', (5, 'cc'))))

    def test_bounds_of_a_cell_have_no_say(self):
        self.assert_cells([40, 16], '', row(3, '', cell(10, 'max-width: 20px', (4, 'aa bb')),
                                            cell(11, 'min-width: 30px', (5, 'cc'))))

    def test_percentages_count_as_auto(self):
        self.assert_cells([40, 40], 'width: 80px', column(4, 'width: 75%'),
                          row(3, '', cell(10, 'padding-left: 50%'), cell(11, 'width: 20%')))

    def test_element_of_a_column_raises_both(self):
        self.assert_cells([30, 16], '', column(4, 'width: 30px'),
                          row(3, '', cell(10, '', (5, 'aa')), cell(11, '', (6, 'bb'))))

    def test_element_of_a_column_is_no_maximum(self):
        self.assert_cells([40, 16], '', column(4, 'width: 10px'),
                          row(3, '', cell(10, '', (5, 'aa bb')), cell(11, '', (6, 'bb'))))


class Spans(AutomaticCase):
    def setUp(self):
        self.spans = {12: {'colspan': 2}, 13: {'colspan': 2}}

    def test_cell_adds_what_is_missing_in_equal_shares(self):
        self.assert_cells([36, 20, 56], '', row(3, '', cell(10, '', (4, 'aaa')), cell(11, '', (5, 'b'))),
                          row(6, '', cell(12, '', (7, 'ccccccc'))))

    def test_spacings_that_it_covers_count(self):
        self.assert_cells([26, 26, 56], 'border-spacing: 4px', row(3, '', cell(10, '', (4, 'aa')), cell(11, '', (5, 'bb'))),
                          row(6, '', cell(12, '', (7, 'ccccccc'))))

    def test_unit_that_is_left_over_goes_to_the_first(self):
        self.assert_cells([5.015625, 5], '', row(3, '', cell(12, 'width: 10.015625px')), row(6, '', cell(10), cell(11)))

    def test_earlier_cell_counts_for_the_next(self):
        # the columns are 20, 20 and 0 after the first one, so the second adds 10 to the last two
        self.spans = {10: {'colspan': 2}, 11: {'colspan': 2}}
        self.assert_cells([50, 40], '', row(3, '', cell(10, 'width: 40px'), cell(4)), row(6, '', cell(5), cell(11, 'width: 40px')))

    def test_maximum_is_raised_at_the_end(self):
        # the minimums come to 96 and 24, and the maximums from 80 and 104 to 108 and 132
        self.assert_cells([108, 132], '', row(3, '', cell(10, 'width: 80px'), cell(11, '', (4, 'a a a a a a a'))),
                          row(6, '', cell(12, '', (7, 15 * 'c' + ' ' + 14 * 'd'))))

    def test_group_of_columns_raises_minimums_alone(self):
        # to 30 each, where the maximums are 40 and 8, which becomes 30
        self.spans = {}
        self.assert_cells([45, 35], 'width: 80px', column_group(4, 'width: 60px', column(5), column(6)),
                          row(3, '', cell(10, '', (7, 'a a a')), cell(11, '', (8, 'b'))))

    def test_column_that_has_no_cell_alone(self):
        self.spans = {10: {'colspan': 3}}
        self.assert_cells([24, 8], '', row(3, '', cell(10, '', (4, 'aaa')), cell(11, '', (5, 'b'))))


class Widths(AutomaticCase):
    def test_table_is_no_wider_than_it_needs(self):
        self.assert_boxes(
            block(1, '', table(2, '', row(3, '', cell(4, '', (5, 'aa bb')), cell(6, '', (7, 'c'))))),
            '1 0 0 100 20', '2 0 0 48 20', '2 0 0 48 20', '3 0 0 48 20', '4 0 0 40 20', '4 0 0 40 20', '5 0 2 40 16',
            '6 40 0 8 20', '6 40 0 8 20', '7 40 2 8 16')

    def test_room_is_without_margins_borders_and_paddings(self):
        root = block(1, '', table(2, 'margin-left: auto; margin-right: 10px; padding-left: 5px; border-left-width: 1px;'
                                     ' border-left-style: solid', row(3, '', cell(4, '', (5, 10 * 'aa ')))))
        self.assertEqual([90, 84], self.widths_of(root, 2, 4))

    def test_table_between_two_offsets_has_the_whole_room(self):
        root = block(1, '', table(2, 'position: absolute; left: 10px; right: 10px', row(3, '', cell(4, '', (5, 10 * 'aa ')))))
        self.assertEqual([100], self.widths_of(root, 2))

    def test_fixed_table_without_a_width_is_automatic(self):
        for declarations, widths in (('table-layout: fixed', [40, 8]), ('table-layout: fixed; width: 60px', [30, 30])):
            self.assert_cells(widths, declarations, row(3, '', cell(10, '', (4, 'aa bb')), cell(11, '', (5, 'c'))))

    def test_table_is_as_wide_as_its_columns_whatever_its_bounds_are(self):
        for declarations, width in (('max-width: 10px', 16), ('max-width: 20px', 20), ('width: 10px', 16),
                                    ('min-width: 50px', 50), ('width: 60px; max-width: 50px', 50)):
            root = block(1, '', table(2, declarations, row(3, '', cell(4, '', (5, 'aa bb')))))
            self.assertEqual([width], self.widths_of(root, 2))

    def test_table_makes_a_float_as_wide_as_it_may_be(self):
        for declarations, width in (('', 40), ('width: 50px', 50), ('width: 20px', 40), ('max-width: 20px', 20)):
            floating = block(6, 'float: left', table(2, declarations, row(3, '', cell(4, '', (5, 'aa bb')))))
            self.assertEqual([width], self.widths_of(block(1, '', floating), 6))


class Captions(AutomaticCase):
    def test_caption_makes_a_table_wider(self):
        for declarations, width in (('', 24), ('width: 60px', 60), ('width: 50%', 24), ('margin-left: 10px', 34),
                                    ('max-width: 20px', 20), ('min-width: 30px; margin-left: 10%', 30)):
            root = block(1, '', table(2, '', caption(3, declarations, (4, 'aaa b')), row(5, '', cell(6, '', (7, 'c')))))
            self.assertEqual([width, width], self.widths_of(root, 2, 6))

    def test_borders_and_paddings_of_the_table_count(self):
        root = block(1, '', table(2, 'padding-left: 10px; padding-right: 4px', caption(3, 'width: 60px'),
                                  row(5, '', cell(6, '', (7, 'c')))))
        self.assertEqual([60, 46], self.widths_of(root, 2, 6))

    def test_bounds_of_a_table_do_not_cut_it(self):
        root = block(1, '', table(2, 'max-width: 30px', caption(3, 'width: 60px'), row(5, '', cell(6))))
        self.assertEqual([60, 60], self.widths_of(root, 2, 6))

    def test_table_of_the_fixed_layout_stays(self):
        root = block(1, '', table(2, 'width: 30px; table-layout: fixed', caption(3, 'width: 60px'), row(5, '', cell(6))))
        self.assertEqual([30, 30], self.widths_of(root, 2, 6))

    def test_table_without_columns_is_as_wide_as_its_caption(self):
        root = block(1, '', table(2, 'border-spacing: 5px', caption(3, 'width: 60px'), row(5)))
        self.assertEqual([60, 60], self.widths_of(root, 2, 5))


if __name__ == '__main__':
    unittest.main()
