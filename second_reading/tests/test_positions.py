"""Positioned boxes worked out by hand from CSS 2.2, in px."""
import unittest

from tests.test_cases import LayoutCase, block
from tests.test_tables import cell, inline, row, table

SMALL = 'width: 10px; height: 5px'


def placed(ident, declarations='', *children):
    """An absolute box, as a block is written."""
    return block(ident, 'position: absolute; ' + declarations, *children)


def relative(ident, declarations='', *children):
    return block(ident, 'position: relative; ' + declarations, *children)


class Relative(LayoutCase):
    def test_what_follows_stays(self):
        self.assert_boxes(
            block(1, '', relative(2, 'top: 7px; left: 3px', block(3, 'height: 5px')), block(4, 'height: 2px')),
            '1 0 0 100 7', '2 3 7 100 5', '3 3 7 100 5', '4 0 5 100 2')

    def test_left_and_top_win(self):
        self.assert_boxes(
            block(1, '', relative(2, 'top: 7px; bottom: 1px; left: 3px; right: 2px; height: 5px')),
            '1 0 0 100 5', '2 3 7 100 5')

    def test_right_and_bottom_move_to_the_left_and_up(self):
        self.assert_boxes(
            block(1, '', relative(2, 'bottom: 1px; right: 2px; height: 5px')), '1 0 0 100 5', '2 -2 -1 100 5')

    def test_percentage_of_a_height_of_auto_is_auto(self):
        self.assert_boxes(
            block(1, '', relative(2, 'top: 50%; bottom: 4px; left: 10%; height: 6px')), '1 0 0 100 6', '2 10 -4 100 6')

    def test_inline_box_moves_the_block_that_broke_it(self):
        # the lines of the anonymous blocks stay
        self.assert_boxes(
            block(1, '', inline(2, 'position: relative; left: 5px', (3, 'a'), block(4, 'height: 6px'), (5, 'b'))),
            '1 0 0 100 46', '1 0 0 100 20', '1 0 0 100 20', '2 5 2 8 16', '3 5 2 8 16', '4 5 20 100 6',
            '1 0 26 100 20', '1 0 26 100 20', '2 5 28 8 16', '5 5 28 8 16')

    def test_cell_is_not_moved_and_its_table_is(self):
        self.assert_boxes(
            block(1, '', table(2, 'position: relative; top: 3px; width: 10px',
                               row(3, '', cell(4, 'position: relative; top: 9px; height: 5px')))),
            '1 0 0 100 5', '2 0 3 10 5', '2 0 3 10 5', '3 0 3 10 5', '4 0 3 10 5')


class Widths(LayoutCase):
    """Boxes in a containing block of 60 by 40; its padding box begins at 1."""

    def box_of(self, declarations):
        """Left and width of an absolute box."""
        boxes = self.boxes_of(block(1, '', relative(2, 'width: 50px; height: 40px; padding-left: 10px;'
                                                       ' border-left-style: solid; border-left-width: 1px',
                                                    placed(3, declarations, (4, 'aa bb')))), ('box',))
        left, _, width, _ = boxes[-1].split()[1:]
        return float(left), float(width)

    def test_auto_margins_are_equal(self):
        self.assertEqual((21, 20), self.box_of('left: 0; right: 0; width: 20px; margin-left: auto; margin-right: auto'))

    def test_auto_margins_are_not_negative_on_the_left(self):
        self.assertEqual((1, 90), self.box_of('left: 0; right: 0; width: 90px; margin-left: auto; margin-right: auto'))

    def test_right_is_not_heeded_where_all_is_given(self):
        self.assertEqual((8, 20), self.box_of('left: 5px; right: 9px; width: 20px; margin-left: 2px'))

    def test_all_auto_shrinks_at_the_static_position(self):
        self.assertEqual((11, 40), self.box_of(''))

    def test_left_follows_the_content(self):
        self.assertEqual((18, 40), self.box_of('right: 3px'))

    def test_width_follows_two_offsets(self):
        self.assertEqual((6, 50), self.box_of('left: 5px; right: 5px'))

    def test_width_shrinks_to_what_is_available(self):
        # of 60 there are 30, and the words of 16 don't stand beside each other
        self.assertEqual((31, 30), self.box_of('left: 30px'))

    def test_bounds_solve_anew(self):
        self.assertEqual((26, 10), self.box_of('left: 0; right: 0; width: 20px; max-width: 10px; margin-left: auto;'
                                               ' margin-right: auto'))

    def test_wrapper_of_a_table_is_within_the_limit(self):
        # of 2^25 px; its table box is wider by its padding
        self.assert_boxes(
            block(1, '', table(2, 'position: absolute; right: 0; padding-left: 10px; width: 33554431.5px')),
            '1 0 0 100 0', '2 -33554332 0 33554432 0', '2 -33554332 0 33554441.5 0')


class Heights(LayoutCase):
    def test_auto_margins_are_equal_also_where_they_are_negative(self):
        self.assert_boxes(
            block(1, 'height: 10px; position: relative',
                  placed(2, 'top: 0; bottom: 0; left: 0; width: 5px; height: 30px; margin-top: auto; margin-bottom: auto')),
            '1 0 0 100 10', '2 0 -10 5 30')

    def test_height_follows_two_offsets(self):
        self.assert_boxes(
            block(1, 'height: 50px; position: relative', placed(2, 'top: 20%; bottom: 4px; left: 0; width: 5px')),
            '1 0 0 100 50', '2 0 10 5 36')

    def test_height_between_two_offsets_is_not_definite(self):
        self.assert_boxes(
            block(1, 'height: 50px; position: relative', placed(2, 'top: 0; bottom: 0; left: 0; width: 5px',
                                                                block(3, 'height: 50%'))),
            '1 0 0 100 50', '2 0 0 5 50', '3 0 0 5 0')

    def test_percentage_is_of_a_height_of_auto(self):
        self.assert_boxes(
            block(1, 'position: relative', block(2, 'height: 20px'), placed(3, 'left: 0; width: 5px; height: 50%',
                                                                            block(4, 'height: 50%'))),
            '1 0 0 100 20', '2 0 0 100 20', '3 0 20 5 10', '4 0 20 5 5')


class StaticPositions(LayoutCase):
    def test_it_is_that_of_an_empty_block(self):
        # in the run of the margins around it
        self.assert_boxes(
            block(1, '', block(2, 'height: 5px; margin-bottom: 10px'), placed(3, SMALL), block(4, 'margin-top: 30px')),
            '1 0 0 100 35', '2 0 0 100 5', '4 0 35 100 0', '3 0 15 10 5')

    def test_it_is_at_the_top_of_its_line(self):
        self.assert_boxes(
            block(1, 'width: 40px', (2, 'aa bb '), placed(3, SMALL), (4, 'cc'), placed(5, SMALL)),
            '1 0 0 40 40', '1 0 0 40 20', '2 0 2 40 16', '1 0 20 40 20', '4 0 22 16 16', '3 0 0 10 5', '5 0 20 10 5')

    def test_cell_moves_it_with_its_content(self):
        self.assert_boxes(
            block(1, '', table(2, 'width: 20px', row(3, 'height: 25px', cell(4, 'vertical-align: bottom', block(5, 'height: 3px'),
                                                                              placed(6, SMALL))))),
            '1 0 0 100 25', '2 0 0 20 25', '2 0 0 20 25', '3 0 0 20 25', '4 0 0 20 25', '5 0 22 20 3', '6 0 25 10 5')


class ContainingBlocks(LayoutCase):
    def test_padding_box_of_the_nearest_positioned_block_container(self):
        self.assert_boxes(
            block(1, '', relative(2, 'width: 50px; height: 20px; padding-top: 5px; margin-left: 4px',
                                  inline(3, 'position: relative', block(4, '', placed(5, 'right: 0; bottom: 0; ' + SMALL))))),
            '1 0 0 100 25', '2 4 0 50 25', '2 4 5 50 0', '4 4 5 50 0', '2 4 5 50 0', '5 44 20 10 5')

    def test_fixed_box_stands_in_the_viewport(self):
        self.assert_boxes(
            block(1, '', relative(2, 'margin-left: 4px; height: 6px',
                                  block(3, 'position: fixed; right: 0; bottom: 0; ' + SMALL))),
            '1 0 0 100 6', '2 4 0 96 6', '3 90 75 10 5')

    def test_table_counts_and_its_cells_do_not(self):
        self.assert_boxes(
            block(1, '', table(2, 'position: relative; width: 40px; height: 9px', row(3, '', cell(4), cell(
                5, 'position: relative', placed(6, 'left: 0; top: 0; ' + SMALL))))),
            '1 0 0 100 9', '2 0 0 40 9', '2 0 0 40 9', '3 0 0 40 9', '4 0 0 20 9', '5 20 0 20 9', '6 0 0 10 5')


if __name__ == '__main__':
    unittest.main()
