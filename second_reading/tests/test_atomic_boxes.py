"""Inline-blocks, replaced elements and widths that shrink to fit, worked out by hand from CSS 2.2, in px."""
import unittest

from tests.test_cases import LayoutCase, block, inline


def atomic(ident, declarations='', *children):
    """An inline-block, as a block is written."""
    ident, style, children = block(ident, declarations, *children)
    return ident, dict(style, display='inline-block'), children


class ShrinkToFit(LayoutCase):
    """A character is 8 wide."""

    def test_float_is_as_wide_as_its_text(self):
        self.assert_boxes(
            block(1, '', block(2, 'float: left', (3, 'aaa bb'))),
            '1 0 0 100 20', '2 0 0 48 20', '2 0 0 48 20', '3 0 2 48 16')

    def test_float_is_as_wide_as_what_is_available(self):
        self.assert_boxes(
            block(1, 'width: 40px', block(2, 'float: left', (3, 'aaa bb'))),
            '1 0 0 40 40', '2 0 0 40 40', '2 0 0 40 20', '3 0 2 24 16', '2 0 20 40 20', '3 0 22 16 16')

    def test_float_is_as_wide_as_its_widest_word(self):
        self.assert_boxes(
            block(1, 'width: 10px', block(2, 'float: left', (3, 'aaa bb'))),
            '1 0 0 10 40', '2 0 0 24 40', '2 0 0 24 20', '3 0 2 24 16', '2 0 20 24 20', '3 0 22 16 16')

    def test_floats_beside_each_other_add_up(self):
        self.assert_boxes(
            block(1, '', block(2, 'float: left', block(3, 'float: left; width: 20px; height: 5px'),
                               block(4, 'float: right; width: 30px; height: 6px'))),
            '1 0 0 100 6', '2 0 0 50 6', '3 0 0 20 5', '4 20 0 30 6')


class Baselines(LayoutCase):
    """A line of text is 20 high, 14 above its baseline."""

    def test_inline_block_stands_with_its_last_line(self):
        self.assert_boxes(
            block(1, '', (2, 'x'), atomic(3, 'width: 8px', (4, 'a b'))),
            '1 0 0 100 40', '1 0 0 100 40', '2 0 22 8 16', '3 8 0 8 40', '3 8 0 8 20', '4 8 2 8 16', '3 8 20 8 20',
            '4 8 22 8 16')

    def test_inline_block_with_hidden_overflow_stands_on_its_margin_edge(self):
        self.assert_boxes(
            block(1, '', (2, 'x'), atomic(3, 'height: 30px; width: 8px; overflow: hidden; margin-bottom: 2px')),
            '1 0 0 100 38', '1 0 0 100 38', '2 0 20 8 16', '3 8 0 8 30')

    def test_bottom_extends_the_line_after_top(self):
        self.assert_boxes(
            block(1, '', (2, 'x'), atomic(3, 'height: 60px; width: 8px; vertical-align: top'),
                  atomic(4, 'height: 80px; width: 8px; vertical-align: bottom')),
            '1 0 0 100 80', '1 0 0 100 80', '2 0 22 8 16', '3 8 0 8 60', '4 16 0 8 80')

    def test_middle_is_half_an_x_height_above_the_baseline(self):
        self.assert_boxes(
            block(1, '', (2, 'x'), atomic(3, 'height: 40px; width: 8px; vertical-align: middle')),
            '1 0 0 100 40', '1 0 0 100 40', '2 0 12 8 16', '3 8 0 8 40')


class WithoutRoom(LayoutCase):
    """Behind an inline-block of 40 by 40 in a block of 10."""

    def test_linefeed_ends_the_line_of_what_reaches_out(self):
        self.assert_boxes(
            block(1, 'white-space: pre-line; width: 10px', atomic(2, 'width: 40px; height: 40px'), (3, '\nb')),
            '1 0 0 10 66', '1 0 0 10 46', '1 0 46 10 20', '3 0 48 8 16', '2 0 0 40 40')

    def test_preserved_spaces_hang(self):
        self.assert_boxes(
            block(1, 'white-space: pre-wrap; width: 10px', atomic(2, 'width: 40px; height: 40px'), (3, '  b')),
            '1 0 0 10 66', '1 0 0 10 46', '3 40 28 16 16', '1 0 46 10 20', '3 0 48 8 16', '2 0 0 40 40')


class StartsWithRoom(LayoutCase):
    def test_float_goes_with_its_box_to_an_atomic_box(self):
        self.assert_boxes(
            block(1, '', (2, 'aaaaaaaaa'), inline(3, 'padding-left: 4px',
                                                  block(4, 'float: left; width: 8px; height: 10px'),
                                                  atomic(5, 'width: 40px; height: 20px'))),
            '1 0 0 100 46', '1 0 0 100 20', '2 0 2 72 16', '1 8 20 92 26', '3 8 28 44 16', '4 0 20 8 10',
            '5 12 20 40 20')

    def test_float_before_the_start_that_takes_room_stays(self):
        # the first start goes to the next line as well
        self.assert_boxes(
            block(1, '', (2, 'aaaaaaaaa'), inline(6, '', block(4, 'float: left; width: 8px; height: 10px'), inline(
                3, 'padding-left: 4px', atomic(5, 'width: 40px; height: 20px')))),
            '1 0 0 100 46', '1 8 0 92 20', '2 8 2 72 16', '1 0 20 100 26', '6 0 28 44 16', '3 0 28 44 16', '4 0 0 8 10',
            '5 4 20 40 20')


class Shifts(LayoutCase):
    """The font size is 2^31 units, 33554432px; half of it is an advance, and ten times it the ascent.

    The block reaches 5.5 font sizes above its baseline and ends 4.5 above, and an inline box begins and ends 5 above.
    """

    face = {'ascent': 10000, 'descent': 0}

    def tops_of(self, align):
        """The tops of both texts and the height of the line, in font sizes."""
        boxes = self.boxes_of(block(1, 'font-size: 33554432px; line-height: 1', (2, 'a'),
                                    inline(3, 'line-height: 0; vertical-align: ' + align, (4, 'b'))))
        places = {(box.split()[0], place): box.split() for place, box in enumerate(boxes)}
        tops = [float(places[ident, place][2]) for ident, place in (('2', 2), ('4', 4))]
        return [number / 33554432 for number in tops + [float(places['1', 1][4])]]

    def test_text_top_raises_by_one_font_size_at_most(self):
        # not by 10 - 5; the line reaches 6 above the baseline
        self.assertEqual([-4, -5, 1.5], self.tops_of('text-top'))

    def test_text_bottom_lowers_by_one_font_size_at_most(self):
        # not by 5; the inline box ends 4 above the baseline
        self.assertEqual([-4.5, -3.5, 1.5], self.tops_of('text-bottom'))

    def test_middle_lowers_by_one_font_size_at_most(self):
        # not by (10 - 0.5) / 2
        self.assertEqual([-4.5, -3.5, 1.5], self.tops_of('middle'))


if __name__ == '__main__':
    unittest.main()
