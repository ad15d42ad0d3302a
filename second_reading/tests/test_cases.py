"""Layouts worked out by hand from CSS 2.2, in px.

python3 -m unittest discover second_reading
"""
import unittest

from reading.report import report

FLOAT = 'float: left; width: 50px; height: 10px'


def block(ident, declarations='', *children):
    """A block with its id, what is declared beside `display: block`, and its children."""
    style = {'display': 'block'}
    for declaration in filter(str.strip, declarations.split(';')):
        name, text = declaration.split(':')
        style[name.strip()] = text.strip()
    return ident, style, children


def inline(ident, declarations='', *children):
    """An inline box, as a block is written."""
    ident, style, children = block(ident, declarations, *children)
    return ident, dict(style, display='inline'), children


def nodes_of(tree, parent=0):
    """The list of nodes of a run document; a text is its id and its characters."""
    if len(tree) == 2:
        ident, text = tree
        yield {'id': ident, 'parent': parent, 'kind': 'text', 'text': text}
        return
    ident, style, children = tree
    yield {'id': ident, 'parent': parent, 'kind': 'element', 'style': style}
    for child in children:
        yield from nodes_of(child, ident)


class LayoutCase(unittest.TestCase):
    """Roots in a viewport of 100 by 80; a box is `id x y width height`, in the order of the report."""

    spans = {}                      # of cells, by their ids
    face = {}
    automatic_tables = False

    def boxes_of(self, root, kinds=('box', 'line', 'text')):
        """What the report of a document with this root has of these kinds."""
        nodes = [{**node, **self.spans.get(node['id'], {})} for node in nodes_of(root)]
        text = report({'viewport': [100, 80], 'face': self.face, 'nodes': nodes}, self.automatic_tables)
        lines = [line.split() for line in text.splitlines()]
        return [' '.join([line[1]] + ['%.9g' % (int(number) / 64) for number in line[3:]])
                for line in lines if line[0] in kinds]

    def assert_boxes(self, root, *boxes):
        self.assertEqual(list(boxes), self.boxes_of(root))

    def assert_texts(self, root, *texts):
        self.assertEqual(list(texts), self.boxes_of(root, ('text',)))


class Margins(LayoutCase):
    def test_run_starts_at_the_bottom_of_a_box_with_max_height(self):
        # 10, where it ends, and 20 for the child's margin
        self.assert_boxes(
            block(1, '', block(2, 'max-height: 10px', block(3, 'height: 100px; margin-bottom: 20px')),
                  block(4, 'height: 5px')),
            '1 0 0 100 35', '2 0 0 100 10', '3 0 0 100 100', '4 0 30 100 5')

    def test_run_inside_max_height_starts_at_the_child(self):
        # the last child stands at 100 + max(20, 5)
        self.assert_boxes(
            block(1, '', block(2, 'max-height: 10px', block(3, 'height: 100px; margin-bottom: 20px'),
                               block(5, 'margin-top: 5px')),
                  block(4, 'height: 5px')),
            '1 0 0 100 35', '2 0 0 100 10', '3 0 0 100 100', '5 0 120 100 0', '4 0 30 100 5')

    def test_run_starts_at_the_bottom_of_a_height_raised_to_zero(self):
        self.assert_boxes(
            block(1, '', block(2, 'padding-top: 1px', block(3, 'height: 10px; margin-top: -50px; margin-bottom: 7px')),
                  block(4, 'height: 5px')),
            '1 0 0 100 13', '2 0 0 100 1', '3 0 -49 100 10', '4 0 8 100 5')

    def test_min_height_parts_bottom_margins(self):
        self.assert_boxes(
            block(1, '', block(2, 'min-height: 5px', block(3, 'height: 10px; margin-bottom: 20px')),
                  block(4, 'height: 5px')),
            '1 0 0 100 35', '2 0 0 100 30', '3 0 0 100 10', '4 0 30 100 5')

    def test_height_zero_is_collapsed_through(self):
        self.assert_boxes(
            block(1, '', block(2, 'height: 0; margin-top: 5px; margin-bottom: 8px',
                               block(3, 'margin-top: 10px; margin-bottom: 20px')),
                  block(4, 'height: 5px')),
            '1 0 0 100 25', '2 0 20 100 0', '3 0 20 100 0', '4 0 20 100 5')

    def test_height_zero_with_a_filled_child_is_not_collapsed_through(self):
        # the child's bottom margin stays inside
        self.assert_boxes(
            block(1, '', block(2, 'height: 0; margin-bottom: 8px', block(3, 'height: 10px; margin-bottom: 20px')),
                  block(4, 'height: 5px')),
            '1 0 0 100 13', '2 0 0 100 0', '3 0 0 100 10', '4 0 8 100 5')


class Clearance(LayoutCase):
    def test_margins_with_clearance_keep_off_the_parents_bottom_margin(self):
        # The clear edge is 30, so the run of 20 and 25 starts at 10 and ends at 35, where the parent ends. The next run
        # has 3 and 4.
        self.assert_boxes(
            block(1, '', block(2, 'margin-bottom: 3px', block(3, 'float: left; width: 50px; height: 30px'),
                               block(4, 'clear: left; margin-top: 20px; margin-bottom: 25px')),
                  block(6, 'height: 5px; margin-top: 4px')),
            '1 0 0 100 44', '2 0 0 100 35', '4 0 30 100 0', '6 0 39 100 5', '3 0 0 50 30')

    def test_without_clear_the_same_margins_are_one_run(self):
        # of 20, 25, 3 and 4, and the float has its mark there
        self.assert_boxes(
            block(1, '', block(2, 'margin-bottom: 3px', block(3, 'float: left; width: 50px; height: 30px'),
                               block(4, 'margin-top: 20px; margin-bottom: 25px')),
                  block(6, 'height: 5px; margin-top: 4px')),
            '1 0 0 100 55', '2 0 25 100 0', '4 0 25 100 0', '6 0 25 100 5', '3 0 25 50 30')

    def test_box_at_the_bottom_of_the_float_has_no_clearance(self):
        # so its top margin collapses with its child's
        self.assert_boxes(
            block(1, '', block(2, 'height: 5px', block(3, FLOAT)),
                  block(5, 'clear: left; margin-top: 5px', block(6, 'margin-top: 5px; height: 1px'))),
            '1 0 0 100 11', '2 0 0 100 5', '5 0 10 100 1', '6 0 10 100 1', '3 0 0 50 10')

    def test_box_above_the_bottom_of_the_float_has_clearance(self):
        self.assert_boxes(
            block(1, '', block(2, 'height: 5px', block(3, FLOAT)),
                  block(5, 'clear: left; margin-top: 4px', block(6, 'margin-top: 2px; height: 1px'))),
            '1 0 0 100 11', '2 0 0 100 5', '5 0 10 100 1', '6 0 10 100 1', '3 0 0 50 10')

    def test_hypothetical_edge_takes_later_margins(self):
        # 5 + max(4, 8) is past the float
        self.assert_boxes(
            block(1, '', block(2, 'height: 5px', block(3, FLOAT)),
                  block(5, 'clear: left; margin-top: 4px', block(6, 'margin-top: 8px; height: 1px'))),
            '1 0 0 100 14', '2 0 0 100 5', '5 0 13 100 1', '6 0 13 100 1', '3 0 0 50 10')

    def test_boxes_with_clear_in_each_other_pass_the_float_by_their_margins(self):
        # neither has clearance in the outer one's hypothetical layout, and the float isn't in their run
        self.assert_boxes(
            block(1, '', block(2, 'height: 5px', block(3, FLOAT)),
                  block(5, 'clear: left; margin-top: 4px', block(6, 'clear: left; margin-top: 8px; height: 1px'))),
            '1 0 0 100 14', '2 0 0 100 5', '5 0 13 100 1', '6 0 13 100 1', '3 0 0 50 10')


class Floats(LayoutCase):
    def test_float_moves_below_a_float_to_its_left_when_it_does_not_fit(self):
        self.assert_boxes(
            block(1, '', block(2, 'float: left; width: 60px; height: 10px'),
                  block(3, 'float: left; width: 150px; height: 5px')),
            '1 0 0 100 15', '2 0 0 60 10', '3 0 10 150 5')

    def test_wide_float_stays_when_it_is_alone(self):
        self.assert_boxes(
            block(1, '', block(3, 'float: left; width: 150px; height: 5px')),
            '1 0 0 100 5', '3 0 0 150 5')

    def test_left_float_moves_below_a_right_float(self):
        self.assert_boxes(
            block(1, '', block(2, 'float: right; width: 50px; height: 10px'),
                  block(3, 'float: left; width: 60px; height: 5px')),
            '1 0 0 100 15', '2 50 0 50 10', '3 0 10 60 5')

    def test_float_is_not_above_an_earlier_one(self):
        self.assert_boxes(
            block(1, '', block(2, 'float: left; width: 60px; height: 10px'),
                  block(3, 'float: left; width: 60px; height: 5px'),
                  block(4, 'float: right; width: 20px; height: 5px')),
            '1 0 0 100 15', '2 0 0 60 10', '3 0 10 60 5', '4 80 10 20 5')

    def test_float_is_not_above_its_containing_block(self):
        # its mark is 10 - 30
        self.assert_boxes(
            block(1, '', block(2, 'height: 10px; margin-bottom: -30px'), block(3, FLOAT)),
            '1 0 0 100 10', '2 0 0 100 10', '3 0 0 50 10')


class SolidBoxes(LayoutCase):
    def test_left_edge_is_at_the_margin_or_at_the_float(self):
        self.assert_boxes(
            block(1, '', block(2, FLOAT), block(3, 'overflow: hidden; width: 30px; height: 4px; margin-left: 20px')),
            '1 0 0 100 10', '2 0 0 50 10', '3 50 0 30 4')

    def test_too_wide_box_stands_where_no_float_is_beside_it(self):
        self.assert_boxes(
            block(1, '', block(2, FLOAT), block(3, 'overflow: hidden; width: 130px; height: 4px')),
            '1 0 0 100 14', '2 0 0 50 10', '3 0 10 130 4')

    def test_margins_collapse_outside_and_not_inside(self):
        self.assert_boxes(
            block(1, '', block(2, 'height: 5px; margin-bottom: 10px'),
                  block(3, 'overflow: hidden; margin-top: 20px; margin-bottom: 6px',
                        block(5, 'margin-top: 3px; height: 2px; margin-bottom: 4px')),
                  block(4, 'margin-top: 5px; height: 1px')),
            '1 0 0 100 41', '2 0 0 100 5', '4 0 40 100 1', '3 0 25 100 9', '5 0 28 100 2')


class Sizes(LayoutCase):
    def test_context_reaches_round_its_floats_and_its_last_margin(self):
        self.assert_boxes(
            block(1, '', block(2, 'float: left; width: 50px',
                               block(3, 'float: left; width: 10px; height: 7px; margin-bottom: 3px'),
                               block(4, 'height: 2px; margin-bottom: 4px')),
                  block(5, 'overflow: hidden', block(6, 'margin-top: 4px'))),
            '1 0 0 100 14', '2 0 0 50 10', '4 0 0 50 2', '3 0 0 10 7', '5 0 10 100 4', '6 0 14 100 0')

    def test_percentage_of_a_height_is_of_the_bounded_height(self):
        self.assert_boxes(
            block(1, '', block(2, 'height: 40px; max-height: 30px', block(3, 'height: 50%', block(4, 'height: 200%')))),
            '1 0 0 100 30', '2 0 0 100 30', '3 0 0 100 15', '4 0 0 100 30')

    def test_percentage_of_a_height_of_auto_is_auto(self):
        self.assert_boxes(
            block(1, '', block(2, '', block(3, 'height: 50%; min-height: 50%; max-height: 1%',
                                            block(4, 'height: 7px')))),
            '1 0 0 100 7', '2 0 0 100 7', '3 0 0 100 7', '4 0 0 100 7')

    def test_percentages_on_the_root_are_of_the_viewport(self):
        self.assert_boxes(
            block(1, 'height: 50%; margin-top: 3px; margin-left: 4px; width: 50%',
                  block(2, 'margin-top: 5px; height: 100%')),
            '1 4 3 50 40', '2 4 8 50 40')


class Lines(LayoutCase):
    """A character is 8 wide and 16 high, in a line of 20."""

    def test_line_takes_the_words_that_fit_without_the_space_behind_them(self):
        self.assert_texts(block(1, 'width: 72px', (2, 'aaaa bbbb cccc')), '2 0 2 72 16', '2 0 22 32 16')

    def test_float_with_room_beside_the_content_moves_it(self):
        self.assert_boxes(
            block(1, '', (2, 'aa '), block(4, 'float: left; width: 60px; height: 10px'), (5, ' bb')),
            '1 0 0 100 20', '1 60 0 40 20', '2 60 2 24 16', '5 84 2 16 16', '4 0 0 60 10')

    def test_float_without_room_beside_the_content_stands_below_the_line(self):
        self.assert_boxes(
            block(1, '', (2, 'aa '), block(4, 'float: left; width: 90px; height: 10px'), (5, ' bb')),
            '1 0 0 100 30', '1 0 0 100 20', '2 0 2 24 16', '5 24 2 16 16', '4 0 20 90 10')

    def test_line_goes_down_to_where_its_word_fits(self):
        self.assert_texts(
            block(1, '', block(3, 'float: left; width: 60px; height: 10px'),
                  block(4, 'float: right; width: 30px; height: 40px'), (5, 'aaaaaa b')),
            '5 0 12 64 16')

    def test_line_that_is_not_seen_parts_no_margins(self):
        self.assert_boxes(
            block(1, '', block(2, 'margin-top: 10px; margin-bottom: 20px', inline(3, '', (4, ' '))),
                  block(5, 'height: 5px')),
            '1 0 0 100 25', '2 0 10 100 0', '5 0 20 100 5')

    def test_edges_of_an_inline_box_stand_on_its_first_and_last_part(self):
        self.assert_boxes(
            block(1, 'width: 50px', inline(2, 'padding-left: 4px; padding-right: 6px', (3, 'aaaa bbbb'))),
            '1 0 0 50 40', '1 0 0 50 20', '2 0 2 36 16', '3 4 2 32 16', '1 0 20 50 20', '2 0 22 38 16', '3 0 22 32 16')

    def test_tab_reaches_to_a_stop_that_a_float_does_not_move(self):
        self.assert_texts(
            block(1, 'white-space: pre', block(3, 'float: left; width: 20px; height: 10px'), (4, 'a\tb')),
            '4 20 2 52 16')

    def test_step_one_of_white_space_looks_inside_one_text(self):
        self.assert_texts(
            block(1, '', inline(2, '', (3, 'a ')), (4, '\n '), inline(5, '', (6, 'b'))), '3 0 2 16 16', '6 16 2 8 16')


class EndsBehindLinefeeds(LayoutCase):
    """What ends behind a preserved linefeed stands in the line before it; a character is 8 by 16, in a line of 20."""

    def test_absolute_box_does_not_hold_an_end_back(self):
        # its own static position is behind the linefeed
        self.assert_boxes(
            block(1, '', inline(2, 'white-space: pre; padding-bottom: 10px', (3, 'abc\n'),
                                block(4, 'position: absolute; width: 5px; height: 5px'))),
            '1 0 0 100 20', '1 0 0 100 20', '2 0 2 24 26', '3 0 2 24 16', '4 0 20 5 5')

    def test_float_does_not_hold_an_end_back(self):
        self.assert_boxes(
            block(1, '', inline(2, 'white-space: pre; padding-right: 10px', (3, 'abc\n'), block(4, FLOAT)), (5, 'd')),
            '1 0 0 100 40', '1 0 0 100 20', '2 0 2 34 16', '3 0 2 24 16', '1 50 20 50 20', '5 50 22 8 16',
            '4 0 20 50 10')

    def test_float_behind_the_last_linefeed_makes_no_line(self):
        self.assert_boxes(
            block(1, '', inline(2, 'white-space: pre; padding-right: 10px', (3, 'abc\n'), block(4, FLOAT))),
            '1 0 0 100 30', '1 0 0 100 20', '2 0 2 34 16', '3 0 2 24 16', '4 0 20 50 10')

    def test_ends_of_boxes_in_each_other_stand_before_the_linefeeds_break(self):
        self.assert_boxes(
            block(1, '', inline(2, 'white-space: pre; padding-right: 10px',
                                inline(3, 'padding-right: 2px', (4, 'abc\n'), block(5, FLOAT)),
                                block(6, 'position: absolute; width: 5px; height: 5px'))),
            '1 0 0 100 30', '1 0 0 100 20', '2 0 2 36 16', '3 0 2 26 16', '4 0 2 24 16', '5 0 20 50 10', '6 0 20 5 5')

    def test_box_that_starts_behind_a_linefeed_ends_there(self):
        # and so does the box around it
        self.assert_boxes(
            block(1, '', inline(2, 'white-space: pre', (3, 'abc\n'),
                                inline(4, 'padding-right: 5px', block(5, 'position: absolute; height: 5px')))),
            '1 0 0 100 40', '1 0 0 100 20', '2 0 2 24 16', '3 0 2 24 16', '1 0 20 100 20', '2 0 22 5 16', '4 0 22 5 16',
            '5 0 20 0 5')


class WithoutRoom(LayoutCase):
    """In a block of 10, lines are broken only as is necessary to fill them."""

    def test_linefeed_behind_a_hanging_space_ends_its_line(self):
        self.assert_boxes(
            block(1, 'white-space: pre-wrap; width: 10px', (2, 'aaaaaa \nb')),
            '1 0 0 10 40', '1 0 0 10 20', '2 0 2 56 16', '1 0 20 10 20', '2 0 22 8 16')

    def test_empty_inline_box_stays_behind_a_long_word(self):
        self.assert_boxes(
            block(1, 'width: 10px', (2, 'aaaaaa '), inline(3, 'padding-top: 4px')),
            '1 0 0 10 20', '1 0 0 10 20', '2 0 2 48 16', '3 48 -2 0 20')

    def test_inline_box_whose_margin_takes_back_its_room_stays(self):
        self.assert_boxes(
            block(1, 'width: 10px', (2, 'aaaaaa '), inline(3, 'margin-left: -8px; padding-left: 8px')),
            '1 0 0 10 20', '1 0 0 10 20', '2 0 2 48 16', '3 40 2 8 16')

    def test_inline_box_with_room_begins_the_next_line(self):
        self.assert_boxes(
            block(1, 'width: 10px', (2, 'aaaaaa '), inline(3, 'padding-left: 1px')),
            '1 0 0 10 40', '1 0 0 10 20', '2 0 2 48 16', '1 0 20 10 20', '3 0 22 1 16')


class StartsWithRoom(LayoutCase):
    """A float behind the start of an inline box with a left edge is met where the content of that box is."""

    def test_float_behind_a_padding_stands_below_its_line(self):
        # 76 are taken when it is met
        self.assert_boxes(
            block(1, '', inline(2, 'padding-left: 60px', block(3, FLOAT), (4, 'aa'))),
            '1 0 0 100 30', '1 0 0 100 20', '2 0 2 76 16', '4 60 2 16 16', '3 0 20 50 10')

    def test_float_goes_to_the_next_line_with_its_box(self):
        # 92 are taken there, and the float has the other 8
        self.assert_boxes(
            block(1, '', (2, 'aaa '), inline(3, 'padding-left: 60px', block(4, 'float: left; width: 8px; height: 10px'),
                                             (5, 'bbbb'))),
            '1 0 0 100 40', '1 0 0 100 20', '2 0 2 24 16', '1 8 20 92 20', '3 8 22 92 16', '5 68 22 32 16',
            '4 0 20 8 10')

    def test_float_behind_a_start_without_room_is_met_before_the_break(self):
        self.assert_boxes(
            block(1, '', (2, 'aaa '), inline(3, '', block(4, 'float: left; width: 8px; height: 10px'),
                                             (5, 'bbbbbbbbbb'))),
            '1 0 0 100 40', '1 8 0 92 20', '2 8 2 24 16', '1 0 20 100 20', '3 0 22 80 16', '5 0 22 80 16', '4 0 0 8 10')

    def top_of(self, declarations, met):
        """The top of what stands behind the start of an inline box that is too long for the first line."""
        boxes = self.boxes_of(block(1, '', (2, 'aaa '), inline(3, declarations, block(4, met), (5, 'bbbbbbbbbb'))))
        return float(boxes[-1].split()[2])

    def test_what_takes_room_at_a_start(self):
        border = 'border-left-width: 2px; border-left-style: '
        for met in ('float: left; width: 8px; height: 10px', 'position: absolute; height: 5px'):
            for declarations in ('padding-left: 1px', 'padding-left: 1%', 'margin-left: 2px', 'margin-left: -4px',
                                 'margin-left: 1%', 'margin-left: -1%', border + 'solid'):
                self.assertEqual(20, self.top_of(declarations, met), declarations)
            for declarations in ('', 'padding-left: 0%', 'margin-left: auto', 'padding-right: 2px', 'padding-top: 2px',
                                 border + 'none', border + 'hidden'):
                self.assertEqual(0, self.top_of(declarations, met), declarations)

    def test_later_part_of_a_broken_box_has_no_left_edge(self):
        self.assert_boxes(
            block(1, '', inline(2, 'padding-left: 60px', (3, 'a'), block(4, 'height: 5px'), block(5, FLOAT), (6, 'aa'))),
            '1 0 0 100 45', '1 0 0 100 20', '1 0 0 100 20', '2 0 2 68 16', '3 60 2 8 16', '4 0 20 100 5',
            '1 0 25 100 20', '1 50 25 50 20', '2 50 27 16 16', '6 50 27 16 16', '5 0 25 50 10')


if __name__ == '__main__':
    unittest.main()
