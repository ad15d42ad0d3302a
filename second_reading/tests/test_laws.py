"""What holds of every layout, tried on random documents."""
import unittest

from documents.atomic_documents import atomic_document
from documents.block_documents import document
from documents.positioned_documents import positioned_document
from documents.table_documents import table_document
from documents.text_documents import text_document
from reading.alignment import vertical_align
from reading.automatic_columns import extent_of_cell
from reading.boxes import boxes_of_context
from reading.columns import all_spacings_across, width_over_columns
from reading.content import Start, takes_room
from reading.face import Face
from reading.grid import slots_of
from reading.margins import top_margin
from reading.nodes import read_nodes
from reading.page import Page
from reading.parts import InlineBox, TextBox
from reading.preferred import contribution
from reading.report import report
from reading.rows import content_height
from reading.styles import LIMIT

SEED, DOCUMENTS = 99, 300


def floats_in(part):
    """The floats in an inline box."""
    if isinstance(part, InlineBox):
        return [box for child in part.children for box in floats_in(child)]
    return [part] if not isinstance(part, TextBox) and part.is_floating else []


def boxes_from(box):
    """A box and all in it."""
    yield box
    for child in box.children + box.line_boxes:
        yield from boxes_from(child)


class Laws(unittest.TestCase):
    automatic_tables = False

    @classmethod
    def setUpClass(cls):
        draws = (document, text_document, atomic_document, table_document, positioned_document)
        runs = [draw(SEED, number) for number in range(DOCUMENTS) for draw in draws]
        roots = [(read_nodes(run), run['viewport']) for run in runs]
        pages = [Page(root, viewport, Face({}), cls.automatic_tables) for root, viewport in roots if not root.is_hidden]
        cls.context_boxes = [box for page in pages for box in boxes_from(page.root) if box.is_context]
        cls.flows = [box.flow for box in cls.context_boxes if box.flow]
        cls.tables = [box for box in cls.context_boxes if box.display == 'table-box']
        cls.absolute_boxes = [(page, box) for page in pages for box in page.contexts if box.is_absolute]

    def test_run_is_a_stretch_of_the_sequence_of_margins(self):
        for flow in self.flows:
            runs = [flow.runs.run(margin) for margin in flow.runs.margins]
            beginnings = [run for place, run in enumerate(runs) if place == 0 or runs[place - 1] != run]
            self.assertEqual(len(set(beginnings)), len(beginnings))

    def test_box_with_clearance_stands_at_its_clear_edge(self):
        for flow in self.flows:
            for box, hypothetical_edge in flow.hypothetical_edges.items():
                self.assertEqual(max([hypothetical_edge] + flow.bottoms_to_clear[box]), flow.marks[box])

    def test_box_that_is_collapsed_through_has_no_height(self):
        for flow in self.flows:
            for box in boxes_of_context(flow.context_box):
                if not box.is_out_of_flow() and flow.runs.collapses_through(box):
                    self.assertEqual(0, flow.height[box])

    def test_top_margins_that_collapse_bring_boxes_to_one_top(self):
        for flow in self.flows:
            for box in boxes_of_context(flow.context_box):
                parent = box.parent
                if parent is flow.context_box or not flow.runs.has(top_margin(box)):
                    continue
                if any(map(flow.runs.collapses_through, (parent, box))):
                    continue
                if flow.runs.adjoin(top_margin(parent), top_margin(box)):
                    self.assertEqual(flow.marks[parent], flow.marks[box])

    def test_lines_of_a_block_stand_below_each_other_and_end_in_it(self):
        for flow in self.flows:
            for box, lines in flow.lines.items():
                tops = [line.pieces[0].top for line in lines]
                bottoms = [line.pieces[0].top + line.pieces[0].height for line in lines]
                self.assertTrue(all(bottom <= top for bottom, top in zip(bottoms, tops[1:])))
                self.assertEqual(flow.lines_end[box], bottoms[-1])

    def test_each_character_that_is_left_is_on_one_line(self):
        for flow in self.flows:
            for box in flow.lines:
                texts = [part for segment in box.content.segments for part in segment.parts if hasattr(part, 'kind')]
                seen = {part.box for part in texts if part.kind not in ('space', 'linefeed')}
                pieces = {piece.box for line in flow.lines[box] for piece in line.pieces if piece.kind == 'text'}
                self.assertLessEqual(seen, pieces)

    def test_atomic_boxes_stand_within_their_lines(self):
        for flow in self.flows:
            for lines in flow.lines.values():
                for line in lines:
                    line_top, line_height = line.pieces[0].top, line.pieces[0].height
                    for box, _, top in line.atomic_corners:
                        bottom = top + box.border_box_height + box.margin.bottom
                        self.assertLessEqual(line_top, top - box.margin.top)
                        self.assertLessEqual(bottom, line_top + line_height)
                        align = vertical_align(box).amount
                        if align == 'top':
                            self.assertEqual(line_top, top - box.margin.top)
                        if align == 'bottom':
                            self.assertEqual(bottom, line_top + line_height)

    def test_float_is_not_above_the_line_where_a_box_with_a_left_edge_round_it_starts(self):
        for flow in self.flows:
            tops = {other.box: other.top for other in flow.floats}
            for lines in flow.lines.values():
                starts = {}
                for line in lines:
                    for piece in line.pieces:
                        starts.setdefault(piece.box, line.pieces[0].top)
                for box, line_top in starts.items():
                    if isinstance(box, InlineBox) and takes_room(Start(box)):
                        self.assertTrue(all(line_top <= tops[each] for each in floats_in(box)))

    def test_replaced_size_is_within_its_bounds(self):
        for box in self.context_boxes:
            if box.is_replaced:
                self.assertLessEqual(box.min_height, box.replaced_height)
                most = box.max_height if box.max_height is None else max(box.min_height, box.max_height)
                self.assertTrue(most is None or box.replaced_height <= most)

    def test_box_that_shrinks_is_between_its_preferred_widths(self):
        for box in self.context_boxes:
            shrinks = (box.is_floating or box.is_atomic) and not box.is_replaced and not box.table
            widths = [box.style[name].amount for name in ('width', 'min-width', 'max-width')]
            if shrinks and widths == ['auto', 0, 'none'] and 0 <= box.preferred_width < 2 ** 31:
                self.assertLessEqual(box.width, box.preferred_width)
                self.assertLessEqual(min(box.least_width, box.preferred_width), box.width)

    def test_preferred_width_makes_no_line_but_the_forced_ones(self):
        for box in self.context_boxes:
            texts_alone = box.has_lines and not box.flow.floats and box.width == box.preferred_width
            if texts_alone and box.is_floating and box.indent == 0 and not has_odd_widths(box.content):
                forced = sum(segment.is_forced for segment in box.content.segments)
                self.assertLessEqual(len(box.flow.lines[box]), forced + 1)


    # -- tables

    def test_slot_has_one_cell(self):
        for table in self.tables:
            slots = [slot for area in table.grid.areas.values() for slot in slots_of(area)]
            self.assertEqual(len(slots), len(set(slots)))

    def test_columns_and_spacings_come_to_the_width_of_the_table(self):
        for table in self.tables:
            if table.columns and table.width < LIMIT:
                self.assertEqual(table.width, sum(table.column_widths) + all_spacings_across(table))

    def test_cell_has_room_for_its_content(self):
        for table in self.tables:
            for cell in table.children:
                self.assertLessEqual(0, cell.shift)
                self.assertLessEqual(cell.shift + content_height(cell), cell.border_box_height)

    def test_table_ends_below_its_last_row(self):
        for table in self.tables:
            rows = table.rows
            if rows.heights:
                self.assertEqual(rows.bottom(rows.count - 1) + rows.spacing,
                                 table.border_box_height - table.border.bottom - table.padding.bottom)

    def test_cells_beside_each_other_have_halves_of_one_border(self):
        for table in self.tables:
            slots = table.grid.slots if table.collapses else {}
            for (row, column), cell in slots.items():
                other = slots.get((row, column + 1))
                if other and all(table.grid.areas[each].rows == 1 for each in (cell, other)) and other is not cell:
                    self.assertIn(other.border.left - cell.border.right, (0, 1))

    # -- positions

    def test_absolute_box_stands_at_its_offsets(self):
        for page, box in self.absolute_boxes:
            containing_block, margin = page.containing_block(box), box.margin
            offsets = {side: box.style[side] for side in ('left', 'top', 'right', 'bottom')}
            for side, start, at in (('left', containing_block.left, box.corner.left),
                                    ('top', containing_block.top, box.corner.top)):
                if offsets[side].kind == 'length':
                    self.assertEqual(start + offsets[side].amount + getattr(margin, side), at)
            if offsets['right'].kind == 'length' and offsets['left'].amount == 'auto':
                right = box.corner.left + box.border_box_width + margin.right + offsets['right'].amount
                self.assertEqual(containing_block.left + containing_block.width, right)

    def test_relative_offsets_change_no_size(self):
        for run in self.positioned_runs():
            static = [with_style(node, position='static') if node.get('style', {}).get('position') == 'relative' else node
                      for node in run['nodes']]
            if all(node.get('style', {}).get('position') not in ('absolute', 'fixed') for node in run['nodes']):
                sizes, static_sizes = ([line.split()[:3] + line.split()[5:] for line in self.lines(each)]
                                       for each in (run, dict(run, nodes=static)))
                self.assertEqual(static_sizes, sizes)

    def test_absolute_boxes_change_nothing_else(self):
        for run in self.positioned_runs():
            declared = [word for node in run['nodes'] for word in node.get('style', {}).values()]
            if any('table' in word or word == 'inherit' for word in declared):
                continue
            gone = set()
            for node in run['nodes']:
                if node['parent'] in gone or node.get('style', {}).get('position') in ('absolute', 'fixed'):
                    gone.add(node['id'])
            if run['nodes'][0]['id'] in gone:
                continue
            kept = [node for node in run['nodes'] if node['id'] not in gone]
            lines = [line for line in self.lines(run)[2:] if int(line.split()[1]) not in gone]
            self.assertEqual(self.lines(dict(run, nodes=kept))[2:], lines)

    def positioned_runs(self):
        return [positioned_document(SEED, number) for number in range(DOCUMENTS)]

    def lines(self, run):
        return report(run, self.automatic_tables).splitlines()


class LawsWithAutomaticTables(Laws):
    automatic_tables = True

    def automatic(self):
        """The tables of this layout whose columns stay within the limit of lengths."""
        return [table for table in self.tables
                if table.is_automatic and all(minimum <= LIMIT for minimum in table.columns_extent.minimum)]

    def test_column_has_its_minimum(self):
        for table in self.automatic():
            extent = table.columns_extent
            for widths in zip(extent.minimum, table.column_widths):
                self.assertLessEqual(*widths)
            for widths in zip(extent.minimum, extent.maximum):
                self.assertLessEqual(*widths)

    def test_no_column_is_over_its_maximum_where_another_is_below(self):
        for table in self.automatic():
            rests = [width - maximum for width, maximum in zip(table.column_widths, table.columns_extent.maximum)]
            self.assertTrue(all(rest <= 0 for rest in rests) or all(rest >= 0 for rest in rests))

    def test_columns_of_a_cell_have_what_it_needs(self):
        for table in self.automatic():
            for cell, area in table.grid.areas.items():
                self.assertLessEqual(extent_of_cell(cell).minimum, width_over_columns(table, area.column, area.columns))

    def test_table_is_as_wide_as_its_captions_need(self):
        for table in self.automatic():
            for caption in table.parent.children:
                if caption is not table and table.width < LIMIT:
                    self.assertLessEqual(contribution(caption).least, table.border_box_width)


def with_style(node, **declarations):
    """A node with other declarations beside its own."""
    return dict(node, style={**node['style'], **declarations})


def has_odd_widths(content):
    """A part has a width that is negative, or is in percent of the box."""
    texts = [part for segment in content.segments for part in segment.parts if hasattr(part, 'kind')]
    return (any(part.width < 0 for part in texts)
            or any(not hasattr(part, 'kind') for segment in content.segments for part in segment.parts))


if __name__ == '__main__':
    unittest.main()
