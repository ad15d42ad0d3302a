"""A second reading of CSS 2.2: blocks and floats, lines and what stands in them, tables, and positioned boxes.

usage, in the folder second_reading: python3 -m reading.report [--automatic-tables] < DOCUMENT      prints the report of `lay scratch` on a run document without faults

It was written apart from the crates, so that each is a test of the other (`compare`). Read `page` first, where all
boxes come to stand; then `blocks` (9.4.1, 9.5.2), `margins` (8.3.1), `floats` (9.5), `lines` (9.4.2), `alignment`
(10.8.1), `content` (16.4 and 16.6), `sizes` and `offsets` (10), `preferred` (10.3.5), `replaced` (10.3.2 and 10.4),
`grid`, `columns`, `automatic_columns` and `rows` (17.5), `collapsed_borders` (17.6.2), `baselines`, `boxes`, `parts` and
`nodes` (9.2 and 9.7), `missing_tables` (17.2.1), `edges` (8), `face` (15) and `styles` (6).

Words: an atomic box is an inline-block, an inline-table, or a replaced element that is inline. A context is a block
formatting context, a table box or a replaced element, and its own box is the one that establishes it. A solid box is a
context's own box among the blocks in the flow, which overlaps no float. The mark of a box is where the flow puts its
top border edge, before floats move it. The start of a run of margins is the edge from which its margins are counted.
An absolute box is absolutely positioned or fixed.

How open places of the standard are read
- 8.3.1: the start of a run is the bottom border edge of the last box before it that isn't collapsed through, also where
  that edge is inside what the box holds (`max-height`), or the content would have a negative height. A box with
  clearance sets the start so that it comes to stand at its clear edge: by all margins of its run, or where it is
  collapsed through by those before its own bottom margin.
- 8.3.1: that margins with clearance keep off the parent's bottom margin holds where one of the last children in the
  flow has clearance, and it and all after it are collapsed through. It keeps apart no other margins.
- 8.3.1: a padding in percent parts margins only where its used value isn't 0.
- 9.5.1: boxes are next to each other where their vertical ranges share a point. A box to be placed that is less than
  one unit high is the line of its top, and an earlier float of such a height is next to nothing. The range of a float
  is that of its margin box, and the range of a solid box that of its border box.
- 9.5.1, rule 5: a float isn't above its own mark, which is that of an empty block without margins in its place.
- 9.5.1, rule 7: a left float has "another left float to its left" where the right edge of that one isn't right of its
  own left edge, so also where the margin box of that one has a negative width.
- 9.5.2: the hypothetical edge of a solid box is its mark, and not the edge to which floats would move it.
- 9.5.2: a box also has clearance where a float to clear has its mark in the run of the box's top margin, also a float
  before the first margin of that run: without clearance the two would move together.
- 10.1: the root's containing block is the viewport, also for percentages of its height and of the bounds of that. A
  root that floats right ends at the viewport's right edge.
- 10.4: the widths that are compared solve the equation as it stands, before they are held within the limit of lengths.
- 10.5: percentages are of the height after 10.7.
- 9.7: a replaced element whose `display` is `table` is a block, and with another value for tables or `inline-block` it
  is inline.
- 10.3.5: the least width is that of the widest segment or float. To the preferred width of a line the floats in it are
  added; adjacent floats among blocks add up there, too. An indent is added to the first segment that is seen, and to
  the first line that is. Widths in percent count as `auto`, other percentages as 0, bounds in percent not at all.
- 10.4: a quotient by the natural ratio is rounded down.
- 10.3.7: a static position is left at the content edge of the nearest block container, and its top is that of an empty
  block or of the line that has the box, which may be one that isn't seen. Of two auto margins the first one is rounded
  down. A height of `auto` between two offsets isn't definite for what is inside.
- 10.3.7 and 17.5.2: an absolute table shrinks to fit also between two offsets, and none makes it higher.
- 10.8.1: `sub` lowers by a fifth of the parent's font size and `super` raises by a third, both rounded down. `text-top`
  and `text-bottom` move a box by its own extent and not by that of its aligned subtree. Subtrees that are `top` extend
  the line downward, and after them those that are `bottom` upward.
- 10.8.1: the last line box of an inline-block is the last one in document order of its own context that is seen.
- 9.2.1.1: blocks in an inline box with nothing between them but blank texts and boxes out of the flow break it once.
  What stands beside blocks is wrapped whole, where it is more than boxes out of the flow and blank texts.
- 9.3.1 and 10.1: an inline box is no containing block of absolute boxes, and neither are cells, captions and the other
  inner boxes of tables; the wrapper of a table is one. Inner boxes and captions aren't moved by offsets.
- 9.4.3: the offsets of an inline box move all that it holds, also floats, static positions and the blocks that broke
  it. Their percentages are of the block container in which its part stands.
- 9.4.2: a line is seen, too, where an inline box on it has a margin, border or padding above or below.
- 9.5: what is beside a line is asked over the height of its strut. A line with nothing in it goes down also where the
  floats beside it leave the whole width. A float inside a segment is met at its end, and one right behind a break that
  isn't forced before it; once a float of a line is put off, so are the later ones. Starts and ends of inline boxes put
  no float inside a segment, but a start with a left margin, border or padding other than 0 does, also one in percent.
- 9.5: a line ends before the first segment that doesn't fit, also where a longer front would. Behind content that
  reaches out of its line a segment that doesn't make it longer still fits (16.6): a linefeed, spaces that are removed or
  hang, an inline box without width.
- 16.6.1: ends of inline boxes right behind a preserved linefeed stand before the break, whatever boxes out of the flow
  stand between; these stand behind it.
- 10.8.1: what `vertical-align` raises a box by is held within the limit of lengths, by each value.
- 16.1: each block container indents its first line that is seen, also an anonymous block.
- 16.4: letter-spacing is added behind each cluster, word-spacing at each U+0020 and U+00A0; a tab has neither.
- 16.6: a line may break on each side of an atomic box, by the `white-space` of the box that directly holds it. The
  starts of inline boxes right before it go with it. Where nothing but starts and ends of inline boxes stands between
  two such places they are one, the first: an empty inline box between two atomic boxes goes with the second.
- 16.6.1: what stands beside a linefeed is removed inside one text; a space behind a space, over texts. A space that
  surely begins a line is removed before there are segments. Where a space was removed there is no break.
- 16.6.1: spaces at a line's end under `pre-wrap` don't count for what fits, and do count for alignment; those under
  `pre` count for both. A space with a combining mark is no space.
- 17.2.1: white space is that of spaces, tabs, linefeeds and carriage returns, whatever `white-space` is; texts of it
  that stand together are one.
- 17.2: the first header group stands first and the first footer group last; the other ones stay. Rows in no group that
  come to stand together are a band, which no cell spans out of, also where they stood apart; an empty group parts them.
- 17.3 and 17.5: a column that spans several stands for as many columns of its kind, also where borders collapse. The
  first row is that which comes to stand first.
- 17.4: the wrapper has margins, float, position and offsets, and the table box all else, `clear`, `overflow` and
  `vertical-align` among it; so these have no effect. A caption makes no table of the fixed layout wider. Percentages of
  the table box are of the wrapper's containing block; those of cells, of the table box.
- 17.5.2: a table has the fixed layout where it is `fixed` and its width isn't `auto`, but may be in percent; so an
  anonymous table never has. Without `AUTOMATIC_TABLES` each table has it.
- 17.5.2.1: percentages of columns and of cells of the first row, of paddings of these too, are of the width that the
  table would have without its columns. What a cell over several columns has in excess of the spacings between them is
  shared out. The widths of groups and bounds of cells and columns don't count.
- 17.5.2.2: widths in percent of cells, columns and groups are `auto`, paddings of cells in percent are 0, and bounds of
  cells and columns don't count. A width is no maximum. What a cell over several columns lacks is shared equally, row by
  row and from left to right, of minimums and of maximums alike; then groups do so with minimums alone. At the end, and
  not before, a maximum is raised to its minimum. In less space than the maximums columns grow by what they can; beyond
  the maximums all share equally. Units that are left over go to the first columns that grow, or to the first of all.
- 17.5.2.2: the border box of the table is as wide as its captions contribute at least. The room is the containing block
  without margins, borders and paddings; offsets of an absolute table take nothing of it. Bounds of the table cut
  nothing that columns and captions need, but do so in what it contributes (10.3.5).
- 17.5.2: without columns there is no spacing across, and rows and groups are as wide as the table's content box;
  without rows there is none down. A cell is as wide as its columns, also where its borders and paddings are wider.
- 17.5.3: the height of a row group and bounds of cells, rows and groups don't count. A cell's `height` is that of its
  content, in percent of the table's if that is definite. It isn't moved by the alignment on the baseline. The baseline
  of a cell without lines and rows is the bottom of what it holds. The rows of a table in the flow of a cell count, and
  no other boxes of inner contexts.
- 17.6.2: the side of a cell over several slots has the half of the widest border there. Of an odd width the lesser half
  is left or above. A table without rows or without columns has no borders.
- 10.3.5: in the fixed layout what a cell of one column contributes is held within its bounds in lengths; what a table
  contributes is, too, also below the widths of its columns.
- 6.2.1 and 8.5.1: on the root `inherit` is the initial value, so `border-top-width: inherit` is `medium`.
"""
import collections
import json
import sys

from reading.columns import left_of_column, width_of_rows
from reading.face import Face
from reading.nodes import read_nodes
from reading.offsets import offset_of_inlines
from reading.page import Page, Rect

MOST_FRAMES = 10000
# Whether tables have the automatic layout unless they are fixed and have a width. Without it all have the fixed one.
AUTOMATIC_TABLES = True


def pieces(box):
    """The pieces of a box and of all in it that is of its element's context, in the order of the tree of boxes."""
    yield 'box', box.node.id, Rect(*box.corner, box.border_box_width, box.border_box_height)
    if box.display == 'table-box':
        for row_box in box.row_boxes:
            yield from pieces_of_rows(box, row_box)
        return
    for line in box.lines:
        for piece in line.pieces:
            yield from pieces_in_line(box, piece)
    for child in box.children:
        if not child.is_absolute and (child.is_anonymous or not child.is_context):
            yield from pieces(child)


def pieces_in_line(box, piece):
    """A piece of a line; in place of an atomic box that no node generates its own pieces."""
    if piece.kind == 'atomic':
        yield from pieces(piece.box)
        return
    node = piece.box.node.parent if piece.kind == 'text' else piece.box.node
    left, top = offset_of_inlines(node, box)
    yield piece.kind, piece.box.node.id, Rect(box.origin.left + piece.left + left, box.origin.top + piece.top + top,
                                              piece.width, piece.height)


def pieces_of_rows(table, row_box):
    """The pieces of a row group or a row, from its first column to its last one, and of anonymous cells."""
    first, is_row = table.grid.places[row_box], row_box.display == 'table-row'
    top, count = table.rows.tops[first], 1 if is_row else len(row_box.children)
    height = table.rows.bottom(first + count - 1) - top if count else 0
    yield 'box', row_box.node.id, Rect(table.corner.left + left_of_column(table, 0), table.corner.top + top,
                                       width_of_rows(table), height)
    for child in row_box.children:
        if not is_row:
            yield from pieces_of_rows(table, child)
        elif child.is_anonymous:
            yield from pieces(child)


def piece_lines(box):
    """The lines of the report for a context; the part counts its earlier pieces of the same kind and node."""
    parts = collections.Counter()
    for kind, ident, rect in pieces(box):
        yield '%s %d %d %d %d %d %d' % (kind, ident, parts[kind, ident], *rect)
        parts[kind, ident] += 1


def contexts_of_page(run, automatic_tables=AUTOMATIC_TABLES):
    """The own boxes of the contexts of a document, in document order."""
    root = read_nodes(run)
    if root.is_hidden:
        return []
    sys.setrecursionlimit(MOST_FRAMES)
    return Page(root, run['viewport'], Face(run.get('face', {})), automatic_tables).contexts


def report(run, automatic_tables=AUTOMATIC_TABLES):
    """The text that the program has to print for a run document."""
    lines = ['publish 0', 'final 0']
    lines += [line for box in contexts_of_page(run, automatic_tables) for line in piece_lines(box)]
    return '\n'.join(lines) + '\n'


def context_count(run):
    """How many contexts a document has."""
    return len(contexts_of_page(run))


def main():
    if sys.argv[1:] not in ([], ['--automatic-tables']):
        print(__doc__)
        sys.exit(0 if sys.argv[1:] == ['--help'] else 2)
    automatic_tables = AUTOMATIC_TABLES or '--automatic-tables' in sys.argv[1:]
    sys.stdout.write(report(json.loads(sys.stdin.buffer.read()), automatic_tables))


if __name__ == '__main__':
    main()
