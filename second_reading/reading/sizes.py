"""Used widths, and heights as they are given (CSS 2.2, 8.3 to 8.5, 10.2 to 10.7 and 17.5.2).

They depend on the containing block and on preferred widths, so they are found before any box is placed. None stands for
`auto`, and for a greatest size of `none`.
"""
from collections import namedtuple

from reading.automatic_columns import automatic_column_widths, automatic_width
from reading.columns import all_spacings_across, column_widths, used_columns, width_over_columns
from reading.edges import NO_EDGES, borders, margins, paddings
from reading.offsets import solve_absolute
from reading.parts import InlineBox
from reading.replaced import Bounds, replaced_size
from reading.styles import resolve, size_within_limit, within_limit

# The margins at left and right, and the width.
Widths = namedtuple('Widths', 'before after size')


def solve_in_flow(containing_width, margin_left, margin_right, width, rest):
    """The widths of a block in normal flow (10.3.3); the rest is its borders and paddings.

    - With a width of `auto` other values of `auto` are 0, and so is a width that would be negative.
    - If the widths are over the containing block's, margins of `auto` are 0.
    - If both margins are `auto`, they are equal; if one is, it follows.
    - In each case the right margin follows at last.
    """
    if width is None:
        margin_left, margin_right = margin_left or 0, margin_right or 0
        width = max(0, containing_width - margin_left - rest - margin_right)
    room = containing_width - rest - width
    if (margin_left or 0) + (margin_right or 0) > room:
        margin_left, margin_right = margin_left or 0, margin_right or 0
    if margin_left is None and margin_right is None:
        margin_left = room // 2
    elif margin_left is None:
        margin_left = room - margin_right
    return Widths(margin_left, room - margin_left, width)


def shrunk_width(box, available_width):
    """The shrink-to-fit width (10.3.5)."""
    return min(max(box.least_width, available_width), box.preferred_width)


def solve_shrinking(box, containing_width, margin_left, margin_right, width, rest):
    """The widths of a float or an atomic box (10.3.5, 10.3.9): margins of `auto` are 0, a width of `auto` shrinks."""
    margin_left, margin_right = margin_left or 0, margin_right or 0
    if width is None:
        width = shrunk_width(box, containing_width - margin_left - rest - margin_right)
    return Widths(margin_left, margin_right, width)


def equation_in_flow(box, rest, containing_width):
    """A function from a width to the used widths of a box in the flow or a float."""
    margin_left, margin_right = (resolve(box.style[name], containing_width) for name in ('margin-left', 'margin-right'))

    def with_width(width):
        if box.is_floating or box.is_atomic:
            return solve_shrinking(box, containing_width, margin_left, margin_right, width, rest)
        return solve_in_flow(containing_width, margin_left, margin_right, width, rest)
    return with_width


def equation_out_of_flow(box, rest, containing_width, static_left):
    """A function from a width to the used offset and widths of an absolute box (10.3.7, 10.3.8).

    A table shrinks to fit also between two offsets.
    """
    left, right, margin_left, margin_right = (resolve(box.style[name], containing_width)
                                              for name in ('left', 'right', 'margin-left', 'margin-right'))

    def with_width(width):
        return solve_absolute(containing_width - rest, left, right, margin_left, margin_right, width, static_left,
                              lambda available: shrunk_width(box, available))

    def with_width_of_table(width):
        return with_width(shrunk_width(box, with_width(None).size) if width is None else width)
    return with_width_of_table if box.table else with_width


def find_replaced_size(box, containing_width, containing_height):
    """Sets the used size of a replaced box; a percentage of a height that isn't definite is `auto`, 0 or `none`."""
    style = box.style
    width, most_width = (resolve(style[name], containing_width) for name in ('width', 'max-width'))
    height, most_height = (resolve(style[name], containing_height) for name in ('height', 'max-height'))
    widths = Bounds(resolve(style['min-width'], containing_width), most_width)
    heights = Bounds(resolve(style['min-height'], containing_height) or 0, most_height)
    size = replaced_size(box.node.natural, width, height, widths, heights)
    box.replaced_width, box.replaced_height = map(size_within_limit, size)


def within_bounds(equation, size, least, most):
    """The three steps of 10.4 and 10.7, each of which solves the equation anew."""
    solved = equation(size)
    if most is not None and solved.size > most:
        solved = equation(most)
    if solved.size < least:
        solved = equation(least)
    return solved


def room_for_table(wrapper, containing_width):
    """What the margins, borders and paddings of a table leave of the width; margins of `auto` are 0 (17.5.2.2)."""
    margin_left, margin_right = (resolve(wrapper.style[name], containing_width) or 0
                                 for name in ('margin-left', 'margin-right'))
    return containing_width - margin_left - edges_across(wrapper.table) - margin_right


def widths_of_table(wrapper, equation, width):
    """The widths of a table with this used width. The equation is of the wrapper, which is as wide as the table's border box within the limit."""
    edges = edges_across(wrapper.table)
    width = size_within_limit(width)
    return equation(size_within_limit(width + edges) - edges)._replace(size=width)


def used_widths(box, equation, containing_width):
    """The widths that solve an equation; those of a table after its columns have settled how wide it is (17.5.2)."""
    if box.is_replaced:
        return equation(box.replaced_width)                         # 10.3.2, 10.3.4, 10.3.6 and 10.3.8
    width, most = (resolve(box.style[name], containing_width) for name in ('width', 'max-width'))
    least = size_within_limit(resolve(box.style['min-width'], containing_width))
    if box.table and box.table.is_automatic:
        used = automatic_width(box.table, width, room_for_table(box, containing_width), least, most)
        box.table.column_widths = used_columns(automatic_column_widths(box.table, used))
        return widths_of_table(box, equation, used)
    widths = within_bounds(equation, width, least, most)
    if not box.table:
        return widths
    wanted = size_within_limit(widths.size)
    columns = column_widths(box.table, wanted)
    box.table.column_widths = used_columns(columns)
    return widths_of_table(box, equation, max(wanted, sum(columns) + all_spacings_across(box.table)))


def height_within(height, least, most):
    """The three steps of 10.7."""
    if most is not None and height > most:
        height = most
    if height < least:
        height = least
    return height


def used_height(box, auto_height):
    """The used content height (10.7), `auto_height` being what 10.6 gives where the height is `auto`."""
    if box.definite_height is not None:
        return box.definite_height
    return size_within_limit(height_within(size_within_limit(auto_height), box.min_height, box.max_height))


def find_edges(box, containing_width):
    """Sets the used borders and paddings; percentages above and below are of the width, too (8.4)."""
    box.border, box.padding = borders(box), paddings(box, containing_width)


def edges_across(box):
    """What borders and paddings take of the width."""
    return box.border.left + box.padding.left + box.padding.right + box.border.right


def find_widths(box, equation, containing_width):
    """Sets the used margins, width and width of the border box; vertical margins of `auto` are 0 (8.3 and 10.6.3).

    A wrapper is as wide as its table box (17.4); that is a used width, too.
    """
    widths = used_widths(box, equation, containing_width)
    box.margin = margins(box, containing_width)._replace(left=within_limit(widths.before),
                                                         right=within_limit(widths.after))
    sized = box.table or box
    sized.width = size_within_limit(widths.size)
    sized.border_box_width = sized.width + edges_across(sized)
    if box.table:
        box.width = box.border_box_width = size_within_limit(box.table.border_box_width)
    return widths


def find_heights(box, containing_height):
    """Sets the height as given, its bounds, and the height that the children's percentages are of (10.5 and 10.7)."""
    style = box.style
    box.given_height = resolve(style['height'], containing_height)
    box.min_height = resolve(style['min-height'], containing_height) or 0
    box.max_height = resolve(style['max-height'], containing_height)
    box.definite_height = None
    if box.given_height is not None:
        box.definite_height = size_within_limit(height_within(box.given_height, box.min_height, box.max_height))
    if box.is_replaced:
        box.definite_height = box.replaced_height
    box.percentage_base = containing_height if box.is_anonymous else box.definite_height        # 9.2.1.1


def have_height_of_content(box):
    """Sets the heights of a box that isn't given one, and has no bounds."""
    box.given_height = box.definite_height = box.percentage_base = box.max_height = None
    box.min_height = 0


def find_inline_edges(parts, containing_width):
    """Sets margins, borders and paddings of the inline boxes among the parts; margins of `auto` are 0 (10.3.1)."""
    for part in parts:
        if isinstance(part, InlineBox):
            find_edges(part, containing_width)
            part.margin = margins(part, containing_width)
            find_inline_edges(part.children, containing_width)


def used_edges(box):
    """The used margins, borders and paddings."""
    return box.margin, box.border, box.padding


def has_vertical_edges(box, edges_of=used_edges):
    """A margin, border or padding above or below isn't 0."""
    return any(edges.top or edges.bottom for edges in edges_of(box))


def find_sizes_of_cell(cell, table):
    """Sets the sizes of a cell, whose containing block is the table box; it takes the spacings that it covers (17.5.2).

    Its bounds have no effect, and margins don't apply.
    """
    find_edges(cell, table.width)
    cell.margin = NO_EDGES
    area = table.grid.areas[cell]
    cell.border_box_width = width_over_columns(table, area.column, area.columns)
    cell.width = size_within_limit(cell.border_box_width - edges_across(cell))
    have_height_of_content(cell)
    height = resolve(cell.style['height'], table.definite_height)
    cell.definite_height = cell.percentage_base = None if height is None else size_within_limit(height)
    find_sizes_inside(cell, table.width)


def find_sizes_inside(box, containing_width):
    """Sets the sizes of all in a box whose sizes are set; those of absolute boxes come once they have places."""
    if box.table:
        for child in box.children:
            if child is not box.table:
                find_sizes(child, box.width, None)
        for cell in box.table.children:
            find_sizes_of_cell(cell, box.table)
        return
    box.indent = within_limit(resolve(box.style['text-indent'], containing_width))              # 16.1
    find_inline_edges(box.inline_content, box.width)
    for child in box.children + box.line_boxes:
        if not child.is_absolute:
            find_sizes(child, box.width, box.percentage_base)


def find_sizes_with(equation_of, box, containing_width, containing_height):
    """Sets the sizes of a box and of all below it, its widths by an equation; gives the solved widths."""
    sized = box.table or box
    find_edges(box, containing_width)
    if box.table:
        find_edges(box.table, containing_width)
    if box.is_replaced:
        find_replaced_size(box, containing_width, containing_height)
    widths = find_widths(box, equation_of(box, edges_across(sized), containing_width), containing_width)
    find_heights(sized, containing_height)
    if box.table:
        box.table.margin = NO_EDGES
        have_height_of_content(box)
    find_sizes_inside(box, containing_width)
    return widths


def find_sizes(box, containing_width, containing_height):
    """Sets the sizes of a box and of all below it; the containing block's height is None where it isn't definite."""
    find_sizes_with(equation_in_flow, box, containing_width, containing_height)
