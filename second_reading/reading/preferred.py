"""Preferred widths (CSS 2.2, 10.3.5): how narrow a box can be without overflow, and how wide where only forced breaks
are made.

They rest on styles alone: widths in percent count as `auto`, and margins, paddings and indents in percent as 0. Each
pair is the least width and the preferred one.
"""
from collections import namedtuple

from reading.automatic_columns import extent_of_columns, extent_of_table, width_for_captions
from reading.columns import all_spacings_across, own_widths
from reading.content import Atomic, Cluster, End, Start, is_seen
from reading.edges import borders, margins, paddings
from reading.replaced import Bounds, replaced_size, within
from reading.styles import within_limit

Pair = namedtuple('Pair', 'least preferred')


def length(value):
    """A length, or None for a word or a percentage."""
    return value.amount if value.kind == 'length' else None


def edges_of_lengths(box):
    """The margins, borders and paddings where percentages are 0, as `auto` is."""
    return margins(box, None), borders(box), paddings(box, None)


def edge_width(box, side):
    return sum(getattr(edges, side) for edges in edges_of_lengths(box))


def bounds_of_lengths(box, name):
    """The bounds of the width or the height that are lengths."""
    return Bounds(length(box.style['min-' + name]) or 0, length(box.style['max-' + name]))


# -- contributions

def content_widths(box):
    """The widths of the content box that a box contributes."""
    widths = bounds_of_lengths(box, 'width')
    given = length(box.style['width'])
    if box.is_replaced:
        height = length(box.style['height'])
        width, _ = replaced_size(box.node.natural, given, height, widths, bounds_of_lengths(box, 'height'))
        return Pair(width, width)
    pair = Pair(box.least_width, box.preferred_width) if given is None else Pair(given, given)
    if box.table:                                                   # its columns make a table wider than it is given
        pair = Pair(max(pair.least, box.least_width), max(pair.preferred, box.preferred_width))
    return Pair(*(within(width, widths) for width in pair))


def contribution(box):
    """The widths of the margin box."""
    edges = sum(edge_width(each, side) for each in (box, box.table) if each for side in ('left', 'right'))
    return Pair(*(width + edges for width in content_widths(box)))


# -- inline content

def is_seen_here(parts):
    return any(is_seen(part, edges_of_lengths) for part in parts)


class WidthOfLine:
    """The width of parts in a line that begins with an indent, as of a least or of a preferred width."""

    def __init__(self, content, indent, name):
        self.tab, self.place, self.name = content.tab, indent, name
        self.hanging, self.begins_line = 0, True

    def width(self, part):
        if isinstance(part, Start):
            return edge_width(part.box, 'left') if part.box.is_first else 0
        if isinstance(part, End):
            return edge_width(part.box, 'right') if part.box.is_last else 0
        if isinstance(part, Atomic):
            return getattr(contribution(part.box), self.name)
        if part.kind == 'tab' and self.tab:
            return self.tab - self.place % self.tab
        return 0 if part.kind == 'space' and self.begins_line else part.width

    def of(self, parts):
        """The width with its indent, without the spaces at the end."""
        for part in parts:
            width = self.width(part)
            self.place += width
            is_space = isinstance(part, Cluster) and part.kind in ('space', 'hanging')
            if isinstance(part, Atomic) or (isinstance(part, Cluster) and part.kind != 'linefeed'):
                self.hanging = self.hanging + width if is_space else 0
                self.begins_line = self.begins_line and isinstance(part, Cluster) and part.kind == 'space'
        return self.place - self.hanging


def widths_of_lines(content, lines, indent, name):
    """The widths of lists of parts, each in a line of its own; the first that is seen has the indent."""
    for parts in lines:
        seen = is_seen_here(parts)
        yield WidthOfLine(content, indent if seen else 0, name).of(parts)
        indent = 0 if seen else indent


def forced_lines(segments):
    """The segments in lists, each up to a preserved linefeed."""
    found = [[]]
    for segment in segments:
        found[-1].append(segment)
        if segment.is_forced:
            found.append([])
    return [line for line in found if line]


def floats_of(segments):
    return [box for segment in segments for box in segment.heads + segment.met if box.is_floating]


def widths_of_inline_content(content):
    """The widest segment or float; the widest line between forced breaks, with its floats beside it."""
    indent = within_limit(length(content.box.style['text-indent']) or 0)
    segments = content.segments
    floats = [contribution(box).least for box in floats_of(segments)]
    least = list(widths_of_lines(content, [segment.parts for segment in segments], indent, 'least')) + floats
    lines = forced_lines(segments)
    parts_of_lines = [[part for segment in line for part in segment.parts] for line in lines]
    preferred = [width + sum(contribution(box).preferred for box in floats_of(line))
                 for line, width in zip(lines, widths_of_lines(content, parts_of_lines, indent, 'preferred'))]
    return Pair(max([0] + least), max([0] + preferred))


# -- blocks and tables

def widths_of_blocks(box):
    """The greatest contribution of a child, where adjacent floats stand beside each other in the preferred width.

    Absolute boxes contribute nothing, and don't part floats.
    """
    least, preferred, before = [0], [0], None
    for child in box.children:
        if child.is_absolute:
            continue
        pair = contribution(child)
        least.append(pair.least)
        if before and before.is_floating and child.is_floating:
            preferred[-1] += pair.preferred
        else:
            preferred.append(pair.preferred)
        before = child
    return Pair(max(least), max(preferred))


def widths_of_columns(wrapper):
    """The sum over the columns, each with its own width or the greatest contribution of its cells that span one."""
    table = wrapper.table
    own = own_widths(table, None)
    pairs = [Pair(width or 0, width or 0) for width in own]
    for cell, area in table.grid.areas.items():
        if area.columns == 1 and own[area.column] is None:
            pairs[area.column] = Pair(*map(max, pairs[area.column], contribution(cell)))
    return Pair(*(all_spacings_across(table) + sum(getattr(pair, name) for pair in pairs) for name in Pair._fields))


def widths_of_automatic_columns(wrapper):
    """What the columns have at least and at most, and no less than the captions need; sets what a table keeps of both."""
    table = wrapper.table
    table.columns_extent = extent_of_columns(table)
    table.captions_width = max([0] + [contribution(child).least for child in wrapper.children if child is not table])
    least = width_for_captions(table, paddings(table, None))
    return Pair(*(max(width, least) for width in extent_of_table(table)))


def find_preferred_widths(box):
    """Sets the preferred widths of the content boxes from a box on, inner ones first; a table box has its wrapper's."""
    for child in box.children + box.line_boxes:
        find_preferred_widths(child)
    if box.table:
        pair = (widths_of_automatic_columns if box.table.is_automatic else widths_of_columns)(box)
    else:
        pair = widths_of_inline_content(box.content) if box.content.segments else widths_of_blocks(box)
    box.least_width, box.preferred_width = pair
