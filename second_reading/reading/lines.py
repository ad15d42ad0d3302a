"""The lines of a block container, beside floats (CSS 2.2, 9.4.2, 9.5, 10.8.1, 16.1, 16.2 and 16.6.1).

A line is filled from its start, a segment after the other, as long as each fits or takes no room; a float is placed
where it is met, and an absolute box has its static position in the line that meets it.
"""
from collections import namedtuple

from reading.alignment import extent_of_atomic, extent_of_font, shape_of_line
from reading.content import Atomic, Cluster, End, Start, is_seen
from reading.floats import is_next_to, place_float, tops_from
from reading.parts import InlineBox, TextBox
from reading.sizes import has_vertical_edges

Room = namedtuple('Room', 'left right is_beside_floats')
# The corners of the border boxes of the atomic boxes stand beside the pieces.
Line = namedtuple('Line', 'pieces atomic_corners baseline')
# The kind is `line`, `box`, `text`, or `atomic` where the pieces of an atomic box stand that no node generates.
Piece = namedtuple('Piece', 'kind box left top width height')


def start_width(box):
    """The margin, border and padding where an inline box starts; a part behind a block has none there."""
    return box.margin.left + box.border.left + box.padding.left if box.is_first else 0


def end_width(box):
    return box.padding.right + box.border.right + box.margin.right if box.is_last else 0


class Pen:
    """Where the parts of a line that are taken so far come to, counted from the content edge (16.6.1).

    The hanging width is that of the spaces at the end, which don't count for what fits; the removed width is that of
    the collapsible ones among them behind which no preserved one stands.
    """

    def __init__(self, start, tab):
        self.start = self.place = start
        self.tab, self.hanging, self.removed = tab, 0, 0
        self.begins_line, self.is_seen = True, False

    def width(self, part):
        """The width of a part here; a tab reaches to the next stop, and a space at the start of a line is removed."""
        if isinstance(part, Start):
            return start_width(part.box)
        if isinstance(part, End):
            return end_width(part.box)
        if isinstance(part, Atomic):
            return part.box.margin.left + part.box.border_box_width + part.box.margin.right
        if part.kind == 'tab' and self.tab:
            return self.tab - self.place % self.tab
        return 0 if part.kind == 'space' and self.begins_line else part.width

    def add(self, part):
        width = self.width(part)
        self.place += width
        self.is_seen = self.is_seen or is_seen(part)
        if isinstance(part, Atomic):
            self.hanging, self.removed, self.begins_line = 0, 0, False
        if not isinstance(part, Cluster) or part.kind == 'linefeed':
            return
        is_space = part.kind in ('space', 'hanging')
        self.hanging = self.hanging + width if is_space else 0
        self.removed = self.removed + width if part.kind == 'space' else 0
        self.begins_line = self.begins_line and part.kind == 'space'

    def copy(self):
        other = Pen(self.start, self.tab)
        other.__dict__.update(self.__dict__)
        return other


class LineFill:
    """A line at a top, with what it has taken so far."""

    def __init__(self, lines, top):
        self.lines, self.top = lines, top
        self.parts, self.put_off, self.anchored = [], [], []
        self.room = lines.room(top)
        self.pen = self.new_pen()

    def new_pen(self):
        """The pen at the line's start, with the indent that the line has if it is seen and the first such one."""
        return Pen(self.room.left - self.lines.containing_block.left + self.lines.next_indent(), self.lines.content.tab)

    def pen_with(self, parts):
        pen = self.pen.copy()
        for part in parts:
            pen.add(part)
        return pen

    def width_to(self, pen):
        """The width of content up to a pen, but for spaces at the end; only a seen line has the indent."""
        return pen.place - pen.hanging - pen.start + (self.lines.next_indent() if pen.is_seen else 0)

    def fits(self, segment):
        """The line's content fits its room with this segment."""
        return self.width_to(self.pen_with(segment.parts)) <= self.room.right - self.room.left

    def goes_on_with(self, segment):
        """A further segment is in this line: it fits, or it takes no room behind content that reaches out (16.6)."""
        return self.fits(segment) or self.width_to(self.pen_with(segment.parts)) <= self.width_to(self.pen)

    def take(self, segment):
        self.pen = self.pen_with(segment.parts)
        self.parts += segment.parts
        for box in segment.met:
            if box.is_absolute:
                self.anchored.append(box)
            else:
                self.meet(box)

    def meet(self, box):
        """Places a float that the line meets, or puts it off behind the line.

        It stands beside the content where it fits, at the line's top; once one is put off, the later ones are. A line
        without content has its floats from its top downward.
        """
        if self.put_off:
            self.put_off.append(box)
            return
        margin_box = self.lines.float_place(box, self.top)
        if self.pen.is_seen:
            content = self.pen.place - self.pen.removed - self.pen.start + self.lines.next_indent()
            room = self.room.right - self.room.left - content
            if margin_box.right - margin_box.left > room or margin_box.top > self.top:
                self.put_off.append(box)
                return
        self.lines.keep_float(margin_box)
        self.room = self.lines.room(self.top)
        self.pen = self.new_pen()
        self.pen = self.pen_with(self.parts)


class Lines:
    """The lines of a block container, from the top of its content box downward."""

    def __init__(self, content, containing_block, floats, keep_float):
        self.content, self.containing_block = content, containing_block
        self.floats, self.keep_float = floats, keep_float
        self.static_tops = {}
        self.strut = extent_of_font(content.box, content.face)
        self.open_boxes = []
        self.lines = []
        self.bottom = containing_block.top

    def next_indent(self):
        """The indent of the next line, if it is seen (16.1)."""
        return 0 if self.lines else self.content.box.indent

    def room(self, top):
        """The room of a line between the floats beside it, over the height of the strut (9.5)."""
        next_to = [other for other in self.floats if is_next_to(top, sum(self.strut), other)]
        left = max([self.containing_block.left] + [other.right for other in next_to if other.side == 'left'])
        right = min([self.containing_block.right] + [other.left for other in next_to if other.side == 'right'])
        return Room(left, right, bool(next_to))

    def float_place(self, box, ceiling):
        height = box.margin.top + box.border_box_height + box.margin.bottom
        return place_float(box, height, self.containing_block, ceiling, self.floats)

    def place_below(self, boxes, ceiling):
        for box in boxes:
            self.keep_float(self.float_place(box, ceiling))

    def next_line(self, first):
        """Fills one line from a segment on; gives the place of the segment behind it.

        The line goes down to where its first segment fits, or no float is beside it.
        """
        segments = self.content.segments
        heads = segments[first].heads
        self.place_below([box for box in heads if box.is_floating], self.bottom)
        for top in tops_from(self.bottom, self.floats):
            line = LineFill(self, top)
            if line.fits(segments[first]) or not line.room.is_beside_floats:
                break
        line.anchored += [box for box in heads if box.is_absolute]
        line.take(segments[first])
        behind = first + 1
        while behind < len(segments) and not segments[behind - 1].is_forced and line.goes_on_with(segments[behind]):
            line.take(segments[behind])
            behind += 1
        self.end(line)
        return behind

    def end(self, line):
        """Keeps a line if it is seen; a float that was put off stands below it."""
        self.static_tops.update(dict.fromkeys(line.anchored, line.top))
        open_boxes = list(self.open_boxes)
        boxes = open_boxes + [part.box for part in line.parts if isinstance(part, (Start, Atomic))]
        for part in line.parts:
            if isinstance(part, Start):
                self.open_boxes.append(part.box)
            elif isinstance(part, End):
                self.open_boxes.remove(part.box)
        if not line.pen.is_seen and not any(has_vertical_edges(box) for box in boxes if isinstance(box, InlineBox)):
            return
        shape = self.shape([self.content.box] + boxes)
        pieces = LinePieces(self, line, open_boxes)
        self.lines.append(pieces.line_box(shape))
        self.bottom = line.top + sum(shape.extent)
        self.place_below(line.put_off, self.bottom)

    def shape(self, boxes):
        """The shape of a line with these boxes (10.8.1); the first is the block container, for its strut."""
        face = self.content.face
        extents = {box: extent_of_font(box, face) if isinstance(box, InlineBox) else extent_of_atomic(box)
                   for box in boxes[1:]}
        return shape_of_line(boxes, {boxes[0]: self.strut, **extents}, face)


class LinePieces:
    """The pieces of a line that is seen: the line, its inline boxes and its texts in the order of the tree."""

    def __init__(self, lines, line, open_boxes):
        self.lines, self.line = lines, line
        indent = lines.next_indent()
        width = line.pen.place - line.pen.removed - line.pen.start
        self.start = line.room.left + indent + self.shift(line.room.right - line.room.left - indent - width)
        self.spans = {box: [self.start, None] for box in open_boxes}         # left and right edges, without margins
        self.find_spans()

    def shift(self, rest):
        """How far alignment moves the content (16.2); `justify` is `left`."""
        align = self.lines.content.box.style['text-align'].amount
        rest = max(0, rest)
        return {'right': rest, 'center': rest // 2}.get(align, 0)

    def kept_parts(self):
        """The parts without the collapsible spaces that are removed at the line's start and end."""
        texts = [place for place, part in enumerate(self.line.parts)
                 if isinstance(part, Atomic)
                 or (isinstance(part, Cluster) and part.kind not in ('space', 'linefeed'))]
        for place, part in enumerate(self.line.parts):
            is_space = isinstance(part, Cluster) and part.kind == 'space'
            if not is_space or (texts and texts[0] < place < texts[-1]):
                yield part

    def find_spans(self):
        """Goes along the line with a pen whose tabs stand where they stood before alignment."""
        pen = self.line.new_pen()
        offset = self.start - pen.start
        for part in self.kept_parts():
            before = pen.place + offset
            pen.add(part)
            if isinstance(part, Start):
                self.spans[part.box] = [before + (part.box.margin.left if part.box.is_first else 0), None]
            elif isinstance(part, End):
                self.spans[part.box][1] = pen.place + offset - (part.box.margin.right if part.box.is_last else 0)
            elif isinstance(part, Atomic):
                self.spans[part.box] = [before + part.box.margin.left, None]
            elif part.kind != 'linefeed':
                self.spans.setdefault(part.box, [before, None])[1] = pen.place + offset
        self.end = pen.place + offset

    def line_box(self, shape):
        """The line box, with its pieces."""
        line = self.line
        baseline = line.top + shape.extent.above
        pieces = [Piece('line', self.lines.content.box, line.room.left, line.top, line.room.right - line.room.left,
                        sum(shape.extent))]
        corners = []
        for box, (left, right) in self.spans.items():
            box_baseline = baseline - shape.raises[box.holder if isinstance(box, TextBox) else box]
            if isinstance(box, (TextBox, InlineBox)):
                pieces.append(self.piece(box, left, self.end if right is None else right, box_baseline))
                continue
            corners.append((box, left, box_baseline - extent_of_atomic(box).above + box.margin.top))
            if box.is_anonymous:
                pieces.append(Piece('atomic', box, None, None, None, None))
        return Line(pieces, corners, baseline)

    def piece(self, box, left, right, baseline):
        """The piece of a text or an inline box, with the height of its font and its edges above and below (10.6.1)."""
        face, size = self.lines.content.face, box.style['font-size']
        above, below = face.ascent(size), face.descent(size)
        kind = 'text'
        if isinstance(box, InlineBox):
            kind = 'box'
            above += box.padding.top + box.border.top
            below += box.padding.bottom + box.border.bottom
        return Piece(kind, box, left, baseline - above, right - left, above + below)


def lay_lines(content, containing_block, floats, keep_float):
    """The lines of a block container, filled from the first segment on; floats that they place are kept."""
    lines = Lines(content, containing_block, floats, keep_float)
    next_segment = 0
    while next_segment < len(content.segments):
        next_segment = lines.next_line(next_segment)
    return lines
