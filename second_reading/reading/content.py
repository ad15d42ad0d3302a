"""The inline content of a block container: white space, clusters and stretches without breaks (CSS 2.2, 16.4 and 16.6).

The content is one list of parts in document order: where inline boxes start and end, the clusters of the texts, atomic
boxes, and boxes out of the flow. A segment is what no line break may divide.
"""
import re
from collections import namedtuple

from reading.face import clusters
from reading.parts import InlineBox, TextBox
from reading.sizes import has_vertical_edges, used_edges

Start = namedtuple('Start', 'box')
End = namedtuple('End', 'box')
OutOfFlow = namedtuple('OutOfFlow', 'box')
Atomic = namedtuple('Atomic', 'box')

# The kind is `space` for a collapsible space, `hanging` for a preserved space under `pre-wrap`, `tab` for a preserved
# tab, `linefeed` for a preserved one, and `text` for all else.
Cluster = namedtuple('Cluster', 'box text kind width')

COLLAPSING = ('normal', 'nowrap', 'pre-line')
BREAKING = ('normal', 'pre-wrap', 'pre-line')
ZERO_WIDTH_SPACE = '\u200b'
LEFT_EDGES = ('margin-left', 'border-left-width', 'padding-left')


def mode(box):
    return box.style['white-space'].amount


def items(parts):
    """What stands in the lines, in document order: starts, ends, atomic boxes, texts as they are, and what is met."""
    for part in parts:
        if isinstance(part, InlineBox):
            yield Start(part)
            yield from items(part.children)
            yield End(part)
        elif isinstance(part, TextBox):
            yield part
        else:
            yield Atomic(part) if part.is_atomic else OutOfFlow(part)


# -- white space, 16.6.1

def without_removed(text, text_mode, is_after_space):
    """A text after the four steps of 16.6.1, where a collapsible space may stand before it.

    - Tabs, carriage returns and spaces beside a linefeed, alone or in a row, are removed.
    - Under `normal` and `nowrap` a linefeed becomes a space.
    - A tab becomes a space, and a space after a collapsible space is removed.
    Under `pre` and `pre-wrap` nothing of this happens.
    """
    if text_mode not in COLLAPSING:
        return text
    text = re.sub('[ \t\r]*\n[ \t\r]*', '\n', text)
    if text_mode != 'pre-line':
        text = text.replace('\n', ' ')
    text = re.sub(' +', ' ', text.replace('\t', ' '))
    return text[1:] if is_after_space and text.startswith(' ') else text


def cluster_of(text, box, face):
    """A cluster with its width (16.4): letter-spacing once, word-spacing at each space; a tab has its width later."""
    size = box.style['font-size']
    if text == '\n':
        return Cluster(box, text, 'linefeed', 0)
    if text == '\t':
        return Cluster(box, text, 'tab', 0)
    width = sum(face.advance(character, size) for character in text) + box.style['letter-spacing'].amount
    width += box.style['word-spacing'].amount * sum(text.count(space) for space in ' \u00a0')
    kind = 'text'
    if text == ' ' and mode(box) != 'pre':
        kind = 'hanging' if mode(box) == 'pre-wrap' else 'space'
    return Cluster(box, text, kind, width)


def clusters_of(text, box, face):
    """The clusters of what is left of a text; of CR LF, which is one, the linefeed stands apart and has no width."""
    known = {}
    for cluster in clusters(text):
        for part in ('\r', '\n') if cluster == '\r\n' else (cluster,):
            if part not in known:
                known[part] = cluster_of(part, box, face)
            yield known[part]


def collapsed_parts(parts, face):
    """Starts, ends, atomic boxes, boxes out of the flow and clusters, after 16.6.1 but for what it does line by line.

    A collapsible space that begins the content, or is the first after a preserved linefeed, is removed here.
    """
    is_after_space, begins_line = False, True
    for item in items(parts):
        if not isinstance(item, TextBox):
            if isinstance(item, Atomic):
                is_after_space = begins_line = False
            yield item
            continue
        text = without_removed(item.text, mode(item), is_after_space)
        if text:
            is_after_space = text[-1] == ' ' and mode(item) in COLLAPSING
        for cluster in clusters_of(text, item, face):
            if begins_line and cluster.kind == 'space':
                continue
            begins_line = cluster.kind == 'linefeed'
            yield cluster


# -- segments, 16.6

class Segment:
    """Parts between two places where a line may break.

    Boxes out of the flow are met behind it; `places` tells how many of its parts stand before each of them. Heads are
    those that stand before all else where a line surely begins. A forced segment ends with a preserved linefeed, and so
    its line ends.
    """

    def __init__(self):
        self.heads, self.parts, self.met, self.places, self.is_forced = [], [], [], [], False

    def is_empty(self):
        return not (self.heads or self.parts)

    def has_text(self):
        """It has a text or an atomic box."""
        return any(isinstance(part, (Cluster, Atomic)) for part in self.parts)

    def has_content(self):
        """It has a text, an atomic box, or the start of an inline box that takes room."""
        return self.has_text() or any(map(takes_room, self.parts))

    def meet(self, box):
        self.met.append(box)
        self.places.append(len(self.parts))

    def part_starts(self):
        """Takes away the starts at its end, right before an atomic box; gives the segment that they begin.

        What is met behind one of them that takes room goes with it.
        """
        behind, all_parts, met = Segment(), list(self.parts), list(zip(self.met, self.places))
        while isinstance(self.parts[-1], Start):
            behind.parts.insert(0, self.parts.pop())
        count = len(self.parts)
        self.met, self.places = [], []
        for box, place in met:
            to, place = (behind, place - count) if any(map(takes_room, all_parts[count:place])) else (self, place)
            to.met.append(box)
            to.places.append(place)
        return behind


def takes_room(part):
    """It is the start of an inline box with a margin, border or padding at its left, not 0, be it in percent.

    A later part of a broken box has none there, and a margin of `auto` is 0.
    """
    values = [part.box.style[name] for name in LEFT_EDGES] if isinstance(part, Start) and part.box.is_first else []
    return any(value.kind != 'word' and value.amount for value in values)


def breaks_beside(atomic):
    """A line may break on each side of an atomic box, by the `white-space` of the box that directly holds it."""
    return mode(atomic.box.holder) in BREAKING


def breaks_behind(part, following):
    """A line may break behind a part: after a space, the last in a row under `pre-wrap`, and after U+200B."""
    if isinstance(part, Atomic):
        return breaks_beside(part)
    if not isinstance(part, Cluster) or mode(part.box) not in BREAKING:
        return False
    if part.kind == 'hanging':
        return not (isinstance(following, Cluster) and following.kind == 'hanging' and following.box is part.box)
    return part.kind == 'space' or part.text == ZERO_WIDTH_SPACE


def segments_of(parts):
    """The segments of the content.

    Ends right behind a break stand before it, also where boxes out of the flow stand between, and so do these behind a
    break that isn't forced. Starts right before an atomic box stand behind the break there, which parts it from a text
    or another atomic box.
    """
    parts = list(parts)
    found, current = [], Segment()
    for part, following in zip(parts, parts[1:] + [None]):
        before = found[-1] if found else None
        if isinstance(part, Atomic) and breaks_beside(part) and current.has_text():
            behind = current.part_starts()
            found.append(current)
            current = behind
        if isinstance(part, OutOfFlow):
            if current.has_content():
                current.meet(part.box)
            elif before and not before.is_forced:
                before.meet(part.box)
            else:
                current.heads.append(part.box)
        elif isinstance(part, End) and before and not current.parts:
            before.parts.append(part)
        else:
            current.parts.append(part)
        is_forced = isinstance(part, Cluster) and part.kind == 'linefeed'
        if is_forced or breaks_behind(part, following):
            current.is_forced = is_forced
            found.append(current)
            current = Segment()
    return found if current.is_empty() else found + [current]


# -- what is seen, 9.4.2

def is_seen(part, edges_of=used_edges):
    """A line with this part is seen: text, preserved white space, an atomic box, or an edge of an inline box, not 0.

    Edges above and below count where the box starts. Further lines that it is on are seen too, but nothing of it stands
    before a float there.
    """
    if isinstance(part, Cluster):
        return part.kind != 'space'
    box = part.box
    if isinstance(part, Atomic) or isinstance(part, Start) and has_vertical_edges(box, edges_of):
        return True
    side, has_side = ('left', box.is_first) if isinstance(part, Start) else ('right', box.is_last)
    return has_side and any(getattr(edges, side) for edges in edges_of(box))


class Content:
    """The segments of a block container, and what else its lines depend on."""

    def __init__(self, box, face):
        self.box, self.face = box, face
        self.segments = segments_of(collapsed_parts(box.inline_content, face))
        self.tab = 8 * face.advance(' ', box.style['font-size'])

    def has_seen_line(self):
        return any(is_seen(part) for segment in self.segments for part in segment.parts)
