"""Which piece of a page is seen at a point (CSS 2.2, 9.9 and Appendix E).

A node is painted as a whole, with what is in it, where it is positioned, a float or an atomic box; all other nodes are
painted by the nearest such node around them. What is positioned is painted by the nearest stacking context.

How open places of the standard are read
- E.2: inline content is painted in document order and not line by line, and a replaced block with the blocks. No box
  clips another, and none is transparent.
- 9.9.1: a fixed box whose `z-index` is `auto` makes a stacking context of level 0.
- An anonymous box is painted with the element around it. Line boxes aren't painted.
"""
from collections import defaultdict, namedtuple

from reading.nodes import read_nodes
from reading.report import contexts_of_page, pieces
from reading.styles import UNITS_PER_PX

Piece = namedtuple('Piece', 'kind node part rect')


def level_of(node):
    """The level of the stacking context that a node makes; None where it makes none."""
    if node.parent is None:
        return 0
    position, z_index = node.word('position'), node.style['z-index']
    if node.kind == 'text' or position == 'static':
        return None
    if z_index.kind == 'number':
        return z_index.amount
    return 0 if position == 'fixed' else None


def is_positioned(node):
    return node.kind != 'text' and node.word('position') != 'static'


def pieces_of_nodes(run):
    """The boxes and texts of each node, by rising part."""
    found = defaultdict(list)
    for context in contexts_of_page(run):
        counts = defaultdict(int)
        for kind, ident, rect in pieces(context):
            if kind != 'line':
                found[ident].append(Piece(kind, ident, counts[kind, ident], rect))
            counts[kind, ident] += 1
    for own in found.values():
        own.sort(key=lambda piece: piece.part)
    return found


class Painting:
    """The pieces of a page from back to front."""

    def __init__(self, run):
        self.own = pieces_of_nodes(run)
        self.list = list(self.whole(read_nodes(run)))

    def boxes(self, node):
        return [piece for piece in self.own[node.id] if piece.kind == 'box']

    def whole(self, node):
        """A node that is painted as a whole."""
        blocks, floats, inlines = [], [], []
        self.sort_content(node, blocks, floats, inlines)
        layers = [] if level_of(node) is None else sorted(self.layers(node), key=lambda layer: layer[0])
        yield from self.boxes(node)
        for level, layer in layers:
            if level < 0:
                yield from self.whole(layer)
        for block in blocks:
            yield from self.boxes(block)
        for floating in floats:
            yield from self.whole(floating)
        for inline in inlines:
            yield from self.whole(inline) if inline.is_atomic() else self.own[inline.id]
        for level, layer in layers:
            if level >= 0:
                yield from self.whole(layer)

    def sort_content(self, node, blocks, floats, inlines):
        """Parts what is in a node and in the flow of its painting into blocks, floats and inline content."""
        for child in node.children:
            if is_positioned(child):
                continue
            if child.kind != 'text' and child.is_floating():
                floats.append(child)
            elif child.kind != 'text' and child.is_atomic():
                inlines.append(child)
            else:
                (inlines if child.kind == 'text' or child.is_inline_box() else blocks).append(child)
                self.sort_content(child, blocks, floats, inlines)

    def layers(self, node):
        """What is positioned in a stacking context and not in an inner one, with its level, in document order."""
        for child in node.children:
            level = level_of(child)
            if is_positioned(child):
                yield level or 0, child
            if level is None:
                yield from self.layers(child)


def hit_line(run, across, down):
    """The line that the program has to print for a document and a point in px."""
    left, top = across * UNITS_PER_PX, down * UNITS_PER_PX
    for piece in reversed(Painting(run).list):
        rect = piece.rect
        if rect.left <= left < rect.left + rect.width and rect.top <= top < rect.top + rect.height:
            return 'hit %s %d %d\n' % (piece.kind, piece.node, piece.part)
    return 'hit none\n'
