"""Random run documents with points at which a piece may be seen, each settled by a seed and a number.

They are those of the other kinds. Some elements have a `z-index`, which not all heed, and most points lie at an edge of
a piece.
"""
import random

from documents.atomic_documents import atomic_document
from documents.block_documents import document
from documents.positioned_documents import positioned_document
from documents.table_documents import table_document
from documents.text_documents import text_document
from reading.painting import pieces_of_nodes
from reading.styles import UNITS_PER_PX

KINDS = [document, text_document, atomic_document, table_document, positioned_document, positioned_document]
LEVELS = ['auto', '0', '0', '-1', '-1', '1', '1', '2', '-2', '+3', '-0', 'inherit', '999999999', '-999999999']
MOST = 1000000


class HitDraw:
    def __init__(self, rng):
        self.rng = rng
        self.layered = rng.choice([5, 20, 50])
        self.positioned = rng.choice([0, 10, 40])

    def hit(self, hundredths):
        return self.rng.random() * 100 < hundredths

    def add(self, node, is_root):
        style = node.setdefault('style', {})
        if not is_root and self.hit(self.positioned) and 'position' not in style:
            style['position'] = self.rng.choice(['relative', 'relative', 'relative', 'absolute', 'fixed'])
            if self.hit(60):
                style[self.rng.choice(['top', 'left'])] = self.rng.choice(['-20px', '-10px', '-5px', '0', '5px', '10px'])
        if self.hit(self.layered):
            style['z-index'] = self.rng.choice(LEVELS)

    def place(self, start, length):
        """A place in px at or near an edge of what has this start and length in units, or anywhere in it."""
        end = start + length
        place = self.rng.choice([start, end, self.rng.randint(min(start, end), max(start, end))])
        return max(0, min(MOST, place // UNITS_PER_PX + self.rng.choice([-1, 0, 0, 0, 1])))

    def point(self, run):
        """A point in px."""
        found = [piece.rect for own in pieces_of_nodes(run).values() for piece in own]
        if not found or self.hit(5):
            return self.rng.randint(0, 150), self.rng.randint(0, 150)
        across = self.rng.choice(found)
        down = across if self.hit(80) else self.rng.choice(found)
        return self.place(across.left, across.width), self.place(down.top, down.height)


def hit_document(seed, number):
    """The run document of a seed and a number, and a point in px."""
    rng = random.Random('hits %d/%d' % (seed, number))
    run = rng.choice(KINDS)(seed, number)
    draw = HitDraw(rng)
    for place, node in enumerate(run['nodes']):
        if node['kind'] != 'text':
            draw.add(node, place == 0)
    return run, draw.point(run)
