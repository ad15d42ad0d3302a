"""Random run documents with relative, absolute and fixed boxes.

They are those of the other kinds, in which some elements are positioned, and small absolute boxes stand among them.
"""
import random
from collections import namedtuple

from documents.atomic_documents import AtomicDocument
from documents.block_documents import document
from documents.table_documents import TableDocument
from documents.text_documents import TextDocument
from reading.styles import SIDES

# How often something is drawn, in hundredths: that an element is positioned, and how; offsets, sizes and margins of an
# absolute box; and a small absolute box behind a node.
Positions = namedtuple('Positions', 'positioned relative fixed offset size margin edge bound small')
PROFILES = {
    'static':   Positions(15, 15, 15, 15, 25, 15, 10, 5,  20),
    'solved':   Positions(35, 25, 5,  75, 50, 45, 20, 20, 3),
    'moved':    Positions(50, 75, 5,  55, 20, 10, 5,  3,  8),
    'mixed':    Positions(40, 45, 12, 50, 35, 20, 15, 10, 5),
}
PROFILE_NAMES = sorted(PROFILES)

OFFSETS = ['0', '5px', '10px', '20px', '-5px', '-20px', '50%', '100%', '-10%', '33.33%', '1em', '0.015625px', 'auto',
           'inherit', '50%', '10px']
SIZES = ['0', '8px', '10px', '20px', '30px', '60px', '99px', '150px', '50%', '100%', '33.33%', 'auto', 'inherit']
MARGINS = ['auto', 'auto', 'auto', '5px', '-5px', '20px', '-30px', '10%']
EDGES = ['1px', '5px', '10px', '10%']
BOUNDS = ['0', '10px', '25px', '40px', '50%', '100%']


def place_document(rng):
    """A document of blocks and floats."""
    return document(rng.randrange(10 ** 6), rng.randrange(10 ** 6))


DRAWS = [place_document, lambda rng: TextDocument(rng).draw(), lambda rng: AtomicDocument(rng).draw(),
         lambda rng: TableDocument(rng).draw()]


class PositionStyles:
    """Makes elements of a document positioned."""

    def __init__(self, rng):
        self.rng, self.choice = rng, rng.choice
        self.profile = PROFILES[rng.choice(PROFILE_NAMES)]

    def hit(self, hundredths):
        return self.rng.random() * 100 < hundredths

    def add(self, node, is_root):
        """Declarations of a node that is an element."""
        if not self.hit(8 if is_root else self.profile.positioned):
            return
        style = node['style']
        if self.hit(self.profile.relative):
            style['position'] = 'relative'
            self.add_offsets(style)
        else:
            style['position'] = 'fixed' if self.hit(self.profile.fixed) else 'absolute'
            self.add_offsets(style)
            self.add_sizes(style)
        if self.hit(3):
            style['position'] = self.choice(['static', 'inherit'])

    def small_box(self, ident, parent):
        """A node that shows where it stands and changes little else."""
        style = {'position': self.choice(['absolute', 'absolute', 'absolute', 'fixed'])}
        if self.hit(self.profile.offset / 2):
            self.add_offsets(style)
        if self.hit(20):
            style['display'] = self.choice(['block', 'inline-block', 'table', 'table-cell'])
        return {'id': ident, 'parent': parent, 'kind': 'element', 'style': style}

    def floats_in_a_float(self, ident, parent):
        """Nodes of a float that shrinks to fit floats and a block in it, among which absolute boxes may come to stand."""
        floats = [{'display': 'block', 'float': side, 'width': self.choice(['10px', '20px', '30px']), 'height': '5px'}
                  for side in (self.choice(['left', 'right']) for _ in range(self.choice([2, 2, 3])))]
        styles = [{'display': 'block', 'float': 'left'}, {'display': 'block', 'height': '3px'}, *floats]
        return [{'id': ident + place, 'parent': ident if place else parent, 'kind': 'element', 'style': style}
                for place, style in enumerate(styles)]

    def add_offsets(self, style):
        for side in SIDES:
            if self.hit(self.profile.offset):
                style[side] = self.choice(OFFSETS)

    def add_sizes(self, style):
        """Sizes, bounds, margins and edges of an absolute box; what was drawn before stays in part."""
        profile = self.profile
        for name in ('width', 'height'):
            if self.hit(profile.size):
                style[name] = self.choice(SIZES)
            elif self.hit(30):
                style.pop(name, None)
            if self.hit(profile.bound):
                style[self.choice(['min-', 'max-']) + name] = self.choice(BOUNDS)
        for side in SIDES:
            if self.hit(profile.margin):
                style['margin-' + side] = self.choice(MARGINS)
            if self.hit(profile.edge):
                style['padding-' + side] = self.choice(EDGES)
            if self.hit(profile.edge / 2):
                style['border-%s-style' % side], style['border-%s-width' % side] = 'solid', self.choice(EDGES[:-1])


def positioned_document(seed, number):
    """The run document of a seed and a number."""
    rng = random.Random('positions %d/%d' % (seed, number))
    run = rng.choice(DRAWS)(rng)
    styles = PositionStyles(rng)
    nodes = list(run['nodes'])
    if styles.hit(10):
        nodes += styles.floats_in_a_float(max(node['id'] for node in nodes) + 1, nodes[0]['id'])
    for place, node in enumerate(nodes):
        if node['kind'] != 'text':
            styles.add(node, place == 0)
    return dict(run, nodes=with_small_boxes(styles, nodes))


def with_small_boxes(styles, nodes):
    """The nodes, some of them with a small absolute box as their next sibling."""
    found, next_id = [], max(node['id'] for node in nodes) + 1
    for node in nodes:
        found.append(node)
        if node['parent'] and styles.hit(styles.profile.small):
            found.append(styles.small_box(next_id, node['parent']))
            next_id += 1
    return found
