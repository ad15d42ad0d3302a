"""Random run documents with inline-blocks, replaced elements, vertical alignment and boxes that shrink to fit.

They are those of `text_documents` with such boxes among them and in each other.
"""
import random
from collections import namedtuple

from documents.text_documents import PROFILES, Profile, TextDocument
from reading.styles import SIDES

# How often something is drawn, in hundredths: children of a kind, and declarations.
AtomicProfile = namedtuple('AtomicProfile', 'inline_block replaced align shrinking overflow bound size edge indent row')
ATOMIC_PROFILES = {
    'alignment':   AtomicProfile(20, 15, 85, 30, 10, 5,  45, 8,  3, 2),
    'baselines':   AtomicProfile(40, 8,  15, 30, 30, 5,  40, 25, 3, 2),
    'breaks':      AtomicProfile(30, 25, 5,  20, 5,  3,  70, 5,  10, 2),
    'mixed':       AtomicProfile(25, 15, 35, 50, 15, 20, 40, 25, 10, 5),
    'replaced':    AtomicProfile(5,  60, 25, 25, 10, 65, 35, 15, 5, 2),
    'shrinking':   AtomicProfile(35, 8,  5,  90, 8,  25, 15, 25, 25, 20),
}
# Often these have the texts of a profile that shows them best.
PROFILES_OF_TEXTS = {
    'alignment': PROFILES['heights'],
    'breaks':    PROFILES['white space'],
    'shrinking': Profile(22, 25, 35, 5, 5, 40, 5, 3, 20, 5, 10, 5, 5, 15, 5, 5),
}
ATOMIC_PROFILE_NAMES = sorted(ATOMIC_PROFILES) + ['alignment', 'shrinking']

ALIGNMENTS = ['baseline', 'sub', 'super', 'middle', 'text-top', 'text-bottom', 'top', 'bottom', 'top', 'bottom', '4px',
              '-4px', '20px', '-20px', '50%', '-25%', '33.33%', '0.3em', '0', 'inherit', '-0.01px']
WIDTHS = ['8px', '16px', '20px', '24px', '30px', '40px', '48px', '60px', '100px', '0', '50%', '100%', '33.33%', 'auto',
          'inherit']
HEIGHTS = ['0', '1px', '5.015625px', '10px', '16px', '20px', '25px', '30px', '40px', '60px', '50%', '100%', 'auto']
LEAST = ['0', '5px', '10px', '20px', '30px', '40px', '60px', '50%', '100%', '10%']
MOST = ['none', '0', '5px', '10px', '20px', '30px', '40px', '60px', '50%', '100%', '10%']
BOUNDS = ('min-width', 'max-width', 'min-height', 'max-height')
NATURAL_SIDES = [1, 3, 5, 8, 10, 16, 20, 20, 30, 40, 50, 90]
GREAT_NATURAL_SIDES = [1, 20, 999999, 1000000]
NEAR_THE_LIMIT = ['999999999px', '33554432px', '33554431.5px']
# How often a document has fonts near the limit, in hundredths.
GREAT_FONTS = 2
GREAT_FACE_NUMBERS = [0, 250, 1000, 5000, 10000]
ALIGNMENTS_BY_FONTS = ['middle', 'middle', 'text-top', 'text-top', 'text-bottom', 'text-bottom', 'super', '33554431px']
REPLACED_DISPLAYS = ['inline', 'inline', 'inline-block', 'inline-table', 'table-cell', 'block', 'block', 'table',
                     'list-item', 'inherit']
FACE_NUMBERS = (('xheight', [0, 250, 400, 500, 501, 1000, 3000]),)


class AtomicDocument(TextDocument):
    """Draws the nodes of one document."""

    def __init__(self, rng):
        super().__init__(rng)
        name = rng.choice(ATOMIC_PROFILE_NAMES)
        self.atomic = ATOMIC_PROFILES[name]
        if self.hit(60):
            self.profile = PROFILES_OF_TEXTS.get(name, self.profile)
        self.left += 3

    def draw(self):
        run = super().draw()
        root = run['nodes'][0]['style']
        if self.hit(2):
            root['float'] = self.choice(['left', 'right'])
        if self.hit(GREAT_FONTS):
            self.add_great_font()
            run['face'] = {name: self.choice(GREAT_FACE_NUMBERS) for name in ('ascent', 'descent', 'xheight', 'normal')}
        return run

    def add_great_font(self):
        """A block at the end of the root whose boxes are moved past the limit of lengths by their fonts."""
        block = self.add_element(1, {'display': 'block', **self.great_font()})
        self.add_text(block, 'a')
        for _ in range(self.choice([1, 1, 2])):
            style = {'vertical-align': self.choice(ALIGNMENTS_BY_FONTS), **self.great_font()}
            if self.hit(25):
                style['display'] = 'inline-block'
            block = self.add_element(block, style)
            self.add_text(block, 'b')

    def great_font(self):
        return {'font-size': self.choice(NEAR_THE_LIMIT + ['10px', '10000000px', '3355443.2px']),
                'line-height': self.choice(['0', '0', '1', '10px', 'normal'])}

    # -- the tree

    def add_child(self, parent, kind, depth):
        """One child: an inline-block, a replaced element, or what has a text."""
        number = self.rng.random() * 100 - self.atomic.inline_block
        if number < self.atomic.replaced and self.hit(8):
            self.add_element(parent, {})
        if number < 0:
            self.add_box(parent, 'inline-block', depth)
        elif number < self.atomic.replaced:
            self.add_replaced(parent)
            if self.hit(8):
                self.add_text(self.add_element(parent, {'white-space': 'nowrap'}), ' bb' + self.blank() + 'aaa')
        elif self.hit(self.atomic.row):
            self.add_row(parent, depth)
        else:
            super().add_child(parent, kind, depth)

    def add_row(self, parent, depth):
        """Floats beside each other, with a block before or behind them, or between."""
        for kind in self.choice(('float float block', 'block float float', 'float block float', 'float float')).split():
            if self.left > 0:
                self.add_box(parent, kind, depth)

    def add_replaced(self, parent):
        """A replaced element of any kind."""
        style = {}
        if self.hit(40):
            style['display'] = self.choice(REPLACED_DISPLAYS)
        if self.hit(15):
            style['float'] = self.choice(['left', 'left', 'right'])
        if self.hit(self.atomic.bound / 3):
            style.update({name: self.choice(LEAST if name.startswith('min') else MOST) for name in BOUNDS})
        else:
            self.add_sizes(style, self.atomic.size, self.atomic.size)
        self.add_edges(style, self.atomic.edge, self.atomic.edge / 2)
        self.add_rare(style)
        self.left -= 1
        sides = GREAT_NATURAL_SIDES if self.hit(1) else NATURAL_SIDES
        self.nodes.append({'id': len(self.nodes) + 1, 'parent': parent, 'kind': 'replaced', 'style': style,
                           'natural': [self.choice(sides), self.choice(sides)]})

    def is_filled(self, kind):
        if kind == 'inline-block':
            return self.hit(75)
        return self.hit(70) if kind == 'float' else super().is_filled(kind)

    def style_of(self, kind):
        """The declarations of a box, without those of its texts."""
        if kind == 'inline-block':
            style = {'display': 'inline-block'}
            self.add_sizes(style, 100 - self.atomic.shrinking, self.atomic.size)
            self.add_edges(style, self.atomic.edge / 2, self.atomic.edge / 2)
            self.add_rare(style)
            return style
        style = super().style_of(kind)
        if kind == 'float' and self.hit(self.atomic.shrinking):
            style['width'] = self.choice(['auto', 'auto', 'inherit'])
            self.add_bounds(style)
        elif kind == 'block':
            self.add_bounds(style)
        if self.hit(self.atomic.align if kind == 'inline' else 5):
            style['vertical-align'] = self.choice(ALIGNMENTS)
        return style

    # -- styles

    def add_sizes(self, style, width_chance, height_chance):
        """Sizes with their bounds."""
        if self.hit(width_chance):
            style['width'] = self.choice(WIDTHS)
        if self.hit(height_chance):
            style['height'] = self.choice(HEIGHTS)
        self.add_bounds(style)

    def add_bounds(self, style):
        for side in ('width', 'height'):
            if self.hit(self.atomic.bound):
                style['min-' + side] = self.choice(LEAST)
            if self.hit(self.atomic.bound):
                style['max-' + side] = self.choice(MOST)

    def add_rare(self, style):
        """What moves a box in its line, and what has an effect in some places alone."""
        if self.hit(self.atomic.align):
            style['vertical-align'] = self.choice(ALIGNMENTS)
        if self.hit(self.atomic.overflow):
            style['overflow'] = self.choice(['hidden', 'hidden', 'scroll', 'auto', 'visible'])
        if self.hit(self.profile.clear / 2):
            style['clear'] = self.choice(['left', 'right', 'both'])
        if self.hit(self.atomic.indent):
            style['text-indent'] = self.choice(['8px', '20px', '-8px', '50%', '2em'])
        for side in SIDES:
            if self.hit(4):
                style['margin-' + side] = self.choice(['auto', '-8px', '-20px', '50%', '12px'])
        if self.hit(5):
            style['line-height'] = self.choice(['0', '10px', '40px', '2', '150%'])
        if self.hit(5):
            style['font-size'] = self.choice(['8px', '20px', '2em', '0'])
        if self.hit(0.5):
            name = self.choice(['width', 'min-width', 'margin-left', 'margin-right', 'padding-left', 'max-width'])
            style[name] = self.choice(NEAR_THE_LIMIT)

    def face(self):
        """A face with an x-height of its own, too."""
        face = super().face()
        for name, numbers in FACE_NUMBERS:
            if self.hit(50):
                face[name] = self.choice(numbers)
        return face


def atomic_document(seed, number):
    """The run document of a seed and a number."""
    return AtomicDocument(random.Random('atomic boxes %d/%d' % (seed, number))).draw()
