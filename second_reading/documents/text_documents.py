"""Random run documents with texts, inline boxes, blocks in these, and floats in lines and beside them.

They are small, and most values are from short lists that are near the widths of a few characters, so that what just
fits and what just doesn't are common.
"""
import random
from collections import namedtuple

from documents.scenes import SCENES
from reading.styles import SIDES

# How often something is drawn, in hundredths: children of a kind, and declarations.
Profile = namedtuple('Profile', 'inline float block clear overflow edge vertical_edge spacing indent align white_space'
                                ' line_height font_size margin odd_text face')
PROFILES = {
    'alignment':    Profile(15, 10, 10, 3,  4,  8,  4,  8,  45, 75, 15, 10, 8,  8,  10, 10),
    'blocks':       Profile(30, 8,  30, 10, 6,  15, 12, 5,  15, 15, 15, 10, 8,  30, 10, 6),
    'edges':        Profile(45, 8,  4,  3,  3,  55, 20, 5,  8,  20, 12, 12, 10, 8,  8,  6),
    'floats':       Profile(12, 40, 10, 25, 8,  10, 5,  4,  10, 15, 10, 8,  6,  15, 6,  5),
    'heights':      Profile(35, 8,  8,  4,  4,  15, 20, 3,  5,  8,  8,  50, 40, 8,  5,  45),
    'mixed':        Profile(25, 18, 15, 12, 8,  25, 12, 15, 15, 20, 25, 18, 15, 20, 25, 15),
    'plain':        Profile(18, 25, 10, 10, 4,  5,  2,  2,  4,  8,  5,  4,  3,  8,  3,  3),
    'spacing':      Profile(25, 12, 5,  5,  4,  15, 5,  60, 12, 15, 20, 8,  10, 5,  30, 15),
    'white space':  Profile(30, 10, 5,  4,  4,  12, 5,  6,  8,  12, 60, 6,  6,  5,  55, 8),
}
PROFILE_NAMES = sorted(PROFILES) + ['floats', 'plain', 'white space']

VIEWPORTS = [(100, 80), (100, 80), (100, 80), (200, 100), (61, 37), (40, 20), (800, 600), (120, 1)]
COUNTS = [2, 3, 4, 5, 6, 7, 8, 9, 10, 12, 14, 16, 20]
GREATEST_DEPTH = 8
# How often a scene stands in the place of a child, in hundredths.
SCENE = 5

WORDS = ['a', 'bb', 'ccc', 'dddd', 'eeeee', 'aaaa', 'bbbb', 'ffffffff', 'gggggggggggg']
BLANKS = [' ', ' ', ' ', ' ', ' ', '  ', '\n', '\n ', ' \n', '\t']
ODD_BLANKS = ['   ', '\t', '\t\t', ' \t ', '\n', '\n\n', ' \n \n ', '\r\n', '\r', ' \r ', '\r\n\r\n', '\t\n', '\n\t',
              '\x0c', '\u200b', '\u200b\u200b', ' \u200b', '\u200b ', '\u00a0', ' \u00a0 ', '\u2003', '\u3000', '',
              ' \u0301']
BLANKS_BESIDE_BLOCKS = [' ', '\n', '\n', ' \n ', '\t', '\r', ' \r ', '\r\n', '']
ODD_WORDS = ['e\u0301', 'e\u0301\u0302x', '\u0301', '\U0001f468\u200d\U0001f469\u200d\U0001f467',
             '\U0001f1e9\U0001f1ea', '\U0001f44d\U0001f3fd', '\ufeff', '\u00ad', '\u200d', '\u1100\u1161\u11a8',
             '\uac00\u11a8', '\u0e01\u0e33', '\x01', 'w' * 40, '-', 'a-b', '\u4e2d\u6587', '\u200c', '\u0915\u0903',
             '\u2028', '\x85', 'i\u200bj']

LENGTHS = [0, 1, 2, 4, 8, 8, 10, 16, 20, 24]
CONTAINER_WIDTHS = ['16px', '24px', '32px', '40px', '48px', '60px', '64px', '80px', '99px', '120px', '0', '50%', '100%']
FLOAT_WIDTHS = ['8px', '16px', '20px', '24px', '30px', '40px', '60px', '90px', '120px', '0', '50%', '100%', '33.33%']
FLOAT_HEIGHTS = ['0', '1px', '5px', '10px', '16px', '20px', '20px', '25px', '30px', '40px', '60px', '50%']
FONT_SIZES = ['10px', '20px', '8px', '16px', '2em', '0.5em', '0', '150%', 'larger', 'smaller', 'x-large', '7.3px']
LINE_HEIGHTS = ['normal', '0', '1', '1.5', '0.5', '2', '10px', '20px', '31px', '150%', '50%', '0.333', '3.03px',
                'inherit']
SPACINGS = ['1px', '2px', '8px', '-1px', '-2px', '-8px', '-10px', '0.5px', '0.1em', 'normal', '-0.01px', '24px']
INDENTS = ['8px', '16px', '20px', '40px', '-8px', '-20px', '50%', '-10%', '10%', '2em', '120px', '0.5px', '33.33%']
ALIGNS = ['center', 'center', 'right', 'left', 'justify', 'inherit']
MODES = ['pre', 'nowrap', 'pre-wrap', 'pre-line', 'pre', 'nowrap', 'pre-wrap', 'pre-line', 'normal', 'inherit']
CLEARS = ['left', 'right', 'both', 'both', 'none']


class TextDocument:
    """Draws the nodes of one document."""

    def __init__(self, rng):
        self.rng, self.choice = rng, rng.choice
        self.profile = PROFILES[rng.choice(PROFILE_NAMES)]
        self.left = rng.choice(COUNTS)
        self.nodes = []

    def hit(self, hundredths):
        """True in so many of a hundred draws."""
        return self.rng.random() * 100 < hundredths

    def pixels(self):
        return '%dpx' % self.choice(LENGTHS)

    # -- the tree

    def draw(self):
        """A run document."""
        style = {'display': 'block'}
        if self.hit(30):
            self.add_text_style(style)
        if self.hit(10):
            self.add_block_style(style)
        self.add_element(0, style)
        self.add_children(1, 'block', 1)
        run = {'viewport': list(self.choice(VIEWPORTS))}
        if self.hit(self.profile.face):
            run['face'] = self.face()
        run['nodes'] = self.nodes
        return run

    def add_element(self, parent, style):
        """A node with a style; gives its id."""
        self.left -= 1
        self.nodes.append({'id': len(self.nodes) + 1, 'parent': parent, 'kind': 'element', 'style': style})
        return len(self.nodes)

    def add_children(self, parent, kind, depth):
        """The children of a block, a float or an inline box."""
        count = self.choice([1, 2, 2, 3, 3, 4, 5, 6]) if kind != 'float' or self.hit(60) else 0
        for _ in range(count):
            place = len(self.nodes)
            if self.left > 0:
                self.add_child(parent, kind, depth)
            is_block = self.nodes[place:] and self.nodes[place].get('style', {}).get('display') == 'block'
            if self.left > 0 and is_block and self.hit(20):
                self.add_text(parent, self.choice(BLANKS_BESIDE_BLOCKS))

    def add_child(self, parent, kind, depth):
        """One child: a text, an inline box, a float, a block, or what isn't shown; or nodes of a scene."""
        if self.hit(SCENE):
            return self.choice(SCENES)(self, parent)
        profile = self.profile
        number = self.rng.random() * 100 - profile.inline
        if number < 0:
            return self.add_box(parent, 'inline', depth)
        number -= profile.float if kind != 'float' else profile.float / 4
        if number < 0:
            return self.add_box(parent, 'float', depth)
        number -= profile.block if kind != 'inline' else profile.block / 2
        if number < 0:
            return self.add_box(parent, 'block', depth)
        if number < 1.5:
            return self.add_element(parent, {'display': 'none'})
        self.add_text(parent, self.text())

    def add_text(self, parent, text):
        self.left -= 1
        self.nodes.append({'id': len(self.nodes) + 1, 'parent': parent, 'kind': 'text', 'text': text})

    def style_of(self, kind):
        """The declarations of a box, without those of its texts."""
        style = {'display': 'block'}
        if kind == 'inline':
            style = {}
            self.add_inline_style(style)
        elif kind == 'float':
            self.add_float_style(style)
        else:
            self.add_block_style(style)
        return style

    def add_box(self, parent, kind, depth):
        """An element that makes an inline box, a float or a block, with what is in it."""
        style = self.style_of(kind)
        if self.hit(100 if kind == 'block' else 60):
            self.add_text_style(style)
        ident = self.add_element(parent, style)
        if depth < GREATEST_DEPTH and self.is_filled(kind):
            self.add_children(ident, kind, depth + 1)

    def is_filled(self, kind):
        """A box of this kind has children."""
        return kind != 'float' or self.hit(35)

    # -- texts

    def text(self):
        """Words and blanks; some texts are blank."""
        if self.hit(18):
            return self.choice(BLANKS + ODD_BLANKS if self.hit(self.profile.odd_text) else BLANKS)
        parts = [self.blank()] if self.hit(35) else []
        for _ in range(self.choice([1, 1, 2, 3, 4, 6, 8])):
            words = ODD_WORDS if self.hit(self.profile.odd_text / 3) else WORDS
            parts += [self.choice(words), self.blank()]
        return ''.join(parts if self.hit(40) else parts[:-1])

    def blank(self):
        return self.choice(ODD_BLANKS if self.hit(self.profile.odd_text) else BLANKS)

    # -- styles

    def add_text_style(self, style):
        """Properties of text and lines, which are inherited."""
        profile = self.profile
        for name, chance, texts in (('text-align', profile.align, ALIGNS), ('text-indent', profile.indent, INDENTS),
                                    ('white-space', profile.white_space, MODES),
                                    ('line-height', profile.line_height, LINE_HEIGHTS),
                                    ('font-size', profile.font_size, FONT_SIZES),
                                    ('letter-spacing', profile.spacing, SPACINGS),
                                    ('word-spacing', profile.spacing, SPACINGS)):
            if self.hit(chance):
                style[name] = self.choice(texts)

    def add_edges(self, style, chance, vertical_chance):
        """Margins, borders and paddings."""
        for side in SIDES:
            hundredths = chance if side in ('left', 'right') else vertical_chance
            if self.hit(hundredths):
                style['padding-' + side] = self.choice([self.pixels(), self.pixels(), '10%', '0'])
            if self.hit(hundredths / 2):
                style['border-%s-style' % side] = self.choice(['solid', 'solid', 'none'])
                style['border-%s-width' % side] = self.choice(['1px', '5px', 'thin', '0', '3.3px'])
            if self.hit(hundredths):
                style['margin-' + side] = self.choice([self.pixels(), self.pixels(), '-' + self.pixels(), '-8px',
                                                       'auto', '10%', '-30px'])

    def add_inline_style(self, style):
        """An inline box."""
        self.add_edges(style, self.profile.edge, self.profile.vertical_edge)
        if self.hit(10):
            style['display'] = 'inline'
        if self.hit(3):
            style[self.choice(['width', 'height', 'min-height'])] = '50px'
        if self.hit(3):
            style['overflow'] = 'hidden'
        if self.hit(3):
            style['clear'] = 'both'
        if self.hit(3):
            style['vertical-align'] = 'baseline'

    def add_block_style(self, style):
        """A block in the flow."""
        hit, profile = self.hit, self.profile
        if hit(35):
            style['width'] = self.choice(CONTAINER_WIDTHS)
        if hit(8):
            style['height'] = self.choice(['0', '10px', '30px', '50%'])
        if hit(3):
            style[self.choice(['min-height', 'max-height'])] = self.choice(['10px', '30px', '50%'])
        if hit(profile.clear):
            style['clear'] = self.choice(CLEARS)
        if hit(profile.overflow):
            style['overflow'] = 'hidden'
        if hit(3):
            style['display'] = 'list-item'
        for side in ('top', 'bottom'):
            if hit(profile.margin):
                style['margin-' + side] = self.choice(['5px', '10px', '20px', '-5px', '-10px', '-30px'])
        self.add_edges(style, profile.edge / 4, profile.vertical_edge / 4)

    def add_float_style(self, style):
        """A float of a width of its own."""
        hit = self.hit
        style['float'] = self.choice(['left', 'left', 'right'])
        style['width'] = self.choice(FLOAT_WIDTHS)
        if hit(20):
            del style['display']
        if hit(90):
            style['height'] = self.choice(FLOAT_HEIGHTS)
        if hit(self.profile.clear):
            style['clear'] = self.choice(CLEARS)
        for side in SIDES:
            if hit(10):
                style['margin-' + side] = self.choice(['5px', '8px', '20px', '-5px', '-10px', '-40px', '-100%'])
        if hit(8):
            self.add_edges(style, 25, 25)

    def face(self):
        """A face with advances and heights of its own."""
        characters = 'abcdefg \t\u00a0\u200b\u0301\raa b'
        face = {'advance': [[ord(character), self.choice([0, 1, 250, 333, 500, 777, 1000, 2000])]
                            for character in characters if self.hit(40)]}
        for name, numbers in (('default', [0, 250, 500, 600, 1000]), ('ascent', [0, 750, 800, 333, 2000]),
                              ('descent', [0, 250, 200, 777, 1500]), ('normal', [0, 1000, 1200, 1250, 3000, 10000])):
            if self.hit(50):
                face[name] = self.choice(numbers)
        return face


def text_document(seed, number):
    """The run document of a seed and a number."""
    return TextDocument(random.Random('texts %d/%d' % (seed, number))).draw()
