"""Random run documents of blocks and floats, each settled by a seed and a number.

They are small trees, of 1 to 14 nodes and a depth of at most 6, in which the hard cases are common: most values are
from short lists, so that edges often meet.
"""
import random
from collections import namedtuple

from reading.styles import SIDES

# How often a property is declared, in hundredths.
Profile = namedtuple('Profile', 'float clear overflow none vertical_margin horizontal_margin padding border'
                                ' width height width_bound height_bound')
PROFILES = {
    'clears':  Profile(28, 45, 5,  2, 50, 5,  6,  5,  8,  35, 2,  8),
    'floats':  Profile(50, 15, 10, 2, 30, 25, 8,  5,  15, 55, 4,  5),
    'heights': Profile(12, 8,  15, 2, 45, 5,  20, 10, 10, 60, 3,  50),
    'margins': Profile(6,  6,  6,  4, 75, 8,  10, 8,  10, 25, 3,  20),
    'mixed':   Profile(25, 25, 15, 4, 45, 25, 15, 12, 25, 40, 12, 15),
    'nested':  Profile(40, 30, 25, 3, 40, 15, 8,  8,  20, 40, 5,  10),
    'solids':  Profile(30, 15, 35, 2, 35, 25, 8,  8,  35, 50, 10, 8),
    'widths':  Profile(15, 5,  10, 2, 10, 70, 30, 25, 60, 40, 40, 5),
}
PROFILE_NAMES = sorted(PROFILES) + ['clears', 'solids', 'nested']       # the last three twice as often

# The parts that the nodes of a document are drawn from.
PART_LISTS = [
    ['left', 'right', 'left', 'filled', 'plain', 'plain'],
    ['left', 'left', 'plain', 'plain', 'plain'],
    ['left', 'right', 'solid', 'solid', 'filled', 'plain'],
    ['left', 'right', 'solid', 'plain', 'fixed', 'bounded', 'padded', 'filled'],
    ['left', 'right'],
    ['left', 'right', 'plain', 'filled'],
    ['left', 'right', 'filled', 'plain', 'plain', 'plain'],
    ['left', 'right', 'left', 'right', 'plain', 'solid', 'solid'],
    ['plain', 'filled', 'bounded', 'left'],
    ['plain', 'filled', 'padded', 'fixed', 'left', 'right'],
]

PIXELS = [0, 0, 1, 2, 5, 5, 10, 10, 10, 15, 20, 20, 20, 30, 30, 40, 50, 60, 100]
PERCENTAGES = ['0%', '10%', '25%', '33.33%', '50%', '50%', '66.666%', '100%', '100%', '150%', '0.01%']
ROUNDED_LENGTHS = ['0.5px', '0.015625px', '0.01px', '3.3px', '7.77px', '1pt', '1.5pt', '0.1in', '2mm', '0.1cm', '1pc',
                   '.3em', '1em', '0.5em', '0.0005em', '0']
ROUNDED_NEGATIVES = ['-10%', '-33.33%', '-50%', '-100%', '-0.01%', '-.5em', '-0.0001em', '-0.01px']
BORDER_WIDTHS = ['thin', 'medium', 'thick', '0', '1px', '5px', '0.01px', '.5em', 'inherit']
FONT_SIZES = ['10px', '2em', '0', '150%', 'larger', 'smaller', 'x-small', 'inherit', '0.3em']
NEAR_THE_LIMIT = ['999999999px', '33554432px', '33554431.5px']
COUNTS = [1, 2, 3, 3, 4, 4, 5, 5, 6, 6, 7, 8, 9, 10, 11, 12, 13, 14]
VIEWPORTS = [(100, 80), (100, 80), (200, 100), (120, 1), (1, 1), (61, 37), (800, 600)]
GREATEST_DEPTH = 6


class Draw:
    """Draws values of properties, with lengths of one scale throughout a document."""

    def __init__(self, rng):
        self.rng, self.choice = rng, rng.choice
        self.scale = rng.choice([1, 1, 1, 2])

    def hit(self, hundredths):
        """True in so many of a hundred draws."""
        return self.rng.random() * 100 < hundredths

    def pixels(self, *numbers):
        """One of these lengths in px, times the scale."""
        return '%dpx' % (self.choice(numbers) * self.scale)

    def size(self):
        """A length or percentage that isn't negative."""
        if self.hit(15):
            return self.choice(PERCENTAGES)
        if self.hit(6):
            return self.choice(ROUNDED_LENGTHS)
        return self.pixels(*PIXELS)

    def margin(self, auto):
        """A margin, which is `auto` in so many of a hundred."""
        if self.hit(auto):
            return 'auto'
        if self.hit(30):
            return self.choice(ROUNDED_NEGATIVES) if self.hit(12) else '-' + self.pixels(*PIXELS)
        return self.size()


class AnyStyles:
    """Draws styles of all properties, as often as a profile says."""

    def __init__(self, draw, profile):
        self.draw, self.profile = draw, profile

    def style(self, depth, is_root):
        """The declarations of a node; the root is in the flow."""
        style = {}
        self.add_kind(style, depth, is_root)
        self.add_margins(style)
        self.add_edges(style, is_root)
        self.add_sizes(style)
        self.add_rare(style, is_root)
        return style

    def add_kind(self, style, depth, is_root):
        """What sort of block the node is."""
        hit, choice, profile = self.draw.hit, self.draw.choice, self.profile
        style['display'] = 'block'
        if hit(5):
            style['display'] = choice(['list-item', 'list-item', 'LIST-item', ' block\n'])
        elif not is_root and hit(profile.none):
            style['display'] = 'none'
        if not is_root and hit(profile.float):
            style['float'] = choice(['left', 'left', 'left', 'right', 'right', 'none', 'inherit'])
        if not is_root and hit(profile.clear):
            inherit = ['inherit'] if depth > 1 else []
            style['clear'] = choice(['left', 'left', 'right', 'both', 'both', 'none'] + inherit)
        if hit(profile.overflow):
            style['overflow'] = choice(['hidden', 'hidden', 'scroll', 'auto', 'visible', 'inherit'])

    def add_margins(self, style):
        """Margins of all signs, and `auto`."""
        for side in ('top', 'bottom'):
            if self.draw.hit(self.profile.vertical_margin):
                style['margin-' + side] = self.draw.margin(auto=3)
        for side in ('left', 'right'):
            if self.draw.hit(self.profile.horizontal_margin):
                style['margin-' + side] = self.draw.margin(auto=30)

    def add_edges(self, style, is_root):
        """Paddings and borders, some of which come to 0."""
        hit, choice, size = self.draw.hit, self.draw.choice, self.draw.size
        for side in SIDES:
            if hit(self.profile.padding):
                style['padding-' + side] = choice(['0', '0px', '0%', '0.01px', '0.01%', size(), size()])
            if hit(self.profile.border):
                style['border-%s-style' % side] = choice(['solid', 'solid', 'double', 'none', 'hidden', 'inherit'])
                if hit(80):
                    style['border-%s-width' % side] = choice(['thin', '0', '5px'] if is_root else BORDER_WIDTHS)

    def add_sizes(self, style):
        """Widths and heights with their bounds; a float has a width."""
        hit, choice, size, profile = self.draw.hit, self.draw.choice, self.draw.size, self.profile
        if hit(profile.width):
            style['width'] = choice([size(), size(), size(), size(), 'auto', 'inherit'])
        if style.get('float', 'none') != 'none' and style.get('width', 'auto') in ('auto', 'inherit'):
            style['width'] = size()
        if hit(profile.height):
            style['height'] = choice([size(), size(), self.draw.pixels(*PIXELS), '0', 'auto', 'inherit', '0%', '100%',
                                      '50%'])
        for name in ('min-width', 'max-width'):
            if hit(profile.width_bound):
                style[name] = choice([size(), size(), size(), 'inherit'])
        for name, word in (('min-height', '10%'), ('max-height', 'none')):
            if hit(profile.height_bound):
                style[name] = choice([size(), size(), size(), '0', '0%', 'inherit', word])

    def add_rare(self, style, is_root):
        """Font sizes, centred blocks that have no whole margins, and sizes near the limit."""
        hit, choice = self.draw.hit, self.draw.choice
        if hit(4):
            style['font-size'] = choice(FONT_SIZES)
        if not is_root and hit(self.profile.horizontal_margin / 10):
            style['margin-left'] = style['margin-right'] = 'auto'
            style['width'] = choice(['0.5px', '3.015625px', '7.77px', '33.33%', '10px', '50%', '200%'])
        if hit(0.5):
            text = choice(NEAR_THE_LIMIT)
            style[choice(['height', 'width', 'margin-top', 'margin-left', 'margin-bottom', 'padding-left'])] = text


class PartStyles:
    """Draws styles of a few parts that margins, floats and clearance are made of, with little beside."""

    def __init__(self, draw):
        self.draw = draw
        self.parts = draw.choice(PART_LISTS)
        self.clear_chance = draw.choice([0, 15, 30, 50, 70])
        self.margin_chance = draw.choice([10, 40, 70])

    def style(self):
        """The declarations of a node."""
        style = {'display': 'block'}
        part = self.draw.choice(self.parts)
        if part in ('left', 'right'):
            self.add_float(style, part)
        else:
            self.add_part(style, part)
            self.add_flow(style)
        if self.draw.hit(1.5):
            style['display'] = 'none'
        if self.draw.hit(1.5):
            style['overflow'] = 'hidden'
        return style

    def add_float(self, style, side):
        """A float of one of a few sizes, so that floats often touch or just fit."""
        hit, choice, pixels = self.draw.hit, self.draw.choice, self.draw.pixels
        style['float'] = side
        style['width'] = choice([pixels(10, 20, 30, 50, 60), pixels(10, 20, 30, 50, 60, 100), pixels(0, 10, 20),
                                 '50%', '100%'])
        if hit(85):
            style['height'] = choice([pixels(0, 5, 10, 20), pixels(10, 20, 30, 40), pixels(10, 30), '50%'])
        if hit(20):
            style['clear'] = choice(['left', 'right', 'both'])
        for edge in SIDES:
            if hit(12):
                style['margin-' + edge] = choice([pixels(5, 10, 20), pixels(-5, -10, -20, -40), pixels(10), '-100%'])

    def add_part(self, style, part):
        """What keeps margins together or apart."""
        choice, pixels = self.draw.choice, self.draw.pixels
        if part == 'solid':
            self.add_solid(style)
        elif part == 'filled':
            style['height'] = pixels(1, 5, 10, 10, 20, 30)
        elif part == 'fixed':
            style['height'] = choice([pixels(0), pixels(0, 10, 50), '50%', '100%'])
        elif part == 'bounded':
            text = choice([pixels(0, 5, 10, 20), pixels(10), '50%'])
            style[choice(['max-height', 'min-height'])] = text
        elif part == 'padded':
            text = pixels(1, 5, 10)
            style['padding-' + choice(['top', 'bottom'])] = text

    def add_solid(self, style):
        """A block that establishes a context, to stand beside floats."""
        hit, choice, pixels = self.draw.hit, self.draw.choice, self.draw.pixels
        style['overflow'] = choice(['hidden', 'auto', 'scroll'])
        if hit(75):
            style['width'] = choice([pixels(10, 20, 30, 40, 50), pixels(40, 50, 60, 80, 100), pixels(0, 120), '50%',
                                     '100%'])
        if hit(80):
            style['height'] = pixels(0, 1, 5, 10, 20, 40, 60)
        if hit(40):
            style['margin-left'] = choice([pixels(10, 20, 30), pixels(10, 50), pixels(-10, -20), 'auto'])
        if hit(15):
            style['margin-right'] = choice([pixels(10, 20, 50), pixels(-10, -50), 'auto'])

    def add_flow(self, style):
        """`clear` and margins of a box in the flow."""
        hit, choice, pixels = self.draw.hit, self.draw.choice, self.draw.pixels
        if hit(self.clear_chance):
            style['clear'] = choice(['left', 'right', 'both', 'both'])
        for side in ('top', 'bottom'):
            if hit(self.margin_chance):
                style['margin-' + side] = choice([pixels(5, 10, 20), pixels(10, 20, 30, 50), pixels(-5, -10, -20),
                                                  pixels(-10, -30, -60)])
        if hit(8):
            style['width'] = pixels(10, 30, 50, 150)
        for side in ('left', 'right'):
            if hit(4):
                style['margin-' + side] = pixels(10, 30, -10, -30)


def draw_parents(rng, count):
    """The places of the parents of the nodes and the nodes' depths: a bush, chains, a comb or a hanging garland."""
    kind = rng.randrange(4)
    parents, depths = [None], [1]
    for place in range(1, count):
        parent = draw_parent(rng, kind, place)
        while depths[parent] == GREATEST_DEPTH:
            parent = 0 if rng.random() < 0.1 else draw_parent(rng, kind, place)
        parents.append(parent)
        depths.append(depths[parent] + 1)
    return parents, depths


def draw_parent(rng, kind, place):
    """The place of one parent, before its child's."""
    if kind == 0:
        return rng.randrange(place)
    if kind == 1:
        return place - 1 if rng.random() < 0.5 else rng.randrange(place)
    if kind == 2:
        return 0 if rng.random() < 0.5 else rng.randrange(place)
    return max(0, place - 1 - rng.randrange(6))


def root_style(rng, style):
    """Most roots are plain, so that the rest shows; some keep what was drawn; a few float."""
    if rng.random() < 0.7:
        style = {'display': 'block'}
    if rng.random() < 0.02:
        style['display'] = 'none'
    elif rng.random() < 0.03:
        style['float'] = rng.choice(['left', 'right'])
        style.setdefault('width', '50px')
        if rng.random() < 0.3:
            style['clear'] = 'both'
    return style


def draw_styles(rng, draw, profile):
    """A function that draws the style of a node from its depth and whether it is the root."""
    any_styles = AnyStyles(draw, profile)
    if rng.random() >= 0.6:
        return any_styles.style
    part_styles = PartStyles(draw)
    return lambda depth, is_root: any_styles.style(depth, is_root) if draw.hit(8) else part_styles.style()


def document(seed, number):
    """The run document of a seed and a number."""
    rng = random.Random('%d/%d' % (seed, number))
    profile = PROFILES[rng.choice(PROFILE_NAMES)]
    draw = Draw(rng)
    draw_style = draw_styles(rng, draw, profile)
    count = rng.choice(COUNTS)
    parents, depths = draw_parents(rng, count)
    ids = rng.sample(range(2, 60), count) if rng.random() < 0.3 else list(range(1, count + 1))
    nodes = []
    for place in range(count):
        is_root = place == 0
        style = draw_style(depths[place], is_root)
        nodes.append({'id': ids[place], 'parent': 0 if is_root else ids[parents[place]], 'kind': 'element',
                      'style': root_style(rng, style) if is_root else style})
    return {'viewport': list(rng.choice(VIEWPORTS)), 'nodes': nodes}
