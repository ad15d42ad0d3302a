"""Values and computed styles of elements and texts (CSS 2.2, 4.3, 6.1, 6.2, 10.8.1, 15.7, 16 and 17.6.1).

A length is a whole number of units of 1/64 px, a percentage one of hundredths of a percent, and a factor of `em` or a
number one of thousandths. Each is rounded down once, when its text is read, and then held within its bounds.
"""
import re
from collections import namedtuple
from fractions import Fraction
from functools import lru_cache

LIMIT = 2 ** 31
PERCENTAGE_LIMIT = 2 ** 30
WHITE_SPACE = ' \t\n\f\r'
SIDES = ('top', 'right', 'bottom', 'left')

UNITS_PER_PX = 64
PX_PER = {'px': Fraction(1), 'in': Fraction(96), 'cm': Fraction(9600, 254), 'mm': Fraction(960, 254),
          'pt': Fraction(96, 72), 'pc': Fraction(96 * 12, 72)}
FONT_SIZES = {'xx-small': 9, 'x-small': 10, 'small': 13, 'medium': 16, 'large': 18, 'x-large': 24, 'xx-large': 32}
BORDER_WIDTHS = {'thin': 1, 'medium': 3, 'thick': 5}

INITIAL_VALUES = {
    'display': 'inline', 'position': 'static', 'float': 'none', 'clear': 'none', 'overflow': 'visible',
    'width': 'auto', 'min-width': '0', 'max-width': 'none', 'height': 'auto', 'min-height': '0', 'max-height': 'none',
    **{'margin-%s' % side: '0' for side in SIDES},
    **{'padding-%s' % side: '0' for side in SIDES},
    **{'border-%s-style' % side: 'none' for side in SIDES},
    **{'border-%s-width' % side: 'medium' for side in SIDES},
    **{side: 'auto' for side in SIDES}, 'z-index': 'auto',
    'vertical-align': 'baseline', 'line-height': 'normal', 'text-indent': '0', 'text-align': 'left',
    'white-space': 'normal', 'letter-spacing': 'normal', 'word-spacing': 'normal',
    'border-collapse': 'separate', 'border-spacing': '0', 'caption-side': 'top', 'table-layout': 'auto',
}
INHERITED = ('line-height', 'text-indent', 'text-align', 'white-space', 'letter-spacing', 'word-spacing',
             'border-collapse', 'border-spacing', 'caption-side')

NUMBER_AND_UNIT = re.compile(r'^([+-]?(?:[0-9]+|[0-9]*\.[0-9]+))([a-z%]*)$')

# The kind is `length` (of units), `percentage` (of hundredths), `number` (of thousandths), `word`, or `lengths` of two.
Value = namedtuple('Value', 'kind amount')
# What a box has on each of its sides.
Edges = namedtuple('Edges', SIDES)


def within_limit(number):
    """A used length or margin: the nearest number within the limit of 0."""
    return max(-LIMIT, min(LIMIT, number))


def size_within_limit(number):
    """A used width, height, border or padding, which is never negative (8.4, 8.5.1, 10.2 and 10.5)."""
    return max(0, min(LIMIT, number))


def resolve(value, base):
    """The units of a length, or of a percentage of a base (4.3.3); None for a word, and where there is no base."""
    if value.kind == 'length':
        return value.amount
    if value.kind == 'percentage' and base is not None:
        return within_limit(value.amount * base // 10000)
    return None


@lru_cache(maxsize=10000)
def read_value(text, font_size):
    """The computed value that a text gives, `em` being of the font size (4.3.2 and 4.3.3)."""
    if not re.match(r'^[+-.0-9]', text):
        return Value('word', text)
    match = NUMBER_AND_UNIT.match(text)
    if not match:
        raise ValueError('not a value: %r' % text)
    number, unit = Fraction(match.group(1)), match.group(2)
    if unit == '%':
        return Value('percentage', max(-PERCENTAGE_LIMIT, min(PERCENTAGE_LIMIT, number * 100 // 1)))
    if unit == 'em':
        return Value('length', within_limit((number * 1000 // 1) * font_size // 1000))
    if unit == '':
        if number != 0:
            raise ValueError('a number without a unit: %r' % text)
        return Value('length', 0)
    return Value('length', within_limit(number * PX_PER[unit] * UNITS_PER_PX // 1))


def read_font_size(text, parents_font_size):
    """The computed font size in units (15.7); None is no declaration."""
    if text is None or text == 'inherit':
        return parents_font_size
    if text in FONT_SIZES:
        return FONT_SIZES[text] * UNITS_PER_PX
    if text == 'larger':
        return size_within_limit(6 * parents_font_size // 5)
    if text == 'smaller':
        return size_within_limit(5 * parents_font_size // 6)
    kind, amount = read_value(text, parents_font_size)
    return size_within_limit(amount if kind == 'length' else amount * parents_font_size // 10000)


def read_line_height(text, font_size):
    """The computed line height (10.8.1): a number stays one, and so does `normal`; a percentage becomes a length."""
    match = NUMBER_AND_UNIT.match(text)
    if match and match.group(2) == '':
        return Value('number', Fraction(match.group(1)) * 1000 // 1)
    value = read_value(text, font_size)
    if value.kind == 'percentage':
        return Value('length', size_within_limit(value.amount * font_size // 10000))
    return value


def read_spacing(text, font_size):
    """The computed letter- or word-spacing (16.4); `normal` is 0."""
    return Value('length', 0) if text == 'normal' else read_value(text, font_size)


def read_border_spacing(text, font_size):
    """The computed distances between cells across and down (17.6.1); one length is both."""
    lengths = [read_value(part, font_size).amount for part in text.split()]
    return Value('lengths', (lengths[0], lengths[-1]))


def read_z_index(text):
    """The computed `z-index` (9.9.1)."""
    return Value('word', text) if text == 'auto' else Value('number', int(text))


def used_line_height(style, face):
    """The line height in units (10.8.1)."""
    kind, amount = style['line-height']
    if kind == 'length':
        return size_within_limit(amount)
    thousandths = amount if kind == 'number' else face.normal
    return size_within_limit(thousandths * style['font-size'] // 1000)


def computed_style(declarations, parents_style):
    """The value of each property (6.1), and `font-size` in units; the root has no parent's style."""
    given = {name: text.strip(WHITE_SPACE).lower() for name, text in declarations.items()}
    parents_font_size = parents_style['font-size'] if parents_style else FONT_SIZES['medium'] * UNITS_PER_PX
    style = {'font-size': read_font_size(given.get('font-size'), parents_font_size)}
    for name, initial in INITIAL_VALUES.items():
        text = given.get(name, 'inherit' if name in INHERITED else initial)
        if text == 'inherit' and parents_style:
            style[name] = parents_style[name]
            continue
        if text == 'inherit':
            text = initial                               # 6.2.1: on the root it is the initial value
        if name.startswith('border') and text in BORDER_WIDTHS:
            style[name] = Value('length', BORDER_WIDTHS[text] * UNITS_PER_PX)
        elif name == 'z-index':
            style[name] = read_z_index(text)
        elif name == 'line-height':
            style[name] = read_line_height(text, style['font-size'])
        elif name == 'border-spacing':
            style[name] = read_border_spacing(text, style['font-size'])
        elif name.endswith('-spacing'):
            style[name] = read_spacing(text, style['font-size'])
        else:
            style[name] = read_value(text, style['font-size'])
    for side in SIDES:
        if style['border-%s-style' % side].amount in ('none', 'hidden'):
            style['border-%s-width' % side] = Value('length', 0)                # 8.5.1
    return style
