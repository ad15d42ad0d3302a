"""Which texts are values of which property (CSS 2.2, 4.1 and the chapters of the properties)."""
import re

SIDES = ('top', 'right', 'bottom', 'left')
WHITE_SPACE = ' \t\n\f\r'

NUMBER = r'[+-]?(?:[0-9]{1,9}|[0-9]{0,9}\.[0-9]{1,18})'
LENGTH = re.compile('(%s)(px|in|cm|mm|pt|pc|em)' % NUMBER)
PERCENTAGE = re.compile('(%s)%%' % NUMBER)
BARE = re.compile('(%s)' % NUMBER)
WHOLE = re.compile('[+-]?[0-9]{1,9}')

# Kinds of values beside keywords; those that end with + aren't negative.
SIGNED, UNSIGNED = ('length', 'percentage'), ('length+', 'percentage+')
BORDER_STYLES = 'none hidden dotted dashed solid double groove ridge inset outset'
FONT_SIZES = 'xx-small x-small small medium large x-large xx-large larger smaller'
DISPLAYS = ('inline block list-item inline-block table inline-table table-row-group table-header-group'
            ' table-footer-group table-row table-column-group table-column table-cell table-caption none')


def property_table():
    """The keywords and the kinds of values of each property."""
    table = {
        'display': (DISPLAYS, ()),
        'position': ('static relative absolute fixed', ()),
        'float': ('none left right', ()),
        'clear': ('none left right both', ()),
        'z-index': ('auto', ('whole',)),
        'overflow': ('visible hidden scroll auto', ()),
        'font-size': (FONT_SIZES, UNSIGNED),
        'line-height': ('normal', ('number+',) + UNSIGNED),
        'text-indent': ('', SIGNED),
        'text-align': ('left right center justify', ()),
        'white-space': ('normal pre nowrap pre-wrap pre-line', ()),
        'vertical-align': ('baseline sub super top text-top middle bottom text-bottom', SIGNED),
        'table-layout': ('auto fixed', ()),
        'border-collapse': ('separate collapse', ()),
        'border-spacing': ('', ('lengths+',)),
        'caption-side': ('top bottom', ()),
        'visibility': ('visible hidden collapse', ()),
        'empty-cells': ('show hide', ()),
    }
    for name in ('letter-spacing', 'word-spacing'):
        table[name] = ('normal', ('length',))
    for name in ('width', 'height'):
        table[name] = ('auto', UNSIGNED)
        table['min-' + name] = ('', UNSIGNED)
        table['max-' + name] = ('none', UNSIGNED)
    for side in SIDES:
        table[side] = ('auto', SIGNED)
        table['margin-' + side] = ('auto', SIGNED)
        table['padding-' + side] = ('', UNSIGNED)
        table['border-%s-width' % side] = ('thin medium thick', ('length+',))
        table['border-%s-style' % side] = (BORDER_STYLES, ())
    return table


PROPERTIES = property_table()


def lowered(text):
    """The text with the letters A to Z in lower case."""
    return re.sub('[A-Z]', lambda match: match.group().lower(), text)


def is_negative(number):
    return number.startswith('-') and re.search('[1-9]', number) is not None


def amount(pattern, text):
    """The number of a value of this form, or None."""
    match = pattern.fullmatch(text)
    return match and match.group(1)


def is_length(text, may_be_negative):
    number = amount(LENGTH, text)
    if number is None:
        number = amount(BARE, text)
        if number is None or re.search('[1-9]', number):
            return False
    return may_be_negative or not is_negative(number)


def is_of_kind(text, kind):
    """The text is a value of this kind."""
    may_be_negative = not kind.endswith('+')
    name = kind.rstrip('+')
    if name == 'length':
        return is_length(text, may_be_negative)
    if name == 'lengths':
        parts = re.split('[%s]+' % WHITE_SPACE, text)
        return 1 <= len(parts) <= 2 and all(is_length(part, may_be_negative) for part in parts)
    if name == 'whole':
        return WHOLE.fullmatch(text) is not None
    number = amount(PERCENTAGE if name == 'percentage' else BARE, text)
    return number is not None and (may_be_negative or not is_negative(number))


def declaration_fault(name, text):
    """`E10` where there is no such property, `E11` where the text isn't one of its values, or None.

    A text of None is no value, as of a declaration that is taken away.
    """
    if name not in PROPERTIES:
        return 'E10'
    if text is None:
        return None
    keywords, kinds = PROPERTIES[name]
    text = lowered(text.strip(WHITE_SPACE))
    if text == 'inherit' or text in keywords.split() or any(is_of_kind(text, kind) for kind in kinds):
        return None
    return 'E11'
