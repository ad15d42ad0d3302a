"""Declarations of HTML pages as `lay` has them: shorthands as what they stand for, attributes as declarations."""
import re

SIDES = ('top', 'right', 'bottom', 'left')
STYLES = set('none hidden dotted dashed solid double groove ridge inset outset'.split())
WIDTH = re.compile(r'(thin|medium|thick|[+-]?(\d+\.?\d*|\.\d+)[a-z]*)$', re.I)


def four(values):
    """What one to four values are at each side."""
    top = values[0]
    right = values[1] if len(values) > 1 else top
    return top, right, values[2] if len(values) > 2 else top, values[3] if len(values) > 3 else right


def edges(name, form, value):
    """`margin` and the like: one to four values."""
    values = value.split()
    if not 1 <= len(values) <= 4 or '(' in value:
        return None
    return [(form % side, one) for side, one in zip(SIDES, four(values))]


def border(sides, value):
    """`border` and the like: a width and a style, in any order; a colour is left out."""
    words = value.split()
    style = next((word for word in words if word.lower() in STYLES), 'none')
    width = next((word for word in words if WIDTH.match(word)), 'medium')
    return [pair for side in sides for pair in (('border-%s-style' % side, style), ('border-%s-width' % side, '0' if width == '0px'
        else width))]


def font(value):
    """`font`: its size and, behind a slash, its line height."""
    match = re.search(r'(?:^|\s)([\d.]+(?:px|pt|em|%|in|cm|mm|pc)|(?:xx?-)?(?:small|large)|medium|smaller|larger)(?:\s*/\s*([\w.%]+))?(?:\s|$)', value)
    return [('font-size', match[1]), ('line-height', match[2] or 'normal')] if match else None


def expanded(name, value):
    """The declarations that one stands for; itself where it is no shorthand, and None where it can't be read."""
    if name in ('margin', 'padding'):
        return edges(name, name + '-%s', value)
    if name in ('border-width', 'border-style'):
        return edges(name, 'border-%s-' + name.rpartition('-')[2], value)
    if name == 'border':
        return border(SIDES, value)
    if name in ('border-' + side for side in SIDES):
        return border([name.rpartition('-')[2]], value)
    if name == 'font':
        return font(value)
    if name in ('overflow-x', 'overflow-y'):
        return [('overflow', value)]
    return [(name, value)]


def declarations(text):
    """(name, value, whether it is important) of each declaration of a block, shorthands as what they stand for."""
    found = []
    for part in re.sub(r'/\*.*?(\*/|$)', ' ', text, flags=re.S).split(';'):
        name, colon, value = part.partition(':')
        name, value = name.strip().lower(), value.strip()
        important = re.search(r'!\s*important$', value, re.I)
        value = value[:important.start()].strip() if important else value
        if colon:
            found += [(one, text, bool(important)) for one, text in expanded(name, value) or [(name, value)]]
    return found


def sheet_of(text):
    """A sheet in which shorthands stand as what they stand for; the rest is as it was."""
    def block(match):
        if '{' in match[1]:
            return match[0]
        parts = ['%s: %s%s' % (name, value, ' !important' if important else '') for name, value, important in declarations(match[1])]
        return '{ %s }' % '; '.join(parts)
    return re.sub(r'\{([^{}]*)\}', block, re.sub(r'/\*.*?(\*/|$)', ' ', text, flags=re.S))


def length_of(text):
    """A length of an attribute as CSS has it, or None."""
    match = re.match(r'\s*(\d+(?:\.\d+)?)\s*(%|px)?\s*$', text)
    return match and match[1] + (match[2] or 'px')


def of_attributes(name, attributes, table):
    """What attributes of HTML declare, below what sheets say; `table` are the attributes of the table around a cell."""
    style = {}
    for dimension in ('width', 'height'):
        if dimension in attributes and name in ('table', 'td', 'th', 'col', 'tr', 'hr', 'img', 'iframe', 'video', 'canvas', 'embed',
            'object') and length_of(attributes[dimension]):
            style[dimension] = length_of(attributes[dimension])
    if name == 'table' and length_of(attributes.get('cellspacing', '')):
        style['border-spacing'] = length_of(attributes['cellspacing'])
    if name == 'table' and attributes.get('border', '0') != '0':
        style.update(border(SIDES, '%s outset' % (length_of(attributes['border']) or '1px')))
    if name in ('td', 'th') and length_of(table.get('cellpadding', '')):
        style.update(('padding-' + side, length_of(table['cellpadding'])) for side in SIDES)
    if name in ('td', 'th') and table.get('border', '0') != '0':
        style.update(border(SIDES, '1px inset'))
    if attributes.get('valign', '').lower() in ('top', 'middle', 'bottom', 'baseline'):
        style['vertical-align'] = attributes['valign'].lower()
    if attributes.get('align', '').lower() in ('left', 'right', 'center') and name in ('p', 'div', 'h1', 'h2', 'h3', 'h4', 'h5', 'h6', 'td',
        'th', 'tr'):
        style['text-align'] = attributes['align'].lower()
    if attributes.get('align', '').lower() in ('left', 'right') and name in ('img', 'table'):
        style['float'] = attributes['align'].lower()
    if 'nowrap' in attributes and name in ('td', 'th'):
        style['white-space'] = 'nowrap'
    if 'hidden' in attributes:
        style['display'] = 'none'
    return style
