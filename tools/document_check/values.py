"""Properties and their values: what is wrong with a declaration, and how to mend it."""
import difflib
import importlib.machinery
import importlib.util
import pathlib
import re

TOOLS = pathlib.Path(__file__).resolve().parent.parent
SIDES = 'top right bottom left'.split()
UNITS = 'px in cm mm pt pc em'.split()
SHORTHANDS = {
    'margin': ['margin-' + side for side in SIDES],
    'padding': ['padding-' + side for side in SIDES],
    'border': ['border-%s-%s' % (side, what) for side in SIDES for what in ('width', 'style')],
    'border-width': ['border-%s-width' % side for side in SIDES],
    'border-style': ['border-%s-style' % side for side in SIDES],
    **{'border-' + side: ['border-%s-%s' % (side, what) for what in ('width', 'style')] for side in SIDES},
    'font': ['font-size', 'line-height'],
    'inset': SIDES,
}
# Names that other languages or later levels of CSS have for what there is here.
OTHERS = {'font-height': 'font-size', 'word-wrap': None, 'align': 'text-align', 'valign': 'vertical-align', 'overflow-x': 'overflow',
          'overflow-y': 'overflow', 'indent': 'text-indent', 'collapse': 'border-collapse', 'spacing': 'border-spacing'}
MODERN = re.compile(r'(flex|grid|gap|align-|justify-|order$|place-|transform|transition|animation|box-|columns?$|column-|aspect|inset-|object-)')
NUMBER = re.compile(r'[+-]?(\d+\.?\d*|\.\d+)')


def maker():
    """The script that makes the strict schema, which reads docs/PROPERTIES.md."""
    loader = importlib.machinery.SourceFileLoader('strict_schema', str(TOOLS / 'strict_schema'))
    module = importlib.util.module_from_spec(importlib.util.spec_from_loader('strict_schema', loader))
    loader.exec_module(module)
    return module


def near(name, names):
    """The name that is meant, most likely, or ''."""
    found = difflib.get_close_matches(name.lower(), list(names), 1, 0.75)
    return found[0] if found else ''


class Values:
    """What each property takes."""

    def __init__(self):
        made = maker()
        self.patterns = {name: re.compile(pattern) for name, pattern in made.properties().items()}
        self.cells = {name: row['values'] for name, row in made.rows().items()}

    def unknown(self, name):
        """What is said of a property that there isn't."""
        if name in SHORTHANDS:
            return '`%s` is a shorthand, and there are none here: write %s' % (name, ', '.join(SHORTHANDS[name]))
        meant = OTHERS.get(name) or near(name, self.patterns)
        if name.lower() in self.patterns and name != name.lower():
            meant = name.lower()
        if meant:
            return 'there is no property `%s`: did you mean `%s`?' % (name, meant)
        more = 'it is of a later CSS than 2.2' if MODERN.match(name) else 'one that moves no box can be left out'
        return 'there is no property `%s` here (docs/PROPERTIES.md); %s' % (name, more)

    def hint(self, name, text):
        """How to mend a value that is none, or ''."""
        value, cell = text.strip().lower(), self.cells[name]
        number = NUMBER.match(value)
        rest = value[number.end():] if number else ''
        if value.endswith('!important'):
            return '`!important` stands in sheets alone'
        if '(' in value:
            return 'there are no functions: write the length'
        if number and 'length' in cell and not rest:
            return 'a length has a unit: write %spx' % number.group()
        if number and rest.strip() in (*UNITS, '%') and rest != rest.strip():
            return 'no space stands before the unit: write %s%s' % (number.group(), rest.strip())
        if number and re.fullmatch(r'[a-z]+|%', rest) and rest not in UNITS and rest != '%':
            return 'there is no unit `%s`: %s' % (rest, ', '.join(UNITS))
        if number and value.startswith('-') and 'from 0' in cell:
            return 'it can\'t be negative'
        if ' ' in value and name not in ('border-spacing',):
            return 'it takes one value'
        meant = near(value, [word for word in cell.split(', ') if ' ' not in word] + ['inherit'])
        return 'did you mean `%s`?' % meant if meant else ''

    def fault(self, name, value):
        """What is wrong with a declaration, or None. The value may be of any type."""
        if name not in self.patterns:
            return self.unknown(name)
        if not isinstance(value, str):
            shown = getattr(value, 'text', None)
            return 'the value of `%s` is no text: write %s' % (name, '"%s"' % shown if shown else 'it in quotation marks, as "10px"')
        if self.patterns[name].fullmatch(value):
            return None
        hint = self.hint(name, value)
        return '`%s: %s`: it takes %s, or inherit%s' % (name, value[:60], self.cells[name], ' (%s)' % hint if hint else '')

    @staticmethod
    def warning(name, value):
        """What is worth knowing of a declaration that is right."""
        if name == 'text-align' and isinstance(value, str) and value.strip().lower() == 'justify':
            return '`text-align: justify` is set as `left`'
        return None
