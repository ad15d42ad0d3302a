"""Random run documents with style sheets, each settled by a seed and a number.

The trees are small and the names few, so that selectors often match and keys are often equal; sheets have what is ignored too, and
places where strings, escapes, comments and braces end in odd ways.
"""
import random

TAGS, CLASSES, LABELS = ('a', 'b', 'p', 'é', '-x', '_'), ('a', 'b', 'c', 'd-1'), ('a', 'x', 'y2')
NAMES = TAGS + CLASSES + LABELS + ('A', 'z', 'B')
JOINTS = (' ', ' ', ' ', '>', ' > ', '+', ' + ', '\n', '/**/', '\t>')
NO_SELECTORS = ('p:hover', 'a[b]', '*|a', 'p::before', '1a', '.1', '#', '.', 'a..b', '-', '--a', 'a >', '> a', 'a > > b', 'a+', '', '"a"', 'a\\b', '@a', 'a*', 'p/**/')
VALUES = {'width': ('10px', '20px', '30px', '4em', '50%', 'auto', ' 7px ', '1PX', 'inherit'),
          'margin-left': ('1px', '-3px', '10%', 'auto', '0'),
          'padding-top': ('2px', '5px', '0.5em'), 'height': ('10px', '15px', 'auto'),
          'float': ('left', 'none', 'RIGHT'), 'display': ('block', 'inline-block', 'none', 'block', 'block'),
          'position': ('static', 'relative'), 'left': ('3px', '-4px')}
NO_DECLARATIONS = ('colour: red', 'width', 'width: 10', 'width 10px', ': 10px', 'width: "10px"', 'width: 10px 20px', 'wid/**/th: 1px', 'width: {1px}',
                   'width: 1px !importan', 'width: 1px important', 'width: !important', 'width: 1px ! ! important', 'w\\idth: 3px', '{}', 'a{width:1px;b{}}', '}', '')
IMPORTANTS = ('', '', '', '', '!important', ' !important', '! IMPORTANT', '!\nimportant ')
AT_RULES = ('@media print { p { width: 1px } a { } }', '@import "a;b";', '@charset "x"; ', '@x', '@ {', '@page{;}', '@a;', '@font-face { src: url(a;b) }', '@a "}" {{}} ')
ODDITIES = ('/* { */', '/*', '"', "'", '\\', '<!--', '-->', ';', '}', '{', '"}"', "'{'", '/* ; */ ', '\n', ')', '{}', 'a', '!important')


class Sheet:
    """Draws the text of a sheet."""

    def __init__(self, rng):
        self.rng, self.choice = rng, rng.choice

    def hit(self, hundredths):
        return self.rng.random() * 100 < hundredths

    def name(self, names):
        return self.choice(NAMES if self.hit(10) else names)

    def compound(self):
        marks = [('.' + self.name(CLASSES), '#' + self.name(LABELS))[self.hit(25)] for _ in range(self.choice((0, 0, 1, 1, 2)))]
        head = self.choice(('', '*', self.name(TAGS), self.name(TAGS))) if marks else self.choice(('*', self.name(TAGS), self.name(TAGS)))
        return head + ''.join(marks)

    def selector(self):
        if self.hit(4):
            return self.choice(NO_SELECTORS)
        text = self.compound()
        for _ in range(self.choice((0, 0, 0, 1, 1, 2, 3))):
            text += self.choice(JOINTS) + self.compound()
        return text

    def declaration(self):
        if self.hit(12):
            return self.choice(NO_DECLARATIONS)
        name = self.choice(sorted(VALUES))
        spelled = name.upper() if self.hit(8) else name
        return spelled + self.choice((':', ': ', ' : ', ':/* a */')) + self.choice(VALUES[name]) + self.choice(IMPORTANTS)

    def rule(self):
        selectors = self.choice((', ', ',', ' ,\n')).join(self.selector() for _ in range(self.choice((1, 1, 1, 2, 3))))
        return selectors + self.choice((' { ', '{')) + ';'.join(self.declaration() for _ in range(self.choice((0, 1, 1, 2, 3)))) + self.choice((' }\n', '}', ';}'))

    def text(self):
        text = ''
        for _ in range(self.choice((0, 1, 2, 3, 4, 6, 9))):
            text += self.choice(AT_RULES) if self.hit(7) else self.rule()
            if self.hit(6):
                text += self.choice(ODDITIES)
        if text and self.hit(6):
            cut = self.rng.randrange(len(text))
            text = text[:cut] + self.choice(ODDITIES) + text[cut + self.choice((0, 0, 1, 3)):]
        return text[:self.rng.randrange(len(text))] if text and self.hit(4) else text


def names_of(draw):
    """What a node is called."""
    names = {}
    if draw.hit(85):
        names['tag'] = draw.choice(TAGS)
    if draw.hit(25):
        names['label'] = draw.choice(LABELS)
    if draw.hit(60):
        names['classes'] = [draw.choice(CLASSES) for _ in range(draw.choice((0, 1, 1, 2, 3)))]
    return names


def with_sheet(rng, run):
    """A run document with a sheet, and with names of its nodes."""
    draw = Sheet(rng)
    return dict(run, sheet=draw.text(), nodes=[dict(node, **names_of(draw)) for node in run['nodes']])


def node_of(draw, ident, parent):
    if parent and draw.hit(12):
        return {'id': ident, 'parent': parent, 'kind': 'text', 'text': draw.choice(('x', 'a b', ' '))}
    node = {'id': ident, 'parent': parent, 'kind': 'element', 'style': {}, **names_of(draw)}
    if parent and draw.hit(8):
        node.update(kind='replaced', natural=[20, 10])
    if draw.hit(75):
        node['style']['display'] = 'block'
    for name in sorted(VALUES):
        if name != 'display' and draw.hit(6):
            node['style'][name] = draw.choice(VALUES[name])
    return node


def sheet_document(seed, number):
    """The run document of a seed and a number."""
    rng = random.Random('sheets %d/%d' % (seed, number))
    draw, nodes = Sheet(rng), []
    count = rng.choice((1, 2, 3, 4, 5, 6, 7, 9, 12))
    ids = rng.sample(range(1, 60), count)
    for place in range(count):
        parents = [node['id'] for node in nodes if node['kind'] == 'element']
        nodes.append(node_of(draw, ids[place], rng.choice(parents[-3:] + parents[:1]) if parents else 0))
    return {'viewport': [100, 80], 'sheet': draw.text(), 'nodes': nodes}
