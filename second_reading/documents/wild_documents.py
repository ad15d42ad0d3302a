"""Wild run documents: any property on any node with any of its values, the greatest ones too, and any command; and damage to documents.
"""
import copy
import json
import random

from documents.atomic_documents import atomic_document
from documents.block_documents import document
from documents.hit_documents import HitDraw
from documents.positioned_documents import positioned_document
from documents.run_documents import run_document
from documents.table_documents import table_document
from documents.text_documents import text_document
from reading.batches import MOST_EDITS
from reading.declarations import PROPERTIES

TAME = [document, text_document, atomic_document, table_document, positioned_document, run_document]
NUMBERS = ['0', '1', '3', '7.5', '10', '64', '100', '-1', '-50', '1000000', '33554431', '33554432', '-33554432', '999999999', '-999999999',
           '0.000000000000000001', '.5', '+2', '-0', '999999999.999999999999999999']
COMMON = ['0', '1', '3', '10', '10', '20', '50', '100', '7.5', '-1', '-5', '-10', '0.5']
UNITS = ['px', 'px', 'px', 'px', 'em', 'em', 'in', 'cm', 'mm', 'pt', 'pc', 'PX']
WHOLE = ['0', '1', '-1', '7', '+3', '999999999', '-999999999']
WORDS = ['a', 'word', 'w' * 40, ' ', '  ', '\n', '\t', 'a b', 'a\nb', 'a\tb\t', '\u00a0', '\u200b', 'e\u0301', '\u65e5\u672c',
         '\U0001f468\u200d\U0001f469', '-', 'x-y', '\r\n',
         '\u0000', '\u2028', '\ufeff', '\u1100\u1161', '\U0010ffff', '\u00ad', '']
EDITS = ['set'] * 6 + ['clear', 'text', 'text', 'insert', 'insert', 'remove']
SHAPES = ['flat', 'deep', 'tree', 'tree', 'tree', 'wide']
ODD_VALUES = [None, True, False, 0, 1, -1, 1.5, 2 ** 32, 2 ** 63, 2 ** 64, 10 ** 30, -2 ** 63, '', 'a', '\u0000', [], [[]], {},
              {'id': 1}, [0, 0], [1, 1], [1, 2, 3], 'inherit', '1px', 4294967295, 4294967296, 65536, 65, 1000001]
MOST_LEVELS = 140


class Wild:
    def __init__(self, rng):
        self.rng, self.choice = rng, rng.choice
        self.is_great = rng.random() < 0.3
        self.declared = rng.choice([0, 1, 2, 3, 6, 12])
        self.names = rng.sample(sorted(PROPERTIES), rng.choice([3, 8, 20, len(PROPERTIES)])) + ['display', 'display', 'float', 'position']
        self.shape = rng.choice(SHAPES)

    def number(self):
        return self.choice(NUMBERS if self.is_great else COMMON)

    def value_of(self, kind):
        number = self.number()
        if kind.endswith('+'):
            number = number.lstrip('-')
        kind = kind.rstrip('+')
        if kind == 'lengths':
            return ' '.join(self.value_of('length+') for _ in range(self.choice([1, 2])))
        if kind == 'whole':
            return self.choice(WHOLE)
        return number + {'length': self.choice(UNITS), 'percentage': '%', 'number': ''}[kind]

    def value(self, name):
        keywords, kinds = PROPERTIES[name]
        if self.rng.random() < 0.03:
            return 'inherit'
        choices = [lambda: self.choice(keywords.split())] * bool(keywords) + [lambda: self.value_of(kind) for kind in kinds]
        return self.choice(choices)()

    def style(self):
        names = {self.choice(self.names) for _ in range(self.declared)}
        return {name: self.value(name) for name in sorted(names)}

    def text(self):
        return ''.join(self.choice(WORDS) for _ in range(self.choice([0, 1, 2, 5, 20, 60])))

    def fields(self):
        kind = self.choice(['element'] * 6 + ['text'] * 3 + ['replaced'])
        if kind == 'text':
            return {'kind': kind, 'text': self.text()}
        if kind == 'replaced':
            side = [1, 10, 50, 640, 1000000]
            return {'kind': kind, 'natural': [self.choice(side), self.choice(side)], 'style': self.style()}
        spans = {name: self.choice([1, 2, 3, 64]) for name in ('colspan', 'rowspan') if self.rng.random() < 0.1}
        return {'kind': kind, 'style': self.style(), **spans}

    def parent_of(self, parents):
        if self.shape == 'deep':
            return parents[-1]
        if self.shape == 'flat':
            return parents[0]
        return self.choice(parents[-4:] if self.shape == 'tree' else parents)

    def nodes(self):
        nodes, depth = [{'id': 1, 'parent': 0, 'kind': 'element', 'style': self.style()}], {1: 1}
        for ident in range(2, 2 + self.choice([0, 1, 3, 6, 10, 20, 40, 150])):
            fields = self.fields()
            parent = self.parent_of([ident for ident in depth if depth[ident] < 128])
            nodes.append({'id': ident, 'parent': parent, **fields})
            if fields['kind'] == 'element':
                depth[ident] = depth[parent] + 1
        return nodes

    def command(self, count):
        action = self.choice(EDITS + ['batch'] * 3 + ['latest', 'sync', 'sync'])
        if action == 'batch':
            edits = self.choice([1, 2, 3, 8, 40]) if self.rng.random() < 0.97 else self.choice([MOST_EDITS, MOST_EDITS + 1])
            return {'do': action, 'edits': [self.edit(self.choice(EDITS), count) for _ in range(edits)]}
        return self.edit(action, count)

    def edit(self, action, count):
        node = self.rng.randrange(count + 3)
        if action == 'insert':
            return {'do': action, 'id': 1000 + self.rng.randrange(20), 'parent': node, 'index': self.rng.randrange(4), **self.fields()}
        name = self.choice(self.names)
        more = {'set': {'property': name, 'value': self.value(name)}, 'clear': {'property': name}, 'text': {'text': self.text()}}
        return {'do': action, 'node': node, **more.get(action, {})}

    def draw(self):
        nodes, side = self.nodes(), [1, 10, 100, 320, 800, 1000000]
        run = {'viewport': [self.choice(side), self.choice(side)], 'nodes': nodes}
        if self.rng.random() < 0.2:
            names = ['default', 'ascent', 'descent', 'xheight', 'normal']
            run['face'] = {name: self.choice([0, 1, 500, 1000, 10000]) for name in self.rng.sample(names, 3)}
        if self.rng.random() < 0.6:
            counts = [self.choice([0, 1, 3, 8]) for _ in range(self.choice([1, 2, 4, 16]))]
            run['editors'] = [[self.command(len(nodes)) for _ in range(count)] for count in counts]
        return run


def wild_document(seed, number):
    """The wild document of a seed and a number; half of them are tame ones, of the other kinds."""
    rng = random.Random('wild %d/%d' % (seed, number))
    if rng.random() < 0.5:
        return Wild(rng).draw()
    run = rng.choice(TAME)(seed, number)
    if rng.random() < 0.3:
        draw = HitDraw(rng)
        for place, node in enumerate(run['nodes']):
            if node['kind'] != 'text':
                draw.add(node, place == 0)
    return run


# -- damage

def places_of(value):
    """Each container of a value, with each of its keys."""
    for key in value if isinstance(value, dict) else range(len(value)):
        yield value, key
        if isinstance(value[key], (dict, list)):
            yield from places_of(value[key])


def nested(rng, value):
    """A value in many brackets, of both kinds."""
    for _ in range(rng.choice([1, 100, 121, 122, 123, 124, 125, 126, 127, 128, MOST_LEVELS])):
        value = [value] if rng.random() < 0.8 else {'a': value}
    return value


def damage_values(rng, run):
    """Some values are lost, doubled, changed for others, or are of another kind."""
    for _ in range(rng.choice([1, 1, 1, 2, 5])):
        places = list(places_of(run))
        if not places:
            return run
        container, key = rng.choice(places)
        act = rng.randrange(6)
        if act == 0:
            del container[key]
        elif act == 1:
            other, place = rng.choice(places)
            container[key] = json.loads(json.dumps(other[place]))
        elif act == 2:
            container[key] = nested(rng, container[key])
        elif act == 3 and isinstance(container, dict):
            name = rng.choice(['id', 'kind', 'style', 'text', 'node', 'Width', 'do', 'colspan', '\u00e9'])
            container[name] = container.pop(key)
        elif act == 4 and isinstance(container, list):
            container.insert(key, json.loads(json.dumps(container[key])))
        else:
            container[key] = copy.deepcopy(rng.choice(ODD_VALUES))
    return run


TOKENS = [
    b'{', b'}', b'[', b']', b',', b':', b'"', b'\\', b'0', b'-', b'1e999', b'1E400', b'e', b'.', b'null', b'true', b'\\ud800', b'\\u0000',
    b'\xff', b'\xef\xbb\xbf', b'\xc0\x80', b'\xed\xa0\x80', b'\x00', b'\n', b' ', b'//', b'NaN', b'Infinity', b'-0',
    b'00', b'18446744073709551616',
    b"'", b'\xf4\x90\x80\x80', b'\x0c', b'\x7f']


def damage_bytes(rng, data):
    """Bytes are changed, cut, doubled, moved or put in."""
    data = bytearray(data)
    for _ in range(rng.choice([1, 1, 1, 2, 4, 16])):
        here, there = sorted(rng.randrange(len(data) + 1) for _ in range(2))
        act = rng.randrange(7)
        if act == 0 and data:
            data[here % len(data)] = rng.randrange(256)
        elif act == 1 and data:
            data[here % len(data)] ^= 1 << rng.randrange(8)
        elif act == 2:
            del data[here:min(there, here + 20)]
        elif act == 3:
            data = data[:there] if rng.random() < 0.3 else data
        elif act == 4:
            data[here:here] = data[here:there][:200]
        elif act == 5:
            data[here:here] = rng.choice([b'[', b'{"a":', b'"']) * rng.choice([1, 127, 5000])
        else:
            data[here:here] = rng.choice(TOKENS)
    return bytes(data)
