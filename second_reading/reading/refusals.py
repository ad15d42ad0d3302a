"""The first fault of a run document, or of one beside a report, from its bytes: the line `refused ..`, or None (docs/INPUT.md, docs/REPORT.md).

usage, in the folder second_reading: python3 -m reading.refusals [--check] < DOCUMENT
"""
import json
import re
import sys

from reading.batches import COMMANDS_WITH_EDITS, EDITS, MOST_EDITS, MOST_NODES
from reading.cascade import MOST_SELECTORS, selector_count
from reading.declarations import declaration_fault

MOST_BYTES, MOST_LEVELS = 16777216, 127
MOST_DEPTH, MOST_TEXT, MOST_TEXTS = 128, 65536, 1048576
MOST_EDITORS, MOST_COMMANDS, MOST_READS, MOST_PAIRS = 16, 8192, 256, 65536
MOST_ID, MOST_SIDE, MOST_SPAN, MOST_MEASURE, MOST_CODE_POINT = 2 ** 32 - 1, 1000000, 64, 10000, 1114111
MEASURES = ('default', 'ascent', 'descent', 'xheight', 'normal')
BRACKET_OR_TEXT = re.compile(r'"(?:[^"\\]|\\.)*"?|[\[\]{}]', re.S)
SURROGATE = re.compile('[\ud800-\udfff]')
READS = ('latest', 'sync')


class Refused(Exception):
    """What stands behind `refused`."""


class Number:
    """A JSON number; `whole` is its value where it is written with digits alone and is below 2^64."""

    def __init__(self, text):
        self.whole = int(text) if text.isdigit() and len(text) < 21 and int(text) < 2 ** 64 else None
        if float(text) in (float('inf'), float('-inf')):
            raise ValueError('a number past the range of doubles')


def no_constant(text):
    raise ValueError(text)


def levels_of(text):
    """How deep the brackets of a JSON text nest."""
    level = deepest = 0
    for found in BRACKET_OR_TEXT.finditer(text):
        level += {'[': 1, '{': 1, ']': -1, '}': -1}.get(found.group(), 0)
        deepest = max(deepest, level)
    return deepest


def has_half_pair(value):
    if isinstance(value, dict):
        return any(SURROGATE.search(name) or has_half_pair(part) for name, part in value.items())
    if isinstance(value, list):
        return any(map(has_half_pair, value))
    return isinstance(value, str) and SURROGATE.search(value) is not None


class Value(dict):
    """An object of which no member was lost unseen: a half of a pair counts also where a later member has its name."""


def members(pairs):
    if any(has_half_pair([name, value]) for name, value in pairs):
        raise ValueError('half of a surrogate pair')
    return Value(pairs)


def json_of(data):
    """The value of a JSON text; a fault is a `ValueError`."""
    text = data.decode('utf-8')
    if levels_of(text) > MOST_LEVELS:
        raise ValueError('too deep')
    value = json.loads(text, parse_int=Number, parse_float=Number, parse_constant=no_constant, object_pairs_hook=members)
    if has_half_pair(value):
        raise ValueError('half of a surrogate pair')
    return value


# -- fields, in an object that stands at a place

def require(holds, fault, name, place):
    if not holds:
        raise Refused('%s %s %s' % (fault, name, place))


def needed(fields, name, place):
    require(name in fields, 'I3', name, place)
    return fields[name]


def of_type(kind, value, name, place):
    require(isinstance(value, kind), 'I4', name, place)
    return value


def is_within(value, low, high):
    return value.whole is not None and low <= value.whole <= high


def number(value, low, high, name, place):
    of_type(Number, value, name, place)
    require(is_within(value, low, high), 'I9', name, place)
    return value.whole


def needed_number(fields, low, high, name, place):
    return number(needed(fields, name, place), low, high, name, place)


def number_where_given(fields, low, high, name, place):
    if name in fields:
        number(fields[name], low, high, name, place)


def needed_text(fields, name, place):
    return of_type(str, needed(fields, name, place), name, place)


def is_pair(value):
    return isinstance(value, list) and len(value) == 2 and all(isinstance(part, Number) for part in value)


def needed_sides(fields, name, place):
    value = needed(fields, name, place)
    require(is_pair(value), 'I4', name, place)
    require(all(is_within(side, 1, MOST_SIDE) for side in value), 'I9', name, place)


def style_form(fields, place):
    if 'style' in fields:
        style = of_type(dict, fields['style'], 'style', place)
        require(all(isinstance(value, str) for value in style.values()), 'I4', 'style', place)


def node_form(fields, place):
    """The id, the parent's id and the kind of a node, whose fields have their forms."""
    ident = needed_number(fields, 1, MOST_ID, 'id', place)
    parent = needed_number(fields, 0, MOST_ID, 'parent', place)
    kind = needed_text(fields, 'kind', place)
    require(kind in ('element', 'text', 'replaced'), 'I4', 'kind', place)
    if kind == 'text':
        needed_text(fields, 'text', place)
        return ident, parent, kind
    style_form(fields, place)
    if kind == 'replaced':
        needed_sides(fields, 'natural', place)
    else:
        for name in ('colspan', 'rowspan'):
            number_where_given(fields, 1, MOST_SPAN, name, place)
    return ident, parent, kind


# -- the parts of a run document

def read_face(face):
    of_type(dict, face, 'face', 'run')
    if 'advance' in face:
        pairs = of_type(list, face['advance'], 'advance', 'run')
        require(all(map(is_pair, pairs)), 'I4', 'advance', 'run')
        good = all(is_within(code, 0, MOST_CODE_POINT) and is_within(width, 0, MOST_MEASURE) for code, width in pairs)
        require(good and len(pairs) <= MOST_PAIRS, 'I9', 'advance', 'run')
    for name in MEASURES:
        number_where_given(face, 0, MOST_MEASURE, name, 'run')


class Tree:
    """The nodes that were read, with what limits ask of them."""

    def __init__(self):
        self.kinds, self.depths, self.bytes_of_texts = {}, {}, 0

    def fault(self, ident, parent, kind, length):
        """Why a node can't be put below its parent, the first fault of all, or None."""
        if not self.kinds:
            return 'E1' if parent else None if kind == 'element' else 'E2'
        if parent not in self.kinds:
            return 'E1'
        if self.kinds[parent] != 'element':
            return 'E2'
        if ident in self.kinds:
            return 'E4'
        if len(self.kinds) >= MOST_NODES:
            return 'E7'
        if self.depths[parent] >= MOST_DEPTH:
            return 'E8'
        return 'E9' if length > MOST_TEXT or self.bytes_of_texts + length > MOST_TEXTS else None

    def read(self, fields, index):
        place = 'node %d' % index
        of_type(dict, fields, 'nodes', place)
        ident, parent, kind = node_form(fields, place)
        style = fields.get('style', {}) if kind != 'text' else {}
        for name in sorted(style, key=str.encode):
            bad = declaration_fault(name, style[name])
            if bad:
                raise Refused('I6 %d %s' % (index, {'E10': 'V1', 'E11': 'V2'}[bad]))
        length = len(fields['text'].encode()) if kind == 'text' else 0
        fault = self.fault(ident, parent, kind, length)
        if fault:
            raise Refused('I5 %d %s' % (index, fault))
        self.kinds[ident], self.depths[ident] = kind, self.depths.get(parent, 0) + 1
        self.bytes_of_texts += length


def read_batch(command, place):
    edits = of_type(list, needed(command, 'edits', place), 'edits', place)
    require(edits, 'I3', 'edits', place)
    if len(edits) > MOST_EDITS:
        raise Refused(place.replace('command', 'I10'))
    for edit in edits:
        read_command(edit, place, EDITS)


def read_command(command, place, actions=COMMANDS_WITH_EDITS + READS):
    """What a command does, which may do these things."""
    of_type(dict, command, 'do', place)
    action = needed_text(command, 'do', place)
    require(action in actions, 'I4', 'do', place)
    if action == 'batch':
        read_batch(command, place)
    elif action == 'insert':
        needed_number(command, 0, MOST_ID, 'index', place)
        node_form(command, place)
    elif action not in READS:
        needed_number(command, 0, MOST_ID, 'node', place)
        for name in {'set': ('property', 'value'), 'clear': ('property',), 'text': ('text',), 'remove': ()}[action]:
            needed_text(command, name, place)
    return action


def read_editors(editors):
    if len(editors) > MOST_EDITORS:
        raise Refused('I7')
    require(all(isinstance(commands, list) for commands in editors), 'I4', 'editors', 'run')
    count = reads = 0
    for editor, commands in enumerate(editors):
        for index, command in enumerate(commands):
            action = read_command(command, 'command %d %d' % (editor + 1, index))
            count, reads = count + 1, reads + (action in READS)
            if count > MOST_COMMANDS or reads > MOST_READS:
                raise Refused('I8')


def text_where_given(fields, name, place):
    if name in fields:
        of_type(str, fields[name], name, place)


def read_names(run):
    """The faults of a run's sheet, and of what its nodes are called."""
    text_where_given(run, 'sheet', 'run')
    if 'sheet' not in run:
        return
    for index, fields in enumerate(run['nodes']):
        place = 'node %d' % index
        if fields['kind'] != 'text':
            text_where_given(fields, 'tag', place)
            text_where_given(fields, 'label', place)
            classes = of_type(list, fields.get('classes', []), 'classes', place)
            require(all(isinstance(name, str) for name in classes), 'I4', 'classes', place)


def judge_selectors(run):
    """The last fault of all."""
    if 'sheet' in run and selector_count(run['sheet']) > MOST_SELECTORS:
        raise Refused('I11')


def read_fields(run):
    of_type(dict, run, 'run', 'run')
    needed_sides(run, 'viewport', 'run')
    if 'face' in run:
        read_face(run['face'])
    nodes = of_type(list, needed(run, 'nodes', 'run'), 'nodes', 'run')
    require(nodes, 'I3', 'nodes', 'run')
    editors = of_type(list, run.get('editors', []), 'editors', 'run')
    tree = Tree()
    for index, fields in enumerate(nodes):
        tree.read(fields, index)
    read_editors(editors)
    read_names(run)


def read_run(run):
    read_fields(run)
    judge_selectors(run)


def read_check(check):
    of_type(dict, check, 'check', 'run')
    run = needed(check, 'run', 'run')
    read_fields(run)
    of_type(str, needed(check, 'report', 'run'), 'report', 'run')
    judge_selectors(run)


def first_fault(data, read=read_run):
    """The line that refuses these bytes, or None; `read_check` reads those of a check."""
    try:
        if len(data) > MOST_BYTES:
            raise Refused('I1')
        try:
            value = json_of(data)
        except ValueError:
            raise Refused('I2') from None
        read(value)
    except Refused as refused:
        return 'refused %s\n' % refused
    return None


def main():
    read = read_check if sys.argv[1:] == ['--check'] else read_run
    sys.stdout.write(first_fault(sys.stdin.buffer.read(), read) or 'nothing found\n')


if __name__ == '__main__':
    main()
