"""From the bytes of a document to its value, as `lay` reads JSON; where that fails, what is wrong and in which line."""
import codecs
import json
import re

MOST_BYTES, MOST_LEVELS = 16777216, 127
BRACKET_OR_TEXT = re.compile(r'"(?:[^"\\]|\\.)*"?|[\[\]{}]', re.S)
SURROGATE = re.compile('[\ud800-\udfff]')
WORDS = {'True': 'true', 'False': 'false', 'None': 'null', 'undefined': 'null'}


class NoJson(Exception):
    """What is wrong with a text that is no JSON."""


class Number:
    """A JSON number; `whole` is its value where it is written with digits alone and is below 2^64."""

    def __init__(self, text):
        self.text = text
        self.whole = int(text) if text.isdigit() and len(text) < 21 and int(text) < 2 ** 64 else None
        if float(text) in (float('inf'), float('-inf')):
            raise NoJson('the number %s is past 1.8e308' % text[:40])


class Value(dict):
    """An object; `twice` are the names that it has more than once, of which the last member counts."""

    twice = ()


def members(pairs):
    value = Value(pairs)
    for name, part in pairs:
        for text in (name, part):
            if isinstance(text, str) and SURROGATE.search(text):
                raise NoJson('half of a surrogate pair in %s: write the whole character' % json.dumps(text)[:60])
    if len(value) < len(pairs):
        names = [name for name, _ in pairs]
        value.twice = sorted({name for name in names if names.count(name) > 1})
    return value


def no_constant(text):
    raise NoJson('%s is no JSON number' % text)


def line_of(text, at):
    return text.count('\n', 0, at) + 1


def levels_of(text):
    """How deep the brackets of a JSON text nest."""
    level = deepest = 0
    for found in BRACKET_OR_TEXT.finditer(text):
        level += {'[': 1, '{': 1, ']': -1, '}': -1}.get(found.group(), 0)
        deepest = max(deepest, level)
    return deepest


def where_comma(text, at):
    """The line of a comma that stands just before a place, or 0."""
    before = text[:at].rstrip(' \t\r\n')
    return line_of(text, len(before) - 1) if before.endswith(',') else 0


def words_of(text, fault):
    """A decoder's fault in plain words."""
    at, rest, line = fault.pos, text[fault.pos:], line_of(text, fault.pos)
    word = re.match(r'[A-Za-z_$][\w$-]*', rest)
    if rest[:1] in (']', '}') and where_comma(text, at):
        return 'line %d: a comma behind the last item: take it away' % where_comma(text, at)
    if 'double quotes' in fault.msg and where_comma(text, at + 1) and rest.lstrip()[:1] in ('}', ''):
        return 'line %d: a comma behind the last item: take it away' % where_comma(text, at + 1)
    if not rest.strip():
        return 'line %d: the text breaks off: a bracket or a quotation mark isn\'t closed' % line
    if fault.msg == 'Extra data':
        return 'line %d: behind the document stands more: %s' % (line, json.dumps(rest[:20]))
    if rest.startswith(('//', '/*')):
        return 'line %d: JSON has no comments' % line
    if rest[0] == "'":
        return 'line %d: texts and names stand in double quotes' % line
    if word and word.group() in WORDS:
        return 'line %d: write %s instead of %s' % (line, WORDS[word.group()], word.group())
    if word and fault.msg.startswith('Expecting'):
        return 'line %d: write "%s" in double quotes' % (line, word.group())
    if "',' delimiter" in fault.msg:
        return 'line %d: a comma is missing before %s, or a bracket' % (line, json.dumps(rest[:20]))
    if rest[0] == ',':
        return 'line %d: a comma too many' % line
    return 'line %d, column %d: %s' % (line, fault.colno, fault.msg)


def last_half(value):
    """Whether a text that stands in a list, or alone, has half of a surrogate pair."""
    if isinstance(value, dict):
        return any(map(last_half, value.values()))
    if isinstance(value, list):
        return any(map(last_half, value))
    return isinstance(value, str) and SURROGATE.search(value) is not None


def decoded(data):
    """The text of the bytes."""
    if len(data) > MOST_BYTES:
        raise NoJson('it has %s bytes, and at most %s are read' % (format(len(data), ','), format(MOST_BYTES, ',')))
    if data.startswith(codecs.BOM_UTF8):
        raise NoJson('it begins with a byte order mark: save it as UTF-8 without one')
    if data.startswith((codecs.BOM_UTF16_LE, codecs.BOM_UTF16_BE)):
        raise NoJson('it is in UTF-16: save it as UTF-8')
    try:
        return data.decode('utf-8')
    except UnicodeDecodeError as fault:
        raise NoJson('line %d: the byte 0x%02x is no UTF-8: save it as UTF-8' % (data.count(b'\n', 0, fault.start) + 1,
            data[fault.start])) from None


def value_of(data):
    """The value of a JSON text, in which numbers are `Number`s and objects `Value`s; else `NoJson`."""
    text = decoded(data)
    if not text.strip(' \t\r\n'):
        raise NoJson('it is empty')
    if levels_of(text) > MOST_LEVELS:
        raise NoJson('its brackets are nested deeper than %d levels' % MOST_LEVELS)
    try:
        value = json.loads(text, parse_int=Number, parse_float=Number, parse_constant=no_constant, object_pairs_hook=members)
    except json.JSONDecodeError as fault:
        raise NoJson(words_of(text, fault)) from None
    if last_half(value):
        raise NoJson('half of a surrogate pair, as \\ud800 alone: write the whole character')
    return value
