"""Which answers the program may give to words and bytes: the tables of docs/REPORT.md, read again.

`fault_of` says what is wrong with an answer, or None.
"""
import re

from reading.generator import summary
from reading.refusals import first_fault, read_check, read_run

DIGITS = re.compile('[0-9]{1,10}')
NATURAL = '(?:0|[1-9][0-9]*)'
WHOLE = '(?:0|-?[1-9][0-9]*)'
# a text is narrower than nothing where its letters stand closer than they are wide, and so is what holds it alone
PIECE = re.compile('(?:box|line|text) [1-9][0-9]* %s %s %s %s %s' % (NATURAL, WHOLE, WHOLE, WHOLE, NATURAL))
ENTRY = re.compile('edit ([1-9][0-9]*) (%s) (?:accepted [1-9][0-9]*|refused E(?:[1-9]|10|11)(?: at %s)?)'
                   '|(?:latest|sync) ([1-9][0-9]*) (%s) %s' % (NATURAL, NATURAL, NATURAL, NATURAL))
PUBLISH = re.compile('publish (%s)' % NATURAL)
HIT = re.compile('hit (?:none|(?:box|text) [1-9][0-9]* %s)\n' % NATURAL)
VERDICT = re.compile('yes\n|no ([1-9][0-9]*)\n')
OPTIONS = {'run': {'--workers': (1, 16, False)},
           'gen': {'--size': (1, 1000, True), '--seed': (0, 2147483647, True), '--workers': (1, 16, False)},
           'hit': {'--x': (0, 1000000, True), '--y': (0, 1000000, True)},
           'check': {}, 'scratch': {}}
LAID_OUT, REFUSED, USAGE, NOT_READ, NOT_WRITTEN, NO_MEMORY = range(6)
# the greatest size of which summaries are compared: each is laid out by the second reading
SUMMED = 3


def options_of(words):
    """The form and its options, or None where the words are none of the forms."""
    if not words or words[0] not in OPTIONS:
        return None
    known, given, rest = OPTIONS[words[0]], {}, list(words[1:])
    while rest:
        name, equals, value = rest.pop(0).partition('=')
        if not equals:
            if not rest:
                return None
            value = rest.pop(0)
        if name not in known or name in given or not DIGITS.fullmatch(value):
            return None
        low, high, _ = known[name]
        if not low <= int(value) <= high:
            return None
        given[name] = int(value)
    return (words[0], given) if all(name in given for name in known if known[name][2]) else None


def tree_fault(lines, ids):
    """What is wrong with the lines of a tree."""
    for line in lines:
        if not PIECE.fullmatch(line):
            return 'a line of another form: %r' % line[:80]
        if ids is not None and int(line.split()[1]) not in ids:
            return 'a node that is not there: %r' % line[:80]
    return None


def report_fault(text, ids):
    if not text.startswith('publish 0\nfinal 0\n') or not text.endswith('\n'):
        return 'no report of scratch'
    return tree_fault(text[:-1].split('\n')[2:], ids)


def next_index(match, indices):
    """Whether the entry is of the next command of its editor, which is counted."""
    editor, index = (int(found) for found in (match.group(1) or match.group(3), match.group(2) or match.group(4)))
    indices[editor] = indices.get(editor, 0) + 1
    return indices[editor] == index + 1


def history_fault(text, counts):
    """What is wrong with a history's lines; `histories` says more of small ones."""
    lines, indices, published, final = text.split('\n'), {}, -1, False
    if lines.pop() != '' or not lines or not re.fullmatch('laid %s' % NATURAL, lines.pop()):
        return 'no line `laid` at its end'
    for line in lines:
        version, entry = PUBLISH.fullmatch(line), ENTRY.fullmatch(line)
        if version:
            if int(version.group(1)) <= published:
                return 'versions that do not rise'
            published = int(version.group(1))
        elif entry:
            if final or not next_index(entry, indices):
                return 'not the next command of its editor: %r' % line
        elif line == 'final %d' % published:
            final = True
        elif not PIECE.fullmatch(line):
            return 'a line of another form: %r' % line[:80]
    if not final or indices != {editor + 1: count for editor, count in enumerate(counts) if count}:
        return 'commands that were not answered'
    return None


def verdict_fault(report, text):
    """What is wrong with an answer of `check`: the first bad line is one of the report or its end (`compare_checks` says more)."""
    found = VERDICT.fullmatch(text)
    if not found:
        return 'no answer of check'
    lines = report.count('\n') + (report != '' and not report.endswith('\n'))
    return None if not found.group(1) or int(found.group(1)) <= lines + 1 else 'a bad line behind the end'


def laid_out_fault(form, given, run, text):
    """What is wrong with an answer of status 0."""
    if form == 'gen':
        return None if given['--size'] > SUMMED or text == summary(given['--size'], given['--seed']) else 'another summary'
    if form == 'hit':
        return None if HIT.fullmatch(text) else 'no answer of hit'
    if form == 'check':
        return verdict_fault(run['report'], text)
    if form == 'run':
        return history_fault(text, [len(commands) for commands in run.get('editors', [])])
    return report_fault(text, {node['id'] for node in run['nodes']})


def fault_of(words, data, run_of, status, out):
    """What is wrong with a status and the bytes that were written; `run_of` reads the run of bytes that aren't refused."""
    form = options_of(words)
    if form is None:
        return None if (status, out) == (USAGE, b'usage\n') else 'the words are wrong, and the answer is no usage'
    refusal = first_fault(data, read_check if form[0] == 'check' else read_run) if form[0] != 'gen' else None
    if status == NO_MEMORY:
        return None
    if refusal:
        return None if (status, out) == (REFUSED, refusal.encode()) else 'it is to be %r' % refusal
    if status != LAID_OUT:
        return 'status %s, and nothing is wrong with the document' % status
    try:
        text = out.decode('ascii')
    except UnicodeDecodeError:
        return 'bytes that are no ASCII'
    return laid_out_fault(form[0], form[1], run_of(data) if form[0] != 'gen' else None, text)
