"""Which line of a report is the first with which no legal report begins, where commands may lack memory.

usage, in the folder second_reading:
       python3 -m reading.audit RUN < REPORT                     prints `yes`, or `no L`
       python3 -m reading.audit --cases FOLDER [--runs N] [--damages N] [--seed S]
                                                                 writes run documents and their reports, for a program of tests

RUN is the file of a run document. The cases are reports of random runs as they may be, some of whose commands lack memory, and
the same with a byte changed, or a line dropped, doubled or exchanged, each with the verdict of this reading.
"""
import argparse
import copy
import json
import pathlib
import random
import re
import sys

from documents.run_documents import run_document
from reading.batches import edits_of, refusal
from reading.histories import READS, Checker, Illegal, reading_tree, require

LACKS = re.compile(r'(edit|latest|sync) ([0-9]+) ([0-9]+) nomemory')
BYTES = '0123456789 -\n\rabeiloprtxyE+.\u00e9\x00'


class Auditor(Checker):
    """Also takes commands for which memory ran out, as they may be."""

    def entry(self):
        if LACKS.fullmatch(self.line()):
            self.lack()
        else:
            super().entry()

    def lack(self):
        kind, editor, index = self.fields(LACKS)
        command = self.command(editor, index)
        is_read = command['do'] in READS
        require(kind == (command['do'] if is_read else 'edit'), 'another command')
        if not is_read:
            edits = edits_of(command)
            fault = self.document.fault(edits[0]) if len(edits) == 1 else None
            require(not fault, 'it has the fault %s' % fault)
        self.place += 1


def verdict(run, text, tree):
    """`yes`, or `no` and the number of the first bad line."""
    lines = text.split('\n')
    auditor = Auditor(run, lines[:-1], tree)
    try:
        auditor.check()
        require(lines[-1] == '', 'a line without an end')
    except Illegal:
        return 'no %d' % (auditor.place + 1)
    return 'yes'


class Trees:
    """The lines of trees, each asked for once."""

    def __init__(self):
        self.known = {}

    def __call__(self, run):
        key = json.dumps({name: value for name, value in run.items() if name != 'editors'}, sort_keys=True)
        if key not in self.known:
            self.known[key] = reading_tree(run)
        return self.known[key]


# -- random reports

def lacking(run, rng, tree):
    """A run document, and a report of it some of whose commands lack memory."""
    editors, lines = run.get('editors', []), []
    checker = Auditor(run, [], tree)
    left = [(e, i) for e, script in enumerate(editors) for i in range(len(script))]
    order = sorted(left, key=lambda at: (rng.random() + at[1], at[0]))
    next_index = [0] * len(editors)
    while any(next_index[e] < len(editors[e]) for e in range(len(editors))):
        e = rng.choice([e for e in range(len(editors)) if next_index[e] < len(editors[e])])
        lines += answer(checker, editors[e][next_index[e]], '%d %d' % (e + 1, next_index[e]), rng)
        next_index[e] += 1
    lines += published(checker)
    lines += ['final %d' % checker.accepted, *checker.published_tree]
    return lines, checker


def published(checker):
    if checker.published == checker.accepted:
        return []
    checker.published, checker.published_tree = checker.accepted, checker.tree(checker.document.as_run())
    return ['publish %d' % checker.accepted]


def answer(checker, command, who, rng):
    """The lines of an answer to a command that may be."""
    kind = command['do']
    if kind not in READS:
        edits = edits_of(command)
        document = copy.deepcopy(checker.document)
        fault = document.take(edits)
        if fault and (len(edits) == 1 or rng.random() < 0.9):
            return ['edit %s %s' % (who, refusal(edits, *fault))]
        if fault or rng.random() < 0.1:
            return ['edit %s nomemory' % who]
        checker.document = document
        checker.accepted += 1
        return ['edit %s accepted %d' % (who, checker.accepted)]
    if rng.random() < 0.2:
        return ['%s %s nomemory' % (kind, who)]
    lines = []
    if kind == 'sync' or checker.published is None or rng.random() < 0.5:
        lines = published(checker)
    return lines + ['%s %s %d' % (kind, who, checker.published), *checker.published_tree]


def damaged(text, rng):
    """A text with a byte changed, or a line dropped, doubled or exchanged with another, or cut."""
    lines = text.splitlines(keepends=True)
    way, at, other = rng.randrange(6), rng.randrange(len(lines)), rng.randrange(len(lines))
    if way == 0:
        place = rng.randrange(len(text))
        return text[:place] + rng.choice(BYTES) + text[place + 1:]
    if way == 1:
        del lines[at]
    elif way == 2:
        lines.insert(at, lines[at])
    elif way == 3:
        lines[at], lines[other] = lines[other], lines[at]
    elif way == 4:
        return text[:rng.randrange(len(text))]
    else:
        lines[at] = lines[at].replace(' ', rng.choice([' 0', '  ', ' -', ' +', ' 18446744073709551616']), 1)
    return ''.join(lines)


def write_cases(folder, runs, damages, seed):
    for number in range(runs):
        run, rng, tree = run_document(seed, number), random.Random('%d %d' % (seed, number)), Trees()
        lines, checker = lacking(run, rng, tree)
        from reading.report import context_count
        least = 3 * context_count(checker.document.as_run())
        text = '\n'.join([*lines, 'laid %d' % rng.choice([least, least + 1, 2 ** 64 - 1])]) + '\n'
        cases = [('whole', text), ('none', '')]
        cases += [('damage-%d' % k, damaged(text, rng)) for k in range(damages)]
        with open(folder / ('%d.json' % number), 'w') as file:
            json.dump(run, file)
        with open(folder / ('%d.reports' % number), 'wb') as file:
            for name, report in cases:
                spelled = report.encode()
                file.write(b'%s %s %d\n%s\n' % (name.encode(), verdict(run, report, tree).replace(' ', '-').encode(), len(spelled), spelled))


def main():
    parser = argparse.ArgumentParser(description=__doc__.splitlines()[0])
    parser.add_argument('run', nargs='?')
    parser.add_argument('--cases', type=pathlib.Path)
    parser.add_argument('--runs', type=int, default=20)
    parser.add_argument('--damages', type=int, default=10)
    parser.add_argument('--seed', type=int, default=1)
    arguments = parser.parse_args()
    if arguments.cases:
        arguments.cases.mkdir(exist_ok=True)
        write_cases(arguments.cases, arguments.runs, arguments.damages, arguments.seed)
        return
    with open(arguments.run) as file:
        run = json.load(file)
    print(verdict(run, sys.stdin.buffer.read().decode(), reading_tree))


if __name__ == '__main__':
    main()
