"""Reports of `lay run`, checked: whether the history is one that may be, and whether each tree is that of its version.

usage, in the folder second_reading: python3 -m reading.histories RUN [--program PATH] < REPORT      RUN is the file of the run document

It makes the accepted edits of the printed history again, in their order, and asks the second reading for the tree of
each version that is printed, or `PATH scratch` with --program. It prints `legal`, or the number of the first line with
which no legal report begins, and what is wrong there; the status is 1 then. `nomemory` counts as wrong, but where it is
asked for (`first_fault` with `lacks`): then it leaves the document and what is published as they were.
"""
import argparse
import json
import re
import subprocess
import sys

from reading.batches import edits_of, refusal
from reading.edits import Document
from reading.report import context_count, report

EDIT = re.compile(r'edit ([0-9]+) ([0-9]+) (?:accepted [0-9]+|refused E[0-9]+(?: at [0-9]+)?)')
COMMAND = re.compile(r'^(?:edit|latest|sync) ([0-9]+) ([0-9]+) ', re.M)
READ = re.compile(r'(latest|sync) ([0-9]+) ([0-9]+) ([0-9]+)')
LACK = re.compile(r'(edit|latest|sync) ([0-9]+) ([0-9]+) nomemory')
PUBLISH = re.compile(r'publish ([0-9]+)')
FINAL = re.compile(r'final ([0-9]+)')
LAID = re.compile(r'laid ([0-9]+)')
CELLS_OF_A_CONTEXT = 3
READS = ('latest', 'sync')


class Illegal(Exception):
    """What is wrong with a line."""


def require(holds, what):
    if not holds:
        raise Illegal(what)


def reading_tree(run):
    """The lines of a document's tree by the second reading."""
    return report(run).splitlines()[2:]


def program_tree(program):
    """A function that asks a program for the lines of a document's tree."""
    def tree(run):
        done = subprocess.run([program, 'scratch'], input=json.dumps(run).encode(), stdout=subprocess.PIPE)
        require(done.returncode == 0, 'the program does not lay the document out')
        return done.stdout.decode().splitlines()[2:]
    return tree


class Checker:
    """Goes along the lines of a report; `place` counts those that are found right."""

    def __init__(self, run, lines, tree, lacks=False, contexts=context_count):
        self.lines, self.place, self.tree, self.lacks, self.contexts = lines, 0, tree, lacks, contexts
        self.scripts = run.get('editors', [])
        self.document = Document(run)
        self.accepted, self.published, self.published_tree = 0, None, []
        self.next_commands = [0] * len(self.scripts)

    def check(self):
        """Raises `Illegal` at the first line with which no legal report goes on."""
        while not FINAL.fullmatch(self.line()):
            self.entry()
        self.final()
        self.laid()
        require(self.place == len(self.lines), 'a line behind the end')

    def line(self):
        require(self.place < len(self.lines), 'the report ends here')
        return self.lines[self.place]

    def fields(self, form):
        """The fields of the line, which is of this form, its numbers as numbers."""
        match = form.fullmatch(self.line())
        require(match, 'a line of another form')
        require(not re.search('(?<![0-9])0[0-9]', self.line()), 'a number that begins with 0')
        return [int(field) if field.isdigit() else field for field in match.groups()]

    def tree_lines(self):
        """The lines of the tree that was published last."""
        for line in self.published_tree:
            require(self.line() == line, 'the tree has %r' % line)
            self.place += 1

    # -- entries

    def entry(self):
        if PUBLISH.fullmatch(self.line()):
            self.publish()
        elif READ.fullmatch(self.line()):
            self.read()
        elif self.lacks and LACK.fullmatch(self.line()):
            self.lack()
        else:
            self.edit()

    def command(self, editor, index):
        """The command with this index, which its editor has to come to now."""
        require(1 <= editor <= len(self.scripts), 'an editor that is not there')
        require(index == self.next_commands[editor - 1], 'not the next command of its editor')
        require(index < len(self.scripts[editor - 1]), 'a command that is not there')
        self.next_commands[editor - 1] += 1
        return self.scripts[editor - 1][index]

    def edit(self):
        editor, index = self.fields(EDIT)
        command = self.command(editor, index)
        require(command['do'] not in READS, 'the command is no edit')
        edits = edits_of(command)
        fault = self.document.take(edits)
        self.accepted += not fault
        answer = refusal(edits, *fault) if fault else 'accepted %d' % self.accepted
        require(self.line() == 'edit %d %d %s' % (editor, index, answer), 'it is %s' % answer)
        self.place += 1

    def publish(self):
        version, = self.fields(PUBLISH)
        require(version == self.accepted, '%d are accepted' % self.accepted)
        require(self.published != version, 'it was published before')
        self.published, self.published_tree = version, self.tree(self.document.as_run())
        self.place += 1

    def read(self):
        kind, editor, index, version = self.fields(READ)
        require(self.command(editor, index)['do'] == kind, 'another command')
        require(self.published == version, 'what was published last is %s' % self.published)
        require(kind == 'latest' or version == self.accepted, '%d are accepted' % self.accepted)
        self.place += 1
        self.tree_lines()

    def lack(self):
        kind, editor, index = self.fields(LACK)
        done = self.command(editor, index)['do']
        require(done == kind if kind in READS else done not in READS, 'another command')
        self.place += 1

    # -- the end

    def final(self):
        version, = self.fields(FINAL)
        require(self.next_commands == list(map(len, self.scripts)), 'commands are left')
        require(version == self.accepted, '%d are accepted' % self.accepted)
        require(self.published == version, 'what was published last is %s' % self.published)
        self.place += 1
        self.tree_lines()

    def laid(self):
        number, = self.fields(LAID)
        contexts = self.contexts(self.document.as_run())
        require(number >= CELLS_OF_A_CONTEXT * contexts, '%d contexts' % contexts)
        require(number < 2 ** 64, 'a number that is too great')
        self.place += 1


def first_fault(run, text, tree=reading_tree, lacks=False, contexts=context_count):
    """The number of the first line with which no legal report begins, and what is wrong, or None."""
    lines = text.split('\n')
    checker = Checker(run, lines[:-1], tree, lacks, contexts)
    try:
        checker.check()
        require(lines[-1] == '', 'a line without an end')
    except Illegal as illegal:
        return checker.place + 1, str(illegal)
    return None


def are_in_turns(text):
    """Whether the first command of each editor comes first, in the order of the editors, then the second ones, and so on."""
    commands = [(int(index), int(editor)) for editor, index in COMMAND.findall(text)]
    return commands == sorted(commands)


def main():
    parser = argparse.ArgumentParser(description=__doc__.splitlines()[0])
    parser.add_argument('run')
    parser.add_argument('--program')
    arguments = parser.parse_args()
    with open(arguments.run) as file:
        run = json.load(file)
    tree = program_tree(arguments.program) if arguments.program else reading_tree
    fault = first_fault(run, sys.stdin.read(), tree)
    print('line %d: %s' % fault if fault else 'legal')
    sys.exit(1 if fault else 0)


if __name__ == '__main__':
    main()
