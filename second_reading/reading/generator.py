"""The run document that `lay gen` makes, and the summary that it writes of it.

usage, in the folder second_reading: python3 -m reading.generator SIZE SEED [--document]      prints the summary, or the run document with its editors

The draws are those of a small generator of numbers, settled by the seed.
"""
import json
import sys
from itertools import combinations

from reading.batches import edits_of
from reading.report import report

EDITORS = 4
EDITS_OF_A_BATCH = 64


class Draws:
    """Numbers from 0 to 32767."""

    def __init__(self, seed):
        self.x = seed

    def below(self, limit):
        self.x = (1103515245 * self.x + 12345) % 2 ** 31
        return self.x // 65536 % limit

    def pixels(self, least, limit):
        return '%dpx' % (least + self.below(limit))


def section(draws, number):
    """Four nodes: a context with a margin, in it a float, and a block with a text of words of one letter."""
    first = 2 + 4 * number
    context = {'display': 'block', 'overflow': 'hidden', 'margin-top': draws.pixels(0, 21)}
    floating = {'display': 'block', 'float': 'left' if draws.below(2) == 1 else 'right'}
    floating['width'] = draws.pixels(20, 100)
    floating['height'] = draws.pixels(10, 40)
    words = ['w' * (1 + draws.below(8)) for _ in range(1 + draws.below(30))]
    return [{'id': first, 'parent': 1, 'kind': 'element', 'style': context},
            {'id': first + 1, 'parent': first, 'kind': 'element', 'style': floating},
            {'id': first + 2, 'parent': first, 'kind': 'element', 'style': {'display': 'block'}},
            {'id': first + 3, 'parent': first + 2, 'kind': 'text', 'text': ' '.join(words)}]


def generated_run(size, seed):
    """The run document: each editor sets a padding in every fourth section, in batches, and then syncs."""
    draws = Draws(seed)
    nodes = [{'id': 1, 'parent': 0, 'kind': 'element', 'style': {'display': 'block'}}]
    for number in range(size):
        nodes += section(draws, number)
    editors = []
    for editor in range(EDITORS):
        edits = [{'do': 'set', 'node': 4 + 4 * number, 'property': 'padding-left', 'value': draws.pixels(0, 30)}
                 for number in range(editor, size, EDITORS)]
        editors.append(batches_of(edits) + [{'do': 'sync'}])
    return {'viewport': [800, 600], 'nodes': nodes, 'editors': editors}


def batches_of(edits):
    """Commands with these edits, the last one with what is left."""
    return [{'do': 'batch', 'edits': edits[first:first + EDITS_OF_A_BATCH]} for first in range(0, len(edits), EDITS_OF_A_BATCH)]


def commands_of(run):
    """The commands of a generated run that edit."""
    return [command for script in run['editors'] for command in script if command['do'] != 'sync']


def edited(run, commands):
    """The document after these commands of a generated run, no two of which touch one node."""
    values = {edit['node']: edit['value'] for command in commands for edit in edits_of(command)}
    nodes = [dict(node, style={**node['style'], 'padding-left': values[node['id']]}) if node['id'] in values else node
             for node in run['nodes']]
    return {'viewport': run['viewport'], 'nodes': nodes}


def mark(pieces):
    """One number for all numbers of the pieces."""
    found = 0
    for piece in pieces:
        for number in piece.split()[3:]:
            found = (31 * found + int(number)) % 2 ** 32
    return found


def summary(size, seed):
    """The four lines of `lay gen`."""
    run = generated_run(size, seed)
    return summary_of(run, commands_of(run))


def lacking_summaries(size, seed):
    """The lines that it may write where memory is wanting: a command that lacks it is not accepted, and changes nothing."""
    run = generated_run(size, seed)
    commands = commands_of(run)
    return {summary_of(run, some) for count in range(len(commands) + 1) for some in combinations(commands, count)}


def summary_of(run, accepted):
    """The four lines of a generated run of which these commands are accepted."""
    document = edited(run, accepted)
    pieces = report(document).splitlines()[2:]
    return 'nodes %d\naccepted %d\npieces %d\nmark %d\n' % (len(document['nodes']), len(accepted), len(pieces), mark(pieces))


def main():
    if sys.argv[3:] not in ([], ['--document']) or len(sys.argv) < 3:
        print(__doc__)
        sys.exit(0 if sys.argv[1:] == ['--help'] else 2)
    size, seed = map(int, sys.argv[1:3])
    if sys.argv[3:] == ['--document']:
        print(json.dumps(generated_run(size, seed)))
    else:
        sys.stdout.write(summary(size, seed))


if __name__ == '__main__':
    main()
