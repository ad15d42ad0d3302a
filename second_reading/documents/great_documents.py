"""Run documents with about as many nodes as there may be, and edits at that limit.
"""
import random

from reading.batches import MOST_EDITS, MOST_NODES

COUNTS = [MOST_NODES - 3, MOST_NODES - 1, MOST_NODES, MOST_NODES, MOST_NODES, MOST_NODES + 1, 40000]
LEVELS = [1, 1, 2, 4, 12]
STYLES = [
    {'display': 'block', 'height': '9px', 'margin-top': '3px', 'margin-bottom': '-1px'},
    {'display': 'block', 'overflow': 'hidden', 'padding-left': '1px'},
    {'display': 'block', 'float': 'left', 'width': '7px', 'height': '5px'},
    {'display': 'block', 'clear': 'both'},
    {'display': 'block', 'position': 'absolute', 'top': '1px'},
    {'display': 'inline-block', 'width': '20px', 'height': '1em'},
    {'display': 'table'}, {'display': 'table-row'}, {'display': 'table-cell'}, {'display': 'none'}, {}]
GREATEST_ID = 2 ** 32 - 1


class Great:
    def __init__(self, rng):
        self.rng, self.choice = rng, rng.choice
        self.count, self.levels = rng.choice(COUNTS), rng.choice(LEVELS)
        self.styles = rng.sample(STYLES, rng.choice([1, 2, 3]))
        self.next_id = self.count + 1

    def fields(self, is_last):
        """What a node is; the last one of a chain may be a text."""
        if is_last and self.rng.random() < 0.2:
            return {'kind': 'text', 'text': self.choice(['a', 'two words', ' '])}
        return {'kind': 'element', 'style': self.choice(self.styles)}

    def nodes(self):
        nodes = [{'id': 1, 'parent': 0, 'kind': 'element', 'style': {'display': 'block'}}]
        for place in range(1, self.count):
            level = (place - 1) % self.levels
            nodes.append({'id': place + 1, 'parent': place if level else 1, **self.fields(level == self.levels - 1)})
        return nodes

    # -- commands

    def insert(self, parent=1):
        ident = self.choice([self.next_id] * 8 + [GREATEST_ID, self.rng.randrange(1, self.count)])
        self.next_id += 1
        return {'do': 'insert', 'id': ident, 'parent': parent, 'index': self.choice([0, 0, 1]), **self.fields(True)}

    def remove(self):
        return {'do': 'remove', 'node': self.rng.randrange(2, self.count)}

    def set(self):
        node, width = self.rng.randrange(1, self.count), self.choice(['0', '2px', '-1px'])
        return {'do': 'set', 'node': node, 'property': 'padding-left', 'value': width}

    def edits(self):
        """A batch: as many edits as there may be, or some that put nodes in where there is room, or where there is none."""
        if self.rng.random() < 0.3:
            return [self.set() for _ in range(self.choice([MOST_EDITS, MOST_EDITS, MOST_EDITS + 1, 64]))]
        begun = [self.remove()] if self.rng.random() < 0.6 else []
        return begun + [self.insert() for _ in range(self.choice([1, 2, 3, 5]))]

    def command(self):
        action = self.choice(['batch', 'batch', 'insert', 'remove', 'set', 'sync', 'latest'])
        if action in ('sync', 'latest'):
            return {'do': action}
        return {'do': 'batch', 'edits': self.edits()} if action == 'batch' else getattr(self, action)()

    def draw(self):
        run = {'viewport': [self.choice([1, 800, 1000000]), 600], 'nodes': self.nodes()}
        if self.rng.random() < 0.7:
            run['editors'] = [[self.command() for _ in range(self.choice([1, 3]))] for _ in range(self.choice([1, 2]))]
        return run


def great_document(seed, number):
    """The great document of a seed and a number."""
    return Great(random.Random('great %d/%d' % (seed, number))).draw()
