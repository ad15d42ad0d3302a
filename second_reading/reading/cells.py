"""A second reading of cells: a plain list of records, and histories of drawn events with its answers.

usage, in the folder second_reading: python3 -m reading.cells > ../crates/lay_doc_cases/data/drawn.cells

The histories are the same in each run. Each kind of answer comes in them at least ten times.
"""
import collections
import random

HISTORIES = 12
EVENTS = 50
KEYS = range(1, 8)
INPUTS = (10, 20)

# Each key with the keys that it needs. Keys come and go, change places and get other needs; no shape has 7.
SHAPES = (
    {1: (), 2: (1,), 3: (1,), 4: (2, 3), 5: (4,), 6: ()},
    {1: (), 2: (1,), 3: (2,), 4: (3,), 5: (4,), 6: (5,)},
    {6: (), 1: (), 2: (1,), 3: (1, 6), 4: (2, 3), 5: (4,)},
    {1: (), 2: (), 4: (1, 2), 5: (4, 1)},
    {3: (), 2: (3,), 1: (2,), 5: (3, 1), 6: (5, 2)},
    {1: (), 2: (1,), 3: (1,), 4: (3, 2), 5: (4,), 6: ()},
)

# Keys to mark, or to be fresh in a new shape.
KEY_LISTS = ((), (1,), (6, 2), (5,), (3, 7), (4,))

Grant = collections.namedtuple('Grant', 'key number input')


class Record:
    """What is kept of one cell. Of a pair the input is kept."""

    def __init__(self, needs, number):
        self.needs = needs
        self.dirty = True
        self.kept = None
        self.claim = None
        self.stale = False
        self.given = None
        self.first = number
        self.last = number
        self.laid = 0

    def mark(self):
        """It is dirty, and a claim that is open is stale."""
        self.dirty = True
        self.stale = True


class PlainCells:
    """The records by their keys, in the order of the shape, and the greatest number that was drawn."""

    def __init__(self):
        self.records = {}
        self.draws = 0

    def draw(self):
        """The next number."""
        self.draws += 1
        return self.draws

    def dirty_need(self, needs):
        """The first of these keys whose cell is dirty."""
        return next((need for need in needs if self.records[need].dirty), None)

    def look(self, key):
        """What a look at the key shows."""
        record = self.records.get(key)
        if record is None:
            return 'Gone'
        if not record.dirty:
            return 'Clean'
        need = self.dirty_need(record.needs)
        return 'Ready' if need is None else 'Waiting(%d)' % need

    def mark(self, keys):
        """Needs stand before what needs them, so one way along the records reaches all."""
        reached = set(keys)
        for key, record in self.records.items():
            if key in reached or reached.intersection(record.needs):
                record.mark()
                reached.add(key)
        return 'done'

    def claim(self, key, given):
        """A claim for an input, where the cell is ready."""
        if self.look(key) != 'Ready':
            return 'NotReady'
        record = self.records[key]
        record.stale = False
        if record.claim is not None and record.given == given:
            return 'Taken(%d)' % record.claim
        record.given = given
        record.last = self.draw()
        if record.kept == given:
            record.claim = None
            record.dirty = False
            return 'Reused'
        record.claim = record.last
        record.laid += 1
        return 'Granted(%d)' % record.claim

    def finish(self, key, number, given):
        """The work of a claim is done."""
        record = self.records.get(key)
        if record is None or number < record.first:
            return 'Gone'
        if record.claim != number or record.given != given:
            return 'Superseded(%d)' % record.last
        record.claim = None
        record.kept = given
        record.dirty = record.stale
        return 'Stored' if record.stale else 'Cleaned'

    def give_back(self, key, number):
        """A claim comes back without a value."""
        record = self.records.get(key)
        if record is None or number < record.first:
            return 'Gone'
        if record.claim != number:
            return 'Superseded(%d)' % record.last
        record.claim = None
        return 'Released'

    def reshape(self, shape, fresh):
        """The cells of a new shape: what was there and isn't fresh is kept, and marked where its needs changed."""
        old, self.records = self.records, {}
        for key, needs in shape.items():
            record = old.get(key)
            if record is None or key in fresh:
                record = Record(needs, self.draw())
            elif record.needs != needs or self.dirty_need(needs) is not None:
                record.needs = needs
                record.mark()
            self.records[key] = record
        return 'done'

    def first_dirty(self):
        """The key of the first dirty cell."""
        return self.dirty_need(self.records)

    def state(self):
        """The count of numbers, the first dirty cell, and look, value and grants of each key."""
        cells = ['%d %s' % (self.draws, optional(self.first_dirty()))]
        for key in KEYS:
            record = self.records.get(key)
            value = None if record is None or record.kept is None else record.kept // 2
            laid = None if record is None else record.laid
            cells.append('%s %s %s' % (self.look(key), optional(value), optional(laid)))
        return '; '.join(cells)


def optional(number):
    """A number that may be missing, as the program writes it."""
    return 'None' if number is None else 'Some(%d)' % number


def numbers(keys):
    """Numbers with blanks between them."""
    return ' '.join(str(key) for key in keys)


def reshape_call(shape, fresh):
    """The line of a new shape."""
    entries = '; '.join(numbers((key,) + needs) for key, needs in shape.items())
    return 'reshape %s%s' % (entries, ' fresh ' + numbers(fresh) if fresh else '')


def event(dice, cells, grants):
    """Draws an event: its line and its answer."""
    kind = dice.choices(('reshape', 'mark', 'finish', 'give-back', 'claim'), (2, 4, 5, 2, 7))[0]
    if kind == 'reshape':
        shape, fresh = dice.choice(SHAPES), dice.choice(KEY_LISTS)
        return reshape_call(shape, fresh), cells.reshape(shape, fresh)
    if kind == 'mark':
        keys = dice.choice(KEY_LISTS + tuple((grant.key,) for grant in grants[-3:]))
        return ('mark %s' % numbers(keys)).strip(), cells.mark(keys)
    if kind == 'finish' and grants:
        grant = dice.choice(grants[-2:])
        return 'finish %d %d %d' % grant, cells.finish(*grant)
    if kind == 'give-back' and grants:
        grant = dice.choice(grants[-3:])
        return 'give-back %d %d' % grant[:2], cells.give_back(*grant[:2])
    key = dice.choice((cells.first_dirty() or 1, dice.choice(KEYS)))
    given = dice.choice(INPUTS)
    answer = cells.claim(key, given)
    if answer.startswith('Granted'):
        grants.append(Grant(key, cells.draws, given))
    return 'claim %d %d' % (key, given), answer


def history(dice, tally):
    """The lines of drawn events, with the state after each."""
    cells, grants = PlainCells(), []
    yield '%s -> %s' % (reshape_call(SHAPES[0], ()), cells.reshape(SHAPES[0], ()))
    for _ in range(EVENTS):
        line, answer = event(dice, cells, grants)
        tally[line.split()[0], answer.split('(')[0]] += 1
        yield '%s -> %s' % (line, answer)
        yield 'state -> %s' % cells.state()


def main():
    """Prints the histories."""
    dice, tally = random.Random(1), collections.Counter()
    print('Histories of drawn events, with the answers of a plain list of records (second_reading/reading/cells.py).')
    for number in range(1, HISTORIES + 1):
        print('\ncase drawn history %d' % number)
        print('\n'.join(history(dice, tally)))
    assert len(tally) == 13 and min(tally.values()) >= 10, tally


if __name__ == '__main__':
    main()
