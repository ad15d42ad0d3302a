"""The nodes, the commands and the other fields of a document: their faults, and what is ignored."""
from .sheets import MOST_SELECTORS, Sheet
from .text import Number, Value
from .values import near

MOST_ID, MOST_SIDE, MOST_SPAN, MOST_MEASURE, MOST_CODE_POINT = 2 ** 32 - 1, 1000000, 64, 10000, 1114111
MOST_NODES, MOST_DEPTH, MOST_TEXT, MOST_TEXTS = 65536, 128, 65536, 1048576
MOST_EDITORS, MOST_COMMANDS, MOST_READS, MOST_PAIRS, MOST_EDITS = 16, 8192, 256, 65536, 1024
MEASURES = ('default', 'ascent', 'descent', 'xheight', 'normal')
NAMES = ('tag', 'label', 'classes')
READS, EDITS = ('latest', 'sync'), ('set', 'clear', 'text', 'insert', 'remove')
FIELDS = {
    'document': ('viewport', 'face', 'sheet', 'nodes', 'editors'), 'face': ('advance', *MEASURES), 'element': ('id', 'parent', 'kind',
        'style', 'colspan', 'rowspan'),
    'text': ('id', 'parent', 'kind', 'text'), 'replaced': ('id', 'parent', 'kind', 'natural', 'style'),
    'set': ('do', 'node', 'property', 'value'), 'clear': ('do', 'node', 'property'), 'text command': ('do', 'node',
        'text'), 'remove': ('do', 'node'),
    'insert': ('do', 'index', 'id', 'parent', 'kind', 'style', 'colspan', 'rowspan', 'text', 'natural'), 'batch': ('do',
        'edits'), 'latest': ('do',), 'sync': ('do',),
}
# Members that are nobody's mistake: the schema, and the text as a page had it.
NOTES = ('$schema', 'as')
# What HTML calls what has another name here.
CALLED = {'class': 'classes', 'className': 'classes', 'name': 'tag', 'css': 'style', 'content': 'text', 'value': 'text', 'src': 'natural',
    'font': 'face'}
KINDS = (Value, 'an object'), (list, 'a list'), (str, 'a text'), (Number, 'a number')


def kind_of(value):
    """A value's type in words."""
    if value is None or isinstance(value, bool):
        return {None: 'null', True: 'true', False: 'false'}[value]
    return next(words for kind, words in KINDS if isinstance(value, kind))


def in_words(kind):
    return next(words for one, words in KINDS if one is kind)


def counted(number):
    return format(number, ',')


class Tree:
    """The nodes that were read: their kinds, depths and bytes of text."""

    def __init__(self, nodes):
        self.kinds, self.depths, self.bytes = {}, {}, 0
        self.places = {}
        for place, node in enumerate(nodes):
            ident = node.get('id') if isinstance(node, dict) else None
            if isinstance(ident, Number) and ident.whole is not None:
                self.places.setdefault(ident.whole, place)

    def faults(self, place, ident, parent, kind, length):
        """Why a node can't stand where it does."""
        if place == 0:
            if parent:
                yield 'the first node is the root, whose parent is 0'
            if kind != 'element':
                yield 'the first node is the root, an element'
        elif parent not in self.kinds:
            behind = self.places.get(parent)
            yield 'no node before it has the id of its parent, %s%s' % (parent, ': it stands behind its child, at place %d' % behind
                if behind is not None else '')
        elif self.kinds[parent] != 'element':
            yield 'its parent, id %d, is a %s, and only elements have children' % (parent,
                {'text': 'text'}.get(self.kinds[parent], 'replaced element'))
        elif self.depths[parent] >= MOST_DEPTH:
            yield 'it is deeper than %d levels' % MOST_DEPTH
        if ident in self.kinds:
            yield 'an earlier node has this id'
        if len(self.kinds) >= MOST_NODES:
            yield 'there are more than %s nodes' % counted(MOST_NODES)
        if length > MOST_TEXT:
            yield 'a text of %s bytes, and at most %s can be' % (counted(length), counted(MOST_TEXT))
        elif self.bytes + length > MOST_TEXTS:
            yield 'all texts up to here have more than %s bytes' % counted(MOST_TEXTS)

    def add(self, ident, parent, kind, length):
        self.kinds.setdefault(ident, kind)
        self.depths.setdefault(ident, self.depths.get(parent, 0) + 1)
        self.bytes += length


class Document:
    """The faults and the warnings of a document, each a line, in the order in which they were found."""

    def __init__(self, values):
        self.values, self.faults, self.warnings, self.unread, self.has_sheet = values, [], [], {}, False

    # -- fields

    def fault(self, where, words):
        self.faults.append('%s: %s' % (where, words))

    def field(self, fields, name, kind, where, needed=True):
        """A field of a kind, or None; what is wrong with it is noted."""
        if name not in fields:
            if needed:
                self.fault(where, 'the field `%s` is missing' % name)
            return None
        if not isinstance(fields[name], kind):
            self.fault(where, '`%s` is %s, and has to be %s' % (name, kind_of(fields[name]), in_words(kind)))
            return None
        return fields[name]

    def whole(self, value, low, high, name, where):
        """A whole number of a range, or None."""
        if value.whole is not None and low <= value.whole <= high:
            return value.whole
        if value.whole is None:
            self.fault(where, '`%s` is %s: a whole number is written with digits alone' % (name, value.text[:40]))
        else:
            self.fault(where, '`%s` is %s, and has to be from %s to %s' % (name, value.text, counted(low), counted(high)))
        return None

    def number(self, fields, low, high, name, where, needed=True):
        value = self.field(fields, name, Number, where, needed)
        return None if value is None else self.whole(value, low, high, name, where)

    def sides(self, fields, name, where):
        value = self.field(fields, name, list, where)
        if value is None:
            return
        if len(value) != 2 or not all(isinstance(side, Number) for side in value):
            self.fault(where, '`%s` is the width and the height: a list of two numbers' % name)
            return
        for side in value:
            self.whole(side, 1, MOST_SIDE, name, where)

    def members(self, fields, known, where, what):
        """Notes members that aren't read: once a name, with how many there are."""
        for name in fields:
            if name in known or name in NOTES:
                continue
            self.unread.setdefault((what, name), [where, 0, known])[1] += 1
        for name in getattr(fields, 'twice', ()):
            self.warnings.append('%s: `%s` stands there twice, and the last one counts' % (where, name))

    def say_unread(self):
        for (what, name), (where, count, known) in self.unread.items():
            called = CALLED.get(name)
            meant = called if called in known else near(name, known)
            if name in NAMES and not self.has_sheet:
                hint = '; the document has no `sheet`'
            elif what == 'text' and name == 'style':
                hint = ': a text has no style, put it on its parent'
            elif name == 'children':
                hint = ': children are nodes of the list, each with its `parent`'
            else:
                hint = '; did you mean `%s`?' % meant if meant else ''
            more = ' (and %d more)' % (count - 1) if count > 1 else ''
            self.warnings.append('%s: `%s` isn\'t read%s%s' % (where, name, more, hint))

    # -- styles

    def style(self, style, where, faults):
        """The declarations of a node; a value that is no text is a fault, and `faults` is where others are noted."""
        for name, value in style.items():
            fault = self.values.fault(name, value)
            if fault:
                (faults if isinstance(value, str) else self.faults).append('%s: %s' % (where, fault))
            elif self.values.warning(name, value):
                self.warnings.append('%s: %s' % (where, self.values.warning(name, value)))
            if fault and not isinstance(value, str) and name not in self.values.patterns:
                self.fault(where, 'the value of `%s` is no text' % name)
        for name in style:
            if name.startswith('border-') and name.endswith('-width') and name.replace('-width',
                '-style') not in style and not self.has_sheet:
                self.warnings.append('%s: `%s` has no effect without `%s`' % (where, name, name.replace('-width', '-style')))

    def node_form(self, fields, where, faults):
        """The id, the parent and the kind of a node, as far as they are right; its other fields are judged, and `faults` is where wrong
        declarations are noted."""
        ident = self.number(fields, 1, MOST_ID, 'id', where)
        parent = self.number(fields, 0, MOST_ID, 'parent', where)
        kind = self.field(fields, 'kind', str, where)
        if kind not in ('element', 'text', 'replaced'):
            if kind is not None:
                meant = near(kind, ('element', 'text', 'replaced'))
                self.fault(where, 'there is no kind "%s": element, text or replaced%s' % (kind[:30], '; did you mean "%s"?' % meant if meant
                    else ''))
            return ident, parent, None
        if kind == 'text':
            self.field(fields, 'text', str, where)
        elif kind == 'replaced':
            self.sides(fields, 'natural', where)
        else:
            for name in ('colspan', 'rowspan'):
                self.number(fields, 1, MOST_SPAN, name, where, needed=False)
        style = None if kind == 'text' else self.field(fields, 'style', Value, where, needed=False)
        if style is not None:
            self.style(style, where, faults)
        return ident, parent, kind

    def names(self, fields, where):
        """What a node is called, for the sheet."""
        for name in ('tag', 'label'):
            self.field(fields, name, str, where, needed=False)
        classes = self.field(fields, 'classes', list, where, needed=False)
        if classes and not all(isinstance(one, str) for one in classes):
            self.fault(where, '`classes` is a list of texts')

    def node(self, fields, place, tree):
        where = 'node at place %d' % place
        if not isinstance(fields, Value):
            self.fault(where, 'it is %s, and has to be an object' % kind_of(fields))
            return
        if isinstance(fields.get('id'), Number):
            where += ', id %s' % fields['id'].text
        ident, parent, kind = self.node_form(fields, where, self.faults)
        if kind is None:
            return
        known = FIELDS[kind] + (NAMES if self.has_sheet and kind != 'text' else ())
        self.members(fields, known, where, kind)
        if self.has_sheet and kind != 'text':
            self.names(fields, where)
        text = fields.get('text') if kind == 'text' else None
        length = len(text.encode()) if isinstance(text, str) else 0
        if ident is not None and parent is not None:
            self.faults += ['%s: %s' % (where, fault) for fault in tree.faults(place, ident, parent, kind, length)]
        if ident is not None:
            tree.add(ident, parent, kind, length)

    # -- commands

    def command(self, command, where, actions, tree, inserted):
        """What a command does, or None; what its edit will be refused for is a warning."""
        if not isinstance(command, Value):
            self.fault(where, 'a command is an object, and this is %s' % kind_of(command))
            return None
        action = self.field(command, 'do', str, where)
        if action not in actions:
            if action is not None:
                meant = near(action, actions)
                self.fault(where, 'there is no "do": "%s" here: %s%s' % (action[:30], ', '.join(actions), '; did you mean "%s"?' % meant
                    if meant else ''))
            return None
        self.members(command, FIELDS['text command' if action == 'text' else action], where, 'command ' + action)
        if action == 'batch':
            self.batch(command, where, tree, inserted)
        elif action == 'insert':
            self.insert(command, where, tree, inserted)
        elif action not in READS:
            self.edit(command, where, action, tree, inserted)
        return action

    def batch(self, command, where, tree, inserted):
        edits = self.field(command, 'edits', list, where)
        if edits is None:
            return
        if not 1 <= len(edits) <= MOST_EDITS:
            self.fault(where, 'a batch has 1 to %s edits, and this one %d' % (counted(MOST_EDITS), len(edits)))
        for place, edit in enumerate(edits):
            self.command(edit, '%s, edit %d' % (where, place), EDITS, tree, inserted)

    def insert(self, command, where, tree, inserted):
        self.number(command, 0, MOST_ID, 'index', where)
        ident, _, _ = self.node_form(command, where, self.warnings)
        if ident is not None:
            inserted.add(ident)

    def edit(self, command, where, action, tree, inserted):
        node = self.number(command, 0, MOST_ID, 'node', where)
        names = {'set': ('property', 'value'), 'clear': ('property',), 'text': ('text',), 'remove': ()}[action]
        given = [self.field(command, name, str, where) for name in names]
        if node is not None and node not in tree.kinds and node not in inserted:
            self.warnings.append('%s: no node has the id %d: the edit will be refused with E1' % (where, node))
        if action in ('set', 'clear') and given[0] is not None:
            fault = self.values.fault(given[0], given[1] if action == 'set' and given[1] is not None else 'inherit')
            if fault:
                self.warnings.append('%s: the edit will be refused: %s' % (where, fault))

    def editors(self, editors, tree):
        if len(editors) > MOST_EDITORS:
            self.fault('`editors`', 'there are %d, and at most %d can be' % (len(editors), MOST_EDITORS))
        count = reads = 0
        inserted = set()
        for editor, commands in enumerate(editors, 1):
            if not isinstance(commands, list):
                self.fault('editor %d' % editor, 'it is %s, and has to be a list of commands' % kind_of(commands))
                continue
            for place, command in enumerate(commands):
                action = self.command(command, 'command %d of editor %d' % (place, editor), (*EDITS, 'batch', *READS), tree, inserted)
                count, reads = count + 1, reads + (action in READS)
        if count > MOST_COMMANDS:
            self.fault('`editors`', 'there are %s commands, and at most %s can be' % (counted(count), counted(MOST_COMMANDS)))
        if reads > MOST_READS:
            self.fault('`editors`', '%d commands read, and at most %d can' % (reads, MOST_READS))

    # -- the rest

    def face(self, face):
        self.members(face, FIELDS['face'], '`face`', 'face')
        pairs = self.field(face, 'advance', list, '`face`', needed=False) or []
        if len(pairs) > MOST_PAIRS:
            self.fault('`face`', '`advance` has %s pairs, and at most %s can be' % (counted(len(pairs)), counted(MOST_PAIRS)))
        for place, pair in enumerate(pairs):
            where = '`advance`, pair %d' % place
            if not isinstance(pair, list) or len(pair) != 2 or not all(isinstance(part, Number) for part in pair):
                self.fault(where, 'a pair is a code point and a width: two numbers')
                continue
            self.whole(pair[0], 0, MOST_CODE_POINT, 'the code point', where)
            self.whole(pair[1], 0, MOST_MEASURE, 'the width', where)
        for name in MEASURES:
            self.number(face, 0, MOST_MEASURE, name, '`face`', needed=False)

    def sheet(self, text):
        sheet = Sheet(text, self.values)
        if sheet.selectors > MOST_SELECTORS:
            self.fault('the sheet', 'it has %s selectors, and at most %s can be' % (counted(sheet.selectors), counted(MOST_SELECTORS)))
        self.warnings += ['the sheet, line %d: %s' % one for one in sheet.ignored]

    def run(self, run, where='the document'):
        """Judges a run document."""
        if not isinstance(run, Value):
            self.fault(where, 'it is %s, and has to be an object' % kind_of(run))
            return
        self.members(run, FIELDS['document'], where, 'document')
        self.sides(run, 'viewport', where)
        face = self.field(run, 'face', Value, where, needed=False)
        if face is not None:
            self.face(face)
        self.has_sheet = isinstance(run.get('sheet'), str)
        nodes = self.field(run, 'nodes', list, where)
        if nodes is not None and not nodes:
            self.fault(where, '`nodes` is empty: the first node is the root')
        tree = Tree(nodes or [])
        for place, node in enumerate(nodes or []):
            self.node(node, place, tree)
        editors = self.field(run, 'editors', list, where, needed=False)
        if editors is not None:
            self.editors(editors, tree)
        if self.field(run, 'sheet', str, where, needed=False) is not None:
            self.sheet(run['sheet'])
        self.say_unread()

    def check(self, check):
        """Judges what `lay check` reads."""
        if not isinstance(check, Value):
            self.fault('the check', 'it is %s, and has to be an object' % kind_of(check))
            return
        self.field(check, 'report', str, 'the check')
        if 'run' not in check:
            self.fault('the check', 'the field `run` is missing')
        else:
            self.run(check['run'], 'the run document')
