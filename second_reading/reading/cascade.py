"""What a style sheet makes of a run document (CSS 2.2, chapters 4 to 6): the run without its sheet, each node with what it declares then.

`styled(run)` is that run, and `selector_count(text)` says how many selectors a sheet has.
"""
import re

from reading.declarations import WHITE_SPACE, declaration_fault, lowered

MOST_SELECTORS = 4096
# what isn't seen: comments, strings, and what a backslash takes with it
UNSEEN = re.compile(r'''/\*.*?(?:\*/|\Z)|(["'])(?:\\.|(?!\1)[^\\\n])*(?:\1|\n|\\?\Z)|\\.|\\\Z''', re.S)
NAME = '-?[A-Za-z_\u0080-\U0010ffff][-A-Za-z0-9_\u0080-\U0010ffff]*'
COMPOUND = re.compile(r'(?=.)(%s|\*)?((?:[.#]%s)*)' % (NAME, NAME), re.S)
JOINT = re.compile('[%s]*([>+])[%s]*|[%s]+' % (WHITE_SPACE, WHITE_SPACE, WHITE_SPACE))


def seen(text):
    """The text without what nothing in it can end at: a comment as a space, a string as its mark, an escape as a backslash."""
    def of_match(match):
        return {'/': ' ', '\\': '\\'}.get(match.group()[0], match.group()[0])
    return UNSEEN.sub(of_match, text)


def end_of_block(text, start):
    """Where the block ends that the brace before `start` opens, and where what stands behind it begins."""
    depth = 1
    for at in range(start, len(text)):
        depth += {'{': 1, '}': -1}.get(text[at], 0)
        if depth == 0:
            return at, at + 1
    return len(text), len(text)


def statements(text):
    """The preludes and blocks of the rule sets that a text has; others, as those that begin with `@`, are left out."""
    text, found = text.lstrip(WHITE_SPACE), []
    while text:
        opened = text.find('{')
        if text[0] == '@':
            closed = text.find(';')
            if closed >= 0 and (opened < 0 or closed < opened):
                end = closed + 1
            else:
                end = end_of_block(text, opened + 1)[1] if opened >= 0 else len(text)
        elif opened < 0:
            end = len(text)
        else:
            last, end = end_of_block(text, opened + 1)
            found.append((text[:opened], text[opened + 1:last]))
        text = text[end:].lstrip(WHITE_SPACE)
    return found


def compound_at(text, at):
    """What one compound asks for, and where it ends; None where none stands there."""
    match = COMPOUND.match(text, at)
    if not match or match.end() == at:
        return None
    marks = re.findall('[.#]%s' % NAME, match.group(2))
    return ((match.group(1), [mark[1:] for mark in marks if mark[0] == '.'], [mark[1:] for mark in marks if mark[0] == '#']),
            match.end())


def selector_of(text):
    """The compounds of a selector, each with the joint before it, or None."""
    text, at, joint, compounds = text.strip(WHITE_SPACE), 0, None, []
    while True:
        found = compound_at(text, at)
        if not found:
            return None
        compounds.append((joint, found[0]))
        if found[1] == len(text):
            return compounds
        match = JOINT.match(text, found[1])
        if not match:
            return None
        joint, at = match.group(1) or ' ', match.end()


def parts_of(block):
    """The parts of a block, between semicolons that stand in no braces."""
    depth, parts = 0, ['']
    for letter in block:
        depth += {'{': 1, '}': -1}.get(letter, 0)
        if letter == ';' and depth == 0:
            parts.append('')
        else:
            parts[-1] += letter
    return parts


def declaration_of(part):
    """The property, the text of the value and whether it is important, or None."""
    name, colon, value = part.partition(':')
    name, value = lowered(name.strip(WHITE_SPACE)), value.strip(WHITE_SPACE)
    if not colon or '{' in part or '}' in part:
        return None
    match = re.search('![%s]*important$' % WHITE_SPACE, lowered(value))
    if match:
        value = value[:match.start()]
    return None if declaration_fault(name, value) else (name, value, match is not None)


def rule_sets(text):
    """The rule sets of a sheet: selectors, and declarations."""
    rules = []
    for prelude, block in statements(seen(text)):
        selectors = [selector_of(part) for part in prelude.split(',')]
        if None not in selectors:
            rules.append((selectors, list(filter(None, map(declaration_of, parts_of(block))))))
    return rules


def selector_count(text):
    return sum(len(selectors) for selectors, _ in rule_sets(text))


class Element:
    """A node with what it is called, its parent, and the nearest sibling before it that isn't a text."""

    def __init__(self, fields, parent):
        self.fields, self.parent, self.last, self.before = fields, parent, None, None
        self.is_text = fields['kind'] == 'text'
        if parent:
            self.before = parent.last
            if not self.is_text:
                parent.last = self
        called = {} if self.is_text else fields
        self.tag, self.label, self.classes = called.get('tag', ''), called.get('label', ''), set(called.get('classes', []))

    def fits(self, compound):
        tag, classes, labels = compound
        return tag in (None, '*', self.tag) and self.classes.issuperset(classes) and all(self.label == one for one in labels)


def matches(element, compounds):
    """Whether the last compound fits the element, and those before it fit such that stand to it as the joints say."""
    (joint, compound), before = compounds[-1], compounds[:-1]
    if not element.fits(compound):
        return False
    if not before:
        return True
    if joint == '+':
        return element.before is not None and matches(element.before, before)
    above = element.parent
    while above:
        if matches(above, before):
            return True
        above = above.parent if joint == ' ' else None
    return False


def specificity(compounds):
    return (sum(len(compound[2]) for _, compound in compounds), sum(len(compound[1]) for _, compound in compounds),
            sum(compound[0] not in (None, '*') for _, compound in compounds))


def declared(element, rules):
    """What an element declares in the end: for each property the candidate with the greatest key."""
    found = [(name, ((False, True), (0, 0, 0), -1), value) for name, value in element.fields.get('style', {}).items()]
    for place, (selectors, declarations) in enumerate(rules):
        keys = [specificity(selector) for selector in selectors if matches(element, selector)]
        if keys:
            found += [(name, ((important, False), max(keys), (place, at)), value)
                      for at, (name, value, important) in enumerate(declarations)]
    winners = {}
    for name, key, value in found:
        if name not in winners or winners[name][0] < key:
            winners[name] = (key, value)
    return {name: value for name, (_, value) in winners.items()}


def styled(run):
    """The run without a sheet, whose nodes declare by themselves what they do with it."""
    if 'sheet' not in run:
        return run
    rules, elements, nodes = rule_sets(run['sheet']), {}, []
    for fields in run['nodes']:
        element = elements[fields['id']] = Element(fields, elements.get(fields['parent']))
        plain = {name: value for name, value in fields.items() if name not in ('tag', 'label', 'classes')}
        nodes.append(plain if element.is_text else dict(plain, style=declared(element, rules)))
    return dict({name: value for name, value in run.items() if name != 'sheet'}, nodes=nodes)
