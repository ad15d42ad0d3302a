"""What of a style sheet is ignored, with its line; and how many selectors it has."""
import re

MOST_SELECTORS = 4096
WHITE_SPACE = ' \t\n\f\r'
UNSEEN = re.compile(r'''/\*.*?(?:\*/|\Z)|(["'])(?:\\.|(?!\1)[^\\\n])*(?:\1|\n|\\?\Z)|\\.|\\\Z''', re.S)
NAME = '-?[A-Za-z_\u0080-\U0010ffff][-A-Za-z0-9_\u0080-\U0010ffff]*'
COMPOUND = '(?:(?:%s|\\*)(?:[.#]%s)*|(?:[.#]%s)+)' % (NAME, NAME, NAME)
JOINT = '(?:[%s]*[>+][%s]*|[%s]+)' % (WHITE_SPACE, WHITE_SPACE, WHITE_SPACE)
SELECTOR = re.compile('%s(?:%s%s)*' % (COMPOUND, JOINT, COMPOUND))


def seen(text):
    """The text without what nothing in it can end at, as long as before: comments as spaces, strings and escapes as their marks."""
    def of_match(match):
        found = match.group()
        if found[0] == '/':
            return re.sub('[^\n]', ' ', found)
        return ''.join(letter if letter == '\n' and found[0] == '\\' else found[0] for letter in found)
    return UNSEEN.sub(of_match, text)


def end_of_block(text, start):
    depth = 1
    for at in range(start, len(text)):
        depth += {'{': 1, '}': -1}.get(text[at], 0)
        if depth == 0:
            return at, at + 1
    return len(text), len(text)


def statements(text):
    """(place, prelude, place of the block, block) of each rule set; the block of what is no rule set is None."""
    at, found = 0, []
    while True:
        while at < len(text) and text[at] in WHITE_SPACE:
            at += 1
        if at == len(text):
            return found
        opened = text.find('{', at)
        if text[at] == '@':
            closed = text.find(';', at)
            if closed >= 0 and (opened < 0 or closed < opened):
                end = closed + 1
            else:
                end = end_of_block(text, opened + 1)[1] if opened >= 0 else len(text)
            found.append((at, text[at:end], at, None))
        elif opened < 0:
            end = len(text)
            found.append((at, text[at:], at, None))
        else:
            last, end = end_of_block(text, opened + 1)
            found.append((at, text[at:opened], opened + 1, text[opened + 1:last]))
        at = end


def parts_of(block):
    """(place, text) of the parts of a block, between semicolons that stand in no braces."""
    depth, start, parts = 0, 0, []
    for at, letter in enumerate(block):
        depth += {'{': 1, '}': -1}.get(letter, 0)
        if letter == ';' and depth == 0:
            parts.append((start, block[start:at]))
            start = at + 1
    return parts + [(start, block[start:])]


def selector_words(selector):
    """Why a selector isn't read."""
    if not selector:
        return 'an empty selector'
    for mark, words in ((':', 'there are no pseudo-classes and pseudo-elements'), ('[', 'there are no attribute selectors'),
        ('~', 'there is no `~`')):
        if mark in selector:
            return '`%s`: %s' % (selector[:60], words)
    return '`%s` is no selector of tags, classes and labels' % selector[:60]


class Sheet:
    """A sheet: how many selectors are read, and what is ignored, as (line, words)."""

    def __init__(self, text, values):
        self.text, self.values, self.selectors, self.ignored = text, values, 0, []
        for place, prelude, start, block in statements(seen(text)):
            self.statement(place, prelude, start, block)

    def ignore(self, at, words):
        self.ignored.append((self.text.count('\n', 0, at) + 1, words))

    def statement(self, place, prelude, start, block):
        if block is None:
            what = 'a rule with `%s`' % prelude.split(None,
                1)[0][:30] if prelude.startswith('@') else 'what no braces follow, `%s`' % prelude[:30].strip()
            self.ignore(place, '%s is ignored' % what)
            return
        selectors = [part.strip(WHITE_SPACE) for part in prelude.split(',')]
        bad = [one for one in selectors if not SELECTOR.fullmatch(one)]
        if bad:
            self.ignore(place, 'the rule set is ignored as a whole: %s' % selector_words(bad[0]))
            return
        self.selectors += len(selectors)
        for at, part in parts_of(block):
            self.declaration(start + at, part)

    def declaration(self, at, part):
        at += len(part) - len(part.lstrip(WHITE_SPACE))
        name, colon, value = part.partition(':')
        name, value = name.strip(WHITE_SPACE).lower(), value.strip(WHITE_SPACE)
        if not part.strip(WHITE_SPACE):
            return
        value = re.sub('![%s]*important$' % WHITE_SPACE, '', value, flags=re.I)
        if not colon or '{' in part or '}' in part:
            self.ignore(at, 'no declaration, and ignored: `%s`' % part.strip()[:40])
            return
        fault = self.values.fault(name, value)
        if fault:
            self.ignore(at, 'a declaration is ignored: %s' % fault)
        elif self.values.warning(name, value):
            self.ignore(at, self.values.warning(name, value))
