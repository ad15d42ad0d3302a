"""The picture of a report once more, apart from the crates: reads a report and writes what `lay_picture` answers to it.

usage, in the folder second_reading: python3 -m reading.pictures [VERSION | VERSION VERSION | KIND NODE PART] < REPORT

A line is one of the forms of `docs/REPORT.md`, told by regular expressions; lengths in px are exact decimal fractions. Of two versions
the differences are drawn; the piece of a name is marked.
"""
import re
import sys
from decimal import Decimal, getcontext

NUMBER = r'(0|[1-9][0-9]*)'
SIGNED = r'(0|-?[1-9][0-9]*)'
ENTRY = re.compile(r'publish {0}|edit {0} {0} (?:accepted {0}|refused E(?:[1-9]|10|11)|nomemory)|(?:latest|sync) {0} {0} nomemory'.format(NUMBER))
READ = re.compile(r'(?:latest|sync) {0} {0} {0}'.format(NUMBER))
FINAL = re.compile(r'final {0}'.format(NUMBER))
LAID = re.compile(r'laid {0}'.format(NUMBER))
PIECE = re.compile(r'(box|line|text) {0} {0} {1} {1} {1} {1}'.format(NUMBER, SIGNED))
KINDS = ('box', 'line', 'text')
STYLE = """<style>
.lay { background: #fff; color: #1d4ed8 }
.lay rect { fill: none; stroke: currentColor }
.lay .line { color: #b45309; stroke-dasharray: 4 2 }
.lay .text { color: #15803d; fill: currentColor; fill-opacity: 0.4; stroke-width: 0.5 }
.lay .label { fill: currentColor }
.lay .same { color: #6b7280 }
.lay .moved { color: #b45309 }
.lay .resized { color: #7e22ce }
.lay .new { color: #15803d }
.lay .gone { color: #b91c1c }
.lay .former { color: #b45309; fill-opacity: 0.1; stroke-dasharray: 1 2 }
.lay rect.hit { color: #be185d; fill: currentColor; fill-opacity: 0.25; stroke-width: 2 }
@media (prefers-color-scheme: dark) {
.lay { background: #0d1117; color: #79b8ff }
.lay .line { color: #f0883e }
.lay .text { color: #3fb950 }
.lay .same { color: #8b949e }
.lay .moved, .lay .former { color: #f0883e }
.lay .resized { color: #c084fc }
.lay .new { color: #3fb950 }
.lay .gone { color: #ff7b72 }
.lay rect.hit { color: #f472b6 }
}
</style>
"""


def fits(line):
    """Whether the numbers of a line are in their ranges."""
    words = line.split(' ')
    if words[0] in KINDS:
        return all(int(w) < 2 ** 32 for w in words[1:3]) and all(abs(int(w)) < 2 ** 62 for w in words[3:])
    if words[0] in ('edit', 'latest', 'sync') and not all(int(w) < 2 ** 32 for w in words[1:3]):
        return False
    return all(int(w) < 2 ** 64 for w in words[1:] if w.isdigit())


def trees(lines):
    """The trees of a report, as (version, is the last one, pieces), or the number of its first bad line."""
    found, place = [], 'history'
    for number, line in enumerate(lines, 1):
        if not fits(line) if re.fullmatch(r'[a-z]+( [-0-9a-zE]+)*', line) else True:
            return number
        if PIECE.fullmatch(line):
            if place not in ('tree', 'last'):
                return number
            kind, *numbers = PIECE.fullmatch(line).groups()
            found[-1][2].append((kind, *map(int, numbers)))
        elif LAID.fullmatch(line) and place == 'last':
            place = 'end'
        elif place in ('last', 'end'):
            return number
        elif READ.fullmatch(line) or FINAL.fullmatch(line):
            place = 'last' if line.startswith('final') else 'tree'
            found.append((int(line.split(' ')[-1]), place == 'last', []))
        elif ENTRY.fullmatch(line):
            place = 'history'
        else:
            return number
    return found if place in ('last', 'end') else len(lines) + 1


def px(units):
    """A length in px, exactly."""
    text = format(Decimal(units) / 64, 'f')
    return text.rstrip('0').rstrip('.') if '.' in text else text


def corner(piece):
    """The left, the top, the right and the bottom edge."""
    _, _, _, x, y, w, h = piece
    return min(x, x + w), min(y, y + h), max(x, x + w), max(y, y + h)


def shape(piece, said):
    (kind, node, part), (left, top, right, bottom) = piece[:3], corner(piece)
    return '<rect x="%s" y="%s" width="%s" height="%s" class="%s%s"><title>%s %d %d%s</title></rect>\n' % (
        px(left), px(top), px(right - left), px(bottom - top), kind, said, kind, node, part, said)


def overlap(a, b):
    return a[0] < b[2] and b[0] < a[2] and a[1] < b[3] and b[1] < a[3]


def labels(pieces):
    """The labels as (x of the corner, node, what is said of it, left, top, right, bottom)"""
    found = []
    for piece, said in pieces:
        if piece[0] != 'box':
            continue
        x, top, right, bottom = corner(piece)
        width, left = 64 * (6 * len(str(piece[1])) + 6), x
        for label in found:
            if overlap((left, top, left + width, top + 64 * 13), label[3:]):
                left = label[5]
        place = (left, top, left + width, top + 64 * 13)
        if place[2] > right or place[3] > bottom or (x, top, piece[1]) in [(label[0], label[4], label[1]) for label in found]:
            continue
        if not any(overlap(place, label[3:]) for label in found):
            found.append((x, piece[1], said, *place))
    return found


def label_text(label):
    _, node, said, left, top, _, _ = label
    return '<text x="%s" y="%s" class="label%s">%d</text>\n' % (px(left + 3 * 64), px(top + 10 * 64), said, node)


def picture(pieces):
    edges = [corner(piece) for piece, _ in pieces] or [(0, 0, 0, 0)]
    left, top = min(e[0] for e in edges), min(e[1] for e in edges)
    width, height = px(max(e[2] for e in edges) - left + 128), px(max(e[3] for e in edges) - top + 128)
    view = '%s %s %s %s' % (px(left - 64), px(top - 64), width, height)
    return ('<svg xmlns="http://www.w3.org/2000/svg" class="lay" width="%s" height="%s" viewBox="%s" font-family="monospace" font-size="10" '
            'pointer-events="all">\n' % (width, height, view) + STYLE + ''.join(shape(*p) for p in pieces)
            + ''.join(map(label_text, labels(pieces))) + '</svg>\n')


def differences(before, after):
    """All pieces of the later tree, and those of the earlier one that it hasn't, each with what is said of it."""
    had, has = set(before), set(after)
    names, sizes = {p[:3] for p in before}, {p[:3] + p[5:] for p in before}
    names_after = {p[:3] for p in after}
    return [(p, ' same' if p in had else ' moved' if p[:3] + p[5:] in sizes else ' resized' if p[:3] in names else ' new') for p in after] + [
        (p, ' former' if p[:3] in names_after else ' gone') for p in before if p not in has]


def answer(report, versions, name=None):
    """What is written for the bytes of a report: versions has none, one, or two, of which the differences are drawn; the piece of this
    name is marked."""
    text = report.decode('latin-1')
    lines = text.split('\n')
    found = trees(lines[:-1])
    if isinstance(found, int) and found <= len(lines) - 1:
        return 'refused line %d\n' % found
    if lines[-1] or isinstance(found, int):
        return 'refused line %d\n' % len(lines)
    shown = []
    for version in versions or [None]:
        tree = next((t for number, is_last, t in found if (is_last if version is None else number == version)), None)
        if tree is None:
            return 'refused version %d\n' % version
        shown.append(tree)
    return picture(differences(*shown) if len(shown) == 2 else [(piece, ' hit' if piece[:3] == name else '') for piece in shown[0]])


def main():
    getcontext().prec = 60
    words = sys.argv[1:]
    name, numbers = (words[:1], words[1:]) if words[:1] and words[0] in KINDS else ([], words)
    if not all(number.isdecimal() for number in numbers):
        print(__doc__)
        sys.exit(0 if words == ['--help'] else 2)
    report = sys.stdin.buffer.read()
    numbers = [int(number) for number in numbers]
    sys.stdout.write(answer(report, [], (*name, *numbers)) if name else answer(report, numbers))


if __name__ == '__main__':
    main()
