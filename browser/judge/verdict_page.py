"""One page of a verdict: the question, the verdict, three pictures, what differs, the document, and what decides."""
import html
import pathlib
import re

FOLDER = pathlib.Path(__file__).resolve().parent
NAMES = {'lay': 'CSS 2.2, by lay', 'chromium': 'Chromium', 'firefox': 'Firefox'}
MARGIN = 24
FLATTEST = 0.3
PRESERVED = ('pre', 'pre-wrap', 'pre-line')


def px(units):
    return '%g' % (units / 64)


def differing(verdict):
    return {key for told in verdict['agree'].values() for key, same in told.items() if not same}


def frame_of(verdict, keys):
    """The part of the page round these pieces, in px, and not flatter than FLATTEST."""
    rects = [r for side in verdict['sides'].values() for key, rs in side.items() if key in keys for r in rs]
    low = [min(r[axis] for r in rects) / 64 - MARGIN for axis in (0, 1)]
    high = [max(r[axis] + r[axis + 2] for r in rects) / 64 + MARGIN for axis in (0, 1)]
    width, height = high[0] - low[0], high[1] - low[1]
    more = max(0, width * FLATTEST - height)
    return low[0], low[1] - more / 2, width, height + more


def lines_of(text, rects):
    """The words of a text, shared out to its rectangles by their widths."""
    words, whole, lines = text.split(), sum(rect[2] for rect in rects), []
    length = len(' '.join(words))
    for rect in rects:
        line, room = [], length * rect[2] / whole if whole else 0
        while words and (rect is rects[-1] or len(' '.join(line + words[:1])) - len(words[0]) / 2 < room):
            line.append(words.pop(0))
        lines.append(' '.join(line))
    return lines


def glyphs(line, rect):
    """The characters of a line of a text, in its rectangle."""
    x, y, width, height = (units / 64 for units in rect)
    if not line or not width:
        return ''
    return '<text x="%g" y="%g" font-size="%g" textLength="%g" lengthAdjust="spacingAndGlyphs">%s</text>' % (
        x, y + height * 0.78, height * 0.8, width, html.escape(line))


def pieces_of(side, nodes):
    """Each piece of a side, with the characters that stand in it."""
    for key, rects in side.items():
        if key[1] in nodes:
            lines = lines_of(nodes[key[1]]['text'], rects) if key[0] == 'text' else [''] * len(rects)
            yield from ((key, rect, line) for rect, line in zip(rects, lines))


def piece(key, rect, css, line, unit):
    x, y, width, height = (units / 64 for units in rect)
    title = '%s %d: x %g, y %g, %g × %g px' % (*key, x, y, width, height)
    parts = ['<g class="%s" data-n="%s%d"><title>%s</title>' % (css, key[0], key[1], title),
             '<rect x="%g" y="%g" width="%g" height="%g"/>' % (x, y, max(width, unit / 4), max(height, unit / 4))]
    if key[0] == 'text':
        parts.append(glyphs(line, rect))
    return ''.join(parts) + '</g>'


def numbers(boxes, unit):
    """The numbers of boxes, given as (css, number, rectangle): at the corner of each, or behind those that are in the way there."""
    parts, taken = [], []
    for css, number, rect in boxes:
        left, top, width, height = rect[0] / 64, rect[1] / 64, unit * (0.8 + 1.5 * len(str(number))), unit * 2.8
        for other in sorted(taken):
            if left < other[2] and other[0] < left + width and top < other[3] and other[1] < top + height:
                left = other[2]
        taken.append((left, top, left + width, top + height))
        parts.append('<g class="%s"><text class="n" x="%g" y="%g" font-size="%g" stroke-width="%g">%d</text></g>' % (
            css, left + unit / 2, top + unit * 2.4, unit * 2.4, unit / 2, number))
    return ''.join(parts)


def picture(name, verdict, run, bad, rule):
    """The pieces of a side. What differs is marked, and boxes that differ or that the rule names have their numbers."""
    x, y, width, height = rule.get('frame') or frame_of(verdict, bad)
    nodes = {node['id']: node for node in run['nodes']}
    unit = width / 64
    parts = ['<svg viewBox="%g %g %g %g" role="img" aria-label="%s">' % (x, y, width, height, NAMES[name])]
    numbered = {}
    for key, rect, line in sorted(pieces_of(verdict['sides'][name], nodes), key=lambda piece: piece[0] in bad):
        said = ' bad' if key in bad else ' named' if key[1] in rule['show'] else ''
        parts.append(piece(key, rect, ('text' if key[0] == 'text' else verdict['kinds'].get(key[1], '')) + said, line, unit))
        if said and key[0] != 'text':
            numbered.setdefault((key[1], rect[0], rect[1]), (said.strip(), key[1], rect))
    return ''.join(parts) + numbers(numbered.values(), unit) + '</svg>'


def figure(name, verdict, run, bad, rule):
    told = verdict['agree'].get(name, {})
    good = all(told.values())
    judge = 'one reading' if rule['verdict'] == 'open' else 'the judge'
    mark = judge if name == 'lay' else '%d of %d as lay' % (sum(told.values()), len(told))
    return '<figure class="%s"><figcaption>%s <small>%s</small></figcaption>%s</figure>' % (
        'ok' if good else 'no', NAMES[name], mark, picture(name, verdict, run, bad, rule))


def cell(rects):
    return '<br>'.join('%s, %s &nbsp; %s × %s' % tuple(map(px, rect)) for rect in rects) or '–'


def row(key, verdict):
    cells = ['<td>%s</td>' % cell(verdict['sides']['lay'].get(key, []))]
    for name in ('chromium', 'firefox'):
        same = verdict['agree'][name].get(key, True)
        cells.append('<td class="%s">%s</td>' % ('ok' if same else 'no', cell(verdict['sides'][name].get(key, []))))
    return '<tr data-n="%s%d"><th>%s %d</th>%s</tr>' % (key[0], key[1], *key, ''.join(cells))


def spaces_of(run):
    """The `white-space` of each node."""
    spaces = {0: 'normal'}
    for node in run['nodes']:
        value = node.get('style', {}).get('white-space', 'inherit').strip().lower()
        spaces[node['id']] = spaces[node['parent']] if value == 'inherit' else value
    return spaces


def characters(text, space):
    """A text to read: what collapses is one space, and linefeeds that are preserved are written."""
    if space in PRESERVED:
        return text.replace('\\', '\\\\').replace('\n', '\\n').replace('\t', '\\t')
    return re.sub(r'[ \t\r\n\f]+', ' ', text)


def described(node, space):
    if node['kind'] == 'text':
        return '<span>“%s”</span>' % html.escape(characters(node['text'], space))
    style = '; '.join('%s: %s' % item for item in node.get('style', {}).items())
    return html.escape(('replaced %d × %d ' % tuple(node['natural']) if 'natural' in node else '') + '{ ' + style + ' }')


def tree(run, bad, spaces, parent=0, depth=0):
    """The document, with the pieces that differ marked, and without texts of which at most a space is left."""
    lines = []
    for node in run['nodes']:
        space = spaces[node['id']]
        if node['parent'] != parent or node['kind'] == 'text' and space not in PRESERVED and not node['text'].strip():
            continue
        kind = 'text' if node['kind'] == 'text' else 'box'
        css = ' class="bad"' if (kind, node['id']) in bad else ''
        lines.append('<div style="padding-left:%dch"%s data-n="%s%d"><b>%d</b> %s</div>' % (
            2 * depth, css, kind, node['id'], node['id'], described(node, space)))
        lines.append(tree(run, bad, spaces, node['id'], depth + 1))
    return ''.join(lines)


def reasons(rule):
    """What decides: the sentence of the standard, the steps, the definitions, and whether a choice takes part."""
    definitions = ', '.join('<code>%s</code>' % html.escape(name) for name in rule['definitions'])
    parts = ['<p>CSS 2.2, %s:</p><blockquote>%s</blockquote>' % (rule['section'], html.escape(rule['sentence']))]
    parts += ['<p>%s</p>' % html.escape(text) for text in rule['reason']]
    parts.append('<p>Defined in %s.</p>' % definitions)
    if rule['choice']:
        choice = 'The standard leaves this open; the choice of lay stands in docs/DECISIONS.md: “%s”' % rule['choice'].rstrip(',')
    else:
        choice = 'No choice of this project takes part: the text of the standard decides.'
    return ''.join(parts) + '<p>%s</p>' % html.escape(choice)


def page(rule, name, run, verdict):
    """The page of a document under a rule."""
    bad = differing(verdict)
    fields = {
        'title': html.escape(rule['question']), 'name': html.escape(name), 'width': run['viewport'][0], 'height': run['viewport'][1],
        'kind': rule['verdict'], 'verdict': html.escape(rule['answer']), 'reasons': reasons(rule), 'tree': tree(run, bad, spaces_of(run)),
        'figures': ''.join(figure(side, verdict, run, bad, rule) for side in ('lay', 'chromium', 'firefox')),
        'rows': ''.join(row(key, verdict) for key in sorted(bad, key=lambda key: (key[1], key[0]))),
        'file': html.escape(name.split('/')[-1]), 'style': (FOLDER / 'page.css').read_text(),
    }
    return (FOLDER / 'page.html').read_text().format(**fields)
