"""The pieces of a report beside those that a browser told.

A side is {('box' | 'text', node): [[x, y, width, height] ..]}, in units of 1/64 px. Browsers tell no lines, no anonymous boxes and no
columns, so these aren't compared. Of an inline box and of a text pieces without width don't count: whether a browser tells them is a
matter of its own.
"""
TOLERANCE = 2


def of_report(text):
    """The pieces of the last tree of a report."""
    side = {}
    for line in text[text.index('\nfinal '):].split('\n'):
        fields = line.split(' ')
        if fields[0] in ('box', 'text'):
            node, part, *rect = map(int, fields[1:])
            side.setdefault((fields[0], node), []).append((part, rect))
    return {key: [rect for _, rect in sorted(parts)] for key, parts in side.items()}


def of_browser(told):
    """The pieces that a browser told; of a table its wrapper and its table box."""
    side = {('text', int(node)): rects for node, rects in told['texts'].items()}
    for node, rects in told['boxes'].items():
        table = told.get('tables', {}).get(node)
        side['box', int(node)] = rects[:1] + [table] if table else rects
    return side


def kind_of(node, displays):
    """What a node is for the comparison; displays has those of the nodes before it."""
    if node['kind'] == 'text':
        return 'text'
    style = {name: value.strip().lower() for name, value in node.get('style', {}).items()}
    display = style.get('display', 'inline')
    if display == 'inherit':
        display = displays.get(node['parent'], 'inline')
    displays[node['id']] = display
    is_out = style.get('position') in ('absolute', 'fixed') or style.get('float') in ('left', 'right') or node['parent'] == 0
    if node['kind'] == 'replaced' or display == 'none':
        return display if display == 'none' else 'block'
    if display in ('table', 'inline-table'):
        return 'table'
    if display in ('table-column', 'table-column-group') and not is_out:
        return 'column'
    return 'inline' if display == 'inline' and not is_out else 'block'


def kinds_of(run):
    displays = {}
    return {node['id']: kind_of(node, displays) for node in run['nodes']}


def counted(rects, kind):
    """The pieces that are compared."""
    if kind in ('inline', 'text'):
        return [rect for rect in rects if rect[2]]
    return rects[:2 if kind == 'table' else 1]


def is_near(one, other):
    return len(one) == len(other) and all(abs(a - b) <= TOLERANCE for r, s in zip(one, other) for a, b in zip(r, s))


def compared(kinds, lay, browser):
    """{key: whether the browser has it where lay has it}, for each node with a piece on either side."""
    answer = {}
    for key in sorted(set(lay) | set(browser), key=lambda key: (key[1], key[0])):
        kind = 'text' if key[0] == 'text' else kinds.get(key[1])
        if kind in (None, 'column', 'none'):
            continue
        ours, theirs = counted(lay.get(key, []), kind), counted(browser.get(key, []), kind)
        if kind == 'table' and len(theirs) == 1:
            ours = ours[:1]
        if ours or theirs:
            answer[key] = is_near(ours, theirs)
    return answer


def verdict(run, report, chromium, firefox):
    """How the two stand to the report: which pieces differ, and with whom the report agrees in all."""
    kinds, lay = kinds_of(run), of_report(report)
    sides = {'lay': lay, 'chromium': of_browser(chromium), 'firefox': of_browser(firefox)}
    agree = {name: compared(kinds, lay, sides[name]) for name in ('chromium', 'firefox')}
    whole = {name: all(agree[name].values()) for name in agree}
    word = ('both' if whole['firefox'] else 'chromium') if whole['chromium'] else 'firefox' if whole['firefox'] else 'neither'
    return {'whole': word, 'agree': agree, 'sides': sides, 'kinds': kinds}
