"""Smaller documents that still show what a document shows."""
import copy
import json

from reading.nodes import read_nodes

PLAIN_WORDS = {'float': 'left', 'clear': 'left', 'overflow': 'hidden', '-style': 'solid'}
KEYWORDS = ('display', 'text-align', 'white-space', 'vertical-align', 'position', 'border-collapse',
            'caption-side', 'table-layout')                                 # without plainer values
PLAIN_VIEWPORT = [100, 80]
PLAIN_SIDES = [[20, 20], [20, 10], [10, 20]]


def without_node(run, place, keeps_children):
    """The document without a node and what is in it, or with its children given to its parent."""
    smaller = copy.deepcopy(run)
    gone = {smaller['nodes'][place]['id']}
    parent = smaller['nodes'][place]['parent']
    kept = []
    for node in smaller['nodes']:
        if node['id'] in gone:
            continue
        if node['parent'] in gone and not keeps_children:
            gone.add(node['id'])
            continue
        if node['parent'] in gone:
            node['parent'] = parent
        kept.append(node)
    smaller['nodes'] = kept
    return smaller


def with_declaration(run, place, name, text):
    """The document with another text for a property of a node, or with none."""
    other = copy.deepcopy(run)
    style = other['nodes'][place]['style']
    if text is None:
        del style[name]
    else:
        style[name] = text
    return other


def plainer_texts(name, text):
    """Plainer values of a property."""
    if name in KEYWORDS:
        return []
    for ending, word in PLAIN_WORDS.items():
        if name.endswith(ending):
            return [word] if text != word else []
    if text.startswith('-'):
        plainer = ['0', '-10px'] if name.startswith('margin') else ['0']
    else:
        plainer = ['0'] if text in ('10px', '20px') else ['0', '10px', '20px']
    return [plain for plain in plainer if text not in (plain, '0')]


def with_fewer_nodes(run):
    """Without a node and all in it, or without a node alone; the last ones first."""
    for keeps_children in (False, True):
        for place in range(len(run['nodes']) - 1, 0, -1):
            yield without_node(run, place, keeps_children)


def with_plainer_styles(run):
    """With a declaration less, or with a plainer value."""
    declarations = [(place, name, text)
                    for place, node in enumerate(run['nodes']) for name, text in node.get('style', {}).items()]
    for place, name, text in declarations:
        if name != 'display' or text == 'inline':
            yield with_declaration(run, place, name, None)
        elif text == 'list-item':
            yield with_declaration(run, place, name, 'block')
    for place, name, text in declarations:
        for plain in plainer_texts(name, text):
            yield with_declaration(run, place, name, plain)


def with_text(run, place, text):
    """The document with another text of a text node."""
    other = copy.deepcopy(run)
    other['nodes'][place]['text'] = text
    return other


def with_shorter_texts(run):
    """With half of a text, or with a character less, or with a plain character."""
    for place, node in enumerate(run['nodes']):
        text = node.get('text', '')
        half = len(text) // 2
        if half:
            yield with_text(run, place, text[:half])
            yield with_text(run, place, text[half:])
        for at in range(len(text)):
            yield with_text(run, place, text[:at] + text[at + 1:])
        for at, character in enumerate(text):
            if character not in 'a \n':
                yield with_text(run, place, text[:at] + 'a' + text[at + 1:])


def with_plainer_sides(run):
    """With plain natural sizes of a replaced element."""
    for place, node in enumerate(run['nodes']):
        for sides in PLAIN_SIDES:
            if node['kind'] == 'replaced' and node['natural'] not in PLAIN_SIDES[:PLAIN_SIDES.index(sides) + 1]:
                other = copy.deepcopy(run)
                other['nodes'][place]['natural'] = sides
                yield other


def with_span(run, place, name, span):
    """The document with another span of a cell or a column, or with none."""
    other = copy.deepcopy(run)
    other['nodes'][place][name] = span
    if span == 1:
        del other['nodes'][place][name]
    return other


def with_smaller_spans(run):
    """With a span of 1, or with one that is smaller by one."""
    for place, node in enumerate(run['nodes']):
        for name in ('colspan', 'rowspan'):
            for span in sorted({1, node.get(name, 1) - 1}):
                if 0 < span and name in node:
                    yield with_span(run, place, name, span)


def with_plainer_face(run):
    """With the usual face, or with a number of the face less."""
    if 'face' not in run:
        return
    yield {name: run[name] for name in run if name != 'face'}
    for name in run['face']:
        yield dict(run, face={other: run['face'][other] for other in run['face'] if other != name})


def with_plainer_numbers(run):
    """With the usual viewport, and with the ids 1, 2, 3 and so on."""
    if run['viewport'] != PLAIN_VIEWPORT:
        yield dict(run, viewport=PLAIN_VIEWPORT)
    ids = [node['id'] for node in run['nodes']]
    if ids != list(range(1, len(ids) + 1)):
        new = {0: 0, **{old: place + 1 for place, old in enumerate(ids)}}
        yield dict(run, nodes=[dict(node, id=new[node['id']], parent=new[node['parent']]) for node in run['nodes']])


def smaller_documents(run):
    """The documents that are one change smaller, the boldest changes first."""
    yield from with_fewer_nodes(run)
    yield from with_plainer_face(run)
    yield from with_plainer_styles(run)
    yield from with_plainer_sides(run)
    yield from with_smaller_spans(run)
    yield from with_shorter_texts(run)
    yield from with_plainer_numbers(run)


def is_document(run):
    """The change has left a document."""
    try:
        read_nodes(run)
    except (KeyError, ValueError, IndexError, TypeError):
        return False
    return True


def minimize(run, shows):
    """A document none of whose smaller ones `shows` the same."""
    tried = set()
    while True:
        for smaller in smaller_documents(run):
            text = json.dumps(smaller)
            if text in tried:
                continue
            tried.add(text)
            if is_document(smaller) and shows(smaller):
                run = smaller
                break
        else:
            return run
