"""Documents that are made to cost much for their bytes, each of a kind that once did, and of any size up to one that is quick to call.
"""
BLOCK = {'display': 'block'}


def element(ident, parent, **style):
    return {'id': ident, 'parent': parent, 'kind': 'element', 'style': {**BLOCK, **style}}


def text(ident, parent, words):
    return {'id': ident, 'parent': parent, 'kind': 'text', 'text': words}


def named(nodes, **names):
    """The nodes below the root with these names."""
    return nodes[:1] + [{**node, **names} for node in nodes[1:]]


def siblings(count):
    return [element(1, 0)] + [element(number, 1) for number in range(2, count + 2)]


def chains(count, levels):
    """So many elements below the root, in chains of so many levels."""
    return [element(1, 0)] + [element(place + 2, place + 1 if place % levels else 1) for place in range(count)]


def rules(selectors):
    return ''.join('%s{width:%dpx}' % (selector, number) for number, selector in enumerate(selectors))


# -- sheets

def many_classes(rng):
    """Nodes with many classes, few or all of them different, and as many rule sets as may be, of which each may ask for several."""
    count, names = rng.choice([100, 5000, 60000]), rng.choice([1, 2, 300, 60000])
    classes = ['c%d' % (number % names) for number in range(count)]
    asked = [('.' + rng.choice(['c0', 'c%d' % rng.randrange(names), 'z'])) * rng.choice([1, 1, 2]) for _ in range(rng.choice([16, 4096]))]
    return {'sheet': rules(one + '.c0' for one in asked), 'nodes': named(siblings(rng.choice([1, 2, 5])), classes=classes)}


def long_selectors(rng):
    """Siblings in a row, and selectors of about as many steps, joined in one way or in several."""
    count, steps = rng.choice([63, 64, 65, 70, 128, 129, 500, 5000]), rng.choice([['*'], ['.a'], ['*', '.a', 'p', '#x'], ['.a', '*', 'q']])
    joint = rng.choice(['+', '+', ' + ', '.a+', '.a.a+', ''])
    if joint == '' or rng.random() < 0.2:
        steps, joint = [step for step in steps if step[0] in '.#'] or ['.a'], rng.choice(['', joint])
    selectors = [joint.join(rng.choice(steps) for _ in range(count - rng.choice([0, 1, 2, count // 2]))) for _ in range(rng.choice([1, 2, 5]))]
    classes = rng.choice([['a'], ['a'], ['b', 'a'], ['c%d' % number for number in range(rng.choice([16, 64, 65, 70]))] + ['a']])
    return {'sheet': rules(selectors), 'nodes': named(siblings(count), tag='p', label='x', classes=classes)}


def deep_selectors(rng):
    """Chains of elements, and selectors of up to as many steps as they are deep, joined by any of the joints."""
    levels, joints = rng.choice([3, 20, 63, 64, 65, 127]), rng.choice([[' '], ['>'], [' ', '>', '+'], [' ', '>', '+', '.a']])
    steps, names = rng.choice([['*'], ['.a', '*'], ['p', '.a', '#x', '*']]), dict(tag='p', label='x', classes=['a', 'b'])

    def selector():
        made = rng.choice(steps)
        for _ in range(rng.choice([1, 2, levels // 2, levels - 1, levels])):
            joint = rng.choice(joints)
            made += joint if joint[0] == '.' else joint + rng.choice(steps)
        return made
    nodes = named(chains(levels * rng.choice([1, 3, 10]), levels), **names)
    for node in nodes[1:]:
        if rng.random() < 0.1:
            node['classes'] = rng.choice([[], ['b'], ['a'] * 70])
    return {'sheet': rules(selector() for _ in range(rng.choice([1, 5, 40]))), 'nodes': nodes}


# -- floats, inline boxes and members that aren't read

def open_floats(rng):
    """Floats that are open at one height, each with a bottom of its own, and now and then a block that looks for room."""
    sides, count = rng.choice([['left'], ['left', 'right'], ['left', 'left', 'right']]), rng.choice([10, 60, 300, 1500])
    nodes = [element(1, 0)]
    for k in range(count):
        style = {'float': rng.choice(sides), 'width': '1px', 'height': '%dpx' % (1 + k * 7919 % rng.choice([7, 1009]))}
        if rng.random() < 0.05:
            style = rng.choice([{'overflow': 'hidden', 'width': '%dpx' % rng.randrange(1, 3000)}, {'clear': rng.choice(['left', 'right', 'both'])}])
        nodes.append(element(k + 2, 1, **style))
    return {'viewport': [rng.choice([50, 400, 5000]), 80], 'nodes': nodes}


def deep_inlines(rng):
    """Inline boxes in each other, on several lines or broken by blocks."""
    depth, nodes = rng.choice([2, 30, 126]), [element(1, 0, **{'white-space': rng.choice(['pre', 'normal'])})]
    depth -= (breaks := rng.random() < 0.5)
    for level in range(depth):
        nodes.append(element(level + 2, level + 1, display='inline', **rng.choice([{}, {}, {'padding-left': '1px'}])))
    for _ in range(rng.choice([1, 5, 15])):
        if breaks:
            nodes.append(element(len(nodes) + 1, depth + 1))
        nodes.append(text(len(nodes) + 1, depth + 1, 'a\n' * rng.choice([1, 1, 4])))
    return {'nodes': nodes}


def small_objects(rng):
    """A member that isn't read, of many small values."""
    value = rng.choice([{'': 0}, {}, [], [[0]], 'a', 0.5])
    return {'note': [value] * rng.choice([100, 20000, 300000]), 'nodes': siblings(rng.choice([1, 5]))}


def hostile_document(rng):
    """A document of one of these kinds."""
    made = rng.choice([many_classes, long_selectors, deep_selectors, deep_selectors, open_floats, deep_inlines, small_objects])(rng)
    return {'viewport': [100, 80], **made}


# -- reports

def unseen_versions(rng):
    """A run with many edits and a report in which each is accepted and published, and none shown. Some line of it may be another."""
    count, editors = rng.choice([1, 40, 512]), rng.choice([1, 2, 16])
    edits = [{'do': 'set', 'node': rng.choice([1, 2]), 'property': 'padding-left', 'value': '%dpx' % (k % 9)} for k in range(count)]
    run = {'viewport': [100, 80], 'nodes': siblings(rng.choice([1, 50, 300])), 'editors': [edits] * editors}
    turns = [editor + 1 for editor in range(editors) for _ in range(count)]
    rng.shuffle(turns)
    done, lines = [0] * (editors + 1), []
    for version, editor in enumerate(turns, 1):
        lines += ['edit %d %d accepted %d' % (editor, done[editor], version), 'publish %d' % version]
        done[editor] += 1
    if rng.random() < 0.5:
        lines[rng.randrange(len(lines))] = rng.choice(['publish 1', 'edit 1 0 accepted 1', 'edit 1 0 nomemory', 'sync 1 0 1', ''])
    return run, '\n'.join(lines) + rng.choice(['\n', ''])
