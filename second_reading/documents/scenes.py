"""Groups of nodes in lines that few random documents would have otherwise.

They are ends of inline boxes behind linefeeds, content that reaches out of its line, and boxes out of the flow behind
the edges of inline boxes. Each function adds nodes below a parent to a document that is drawn (`text_documents`).
"""
PRESERVING = ['pre', 'pre-wrap', 'pre-line']
TEXTS_WITH_LINEFEEDS = ['aa\n', 'bbb\n', '\n', 'a\n\n', 'aa \n', 'aa\n ', 'b\r\n', 'aa\nbb', 'ffffffff\n']
NARROW_WIDTHS = ['10px', '16px', '24px', '40px', '0']
LONG_WORDS = ['ffffffff', 'gggggggggggg', 'eeeee']
BEHIND_LONG = ['\n', ' ', '  ', ' \n', '\nb', '   b', ' \n\nb', '\t', ' \u200b', '\n\n', ' bb', '']
EDGES = ['4px', '8px', '60px', '10%', '0', '0%', '0.01px', '100%']
MARGINS = EDGES + ['auto', '-8px', '-10%', '-0.01px']


def add_out_of_flow(draw, parent):
    """A float or an absolute box."""
    style = {'display': 'block'}
    if draw.hit(45):
        style['position'] = 'absolute'
    else:
        draw.add_float_style(style)
    draw.add_element(parent, style)


def add_some_out_of_flow(draw, parent):
    for _ in range(draw.choice([0, 1, 1, 2])):
        add_out_of_flow(draw, parent)


def add_replaced(draw, parent):
    draw.left -= 1
    draw.nodes.append({'id': len(draw.nodes) + 1, 'parent': parent, 'kind': 'replaced', 'style': {},
                       'natural': [draw.choice([8, 20, 40, 90]), draw.choice([4, 20, 40])]})


def add_ends_behind_linefeed(draw, parent):
    """Inline boxes in each other that end behind a linefeed, with boxes out of the flow between their ends."""
    boxes = [parent]
    for _ in range(draw.choice([1, 1, 2, 3])):
        style = {'white-space': draw.choice(PRESERVING)}
        draw.add_edges(style, 30, 15)
        boxes.append(draw.add_element(boxes[-1], style))
    draw.add_text(boxes[-1], draw.choice(TEXTS_WITH_LINEFEEDS))
    for box in reversed(boxes):
        add_some_out_of_flow(draw, box)
        if draw.hit(10):
            draw.add_element(box, {})
    if draw.hit(50):
        draw.add_text(parent, draw.choice(['bb', ' b', 'cc dd']))


def add_behind_long(draw, parent):
    """What may take no room behind content that is wider than its line."""
    modes = PRESERVING + ['normal']
    block = draw.add_element(parent, {'display': 'block', 'width': draw.choice(NARROW_WIDTHS),
                                      'white-space': draw.choice(modes)})
    if draw.hit(25):
        add_out_of_flow(draw, block)
    if draw.hit(50):
        add_replaced(draw, block)
    else:
        draw.add_text(block, draw.choice(LONG_WORDS) + draw.choice(['', ' ', '\n', '  ']))
    for _ in range(draw.choice([1, 2, 3])):
        if draw.hit(50):
            draw.add_text(block, draw.choice(BEHIND_LONG))
        elif draw.hit(25):
            add_out_of_flow(draw, block)
        else:
            style = {}
            draw.add_edges(style, 20, 30)
            box = draw.add_element(block, style)
            if draw.hit(30):
                draw.add_text(box, draw.choice(BEHIND_LONG))


def add_left_edge(draw, style):
    """Mostly a left margin, border or padding of an inline box."""
    if draw.hit(30):
        style['margin-left'] = draw.choice(MARGINS)
    if draw.hit(20):
        style['border-left-style'] = draw.choice(['solid', 'solid', 'none', 'hidden'])
        style['border-left-width'] = draw.choice(['thin', '5px', '0', '0.01px'])
    if draw.hit(30):
        style['padding-left'] = draw.choice(EDGES)
    if draw.hit(15):
        style[draw.choice(['padding-right', 'margin-right', 'padding-top'])] = draw.choice(EDGES)


def add_behind_edges(draw, parent):
    """Inline boxes in each other with left edges, and boxes out of the flow behind their starts and in front."""
    if draw.hit(60):
        draw.add_text(parent, draw.choice(['aaa ', 'aa', 'aaaa bbbb ', 'a\n', ' ']))
    boxes = [parent]
    for _ in range(draw.choice([1, 1, 2, 3])):
        add_some_out_of_flow(draw, boxes[-1])
        style = {}
        add_left_edge(draw, style)
        boxes.append(draw.add_element(boxes[-1], style))
    add_some_out_of_flow(draw, boxes[-1])
    if draw.hit(12):
        draw.add_element(boxes[-1], {'display': 'block', 'height': '5px'})
        add_some_out_of_flow(draw, boxes[-1])
    for box in reversed(boxes):
        if draw.hit(20):
            add_replaced(draw, box)
        elif draw.hit(60):
            draw.add_text(box, draw.choice(['bbbb', 'bb cc', ' ', 'eeeee ', 'gggggggggggg']))
        if draw.hit(20):
            add_out_of_flow(draw, box)


SCENES = [add_ends_behind_linefeed, add_behind_long, add_behind_edges]
