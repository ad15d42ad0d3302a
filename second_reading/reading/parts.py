"""What the children of a node generate, before there are boxes (CSS 2.2, 9.2.1.1, 9.2.2 and 17.2.1).

A part is a text, an inline box with its parts, a node that generates another box, or an anonymous box of a table. Each
has its `display`.
"""
from reading.missing_tables import Anonymous, with_table_boxes
from reading.nodes import Node


class TextBox:
    """A text."""

    display = 'text'

    def __init__(self, node):
        self.node, self.style, self.text = node, node.style, node.text


class InlineBox:
    """An inline box, or a part of one that blocks break; `sizes` adds its margins, borders, paddings and offset."""

    display, collapsed_border = 'inline', None

    def __init__(self, node, children, is_first=True, is_last=True):
        self.node, self.style, self.children = node, node.style, children
        self.is_first, self.is_last = is_first, is_last


def generated(node):
    """What the children of a node generate."""
    for child in node.children:
        if child.is_hidden:
            continue
        if child.kind == 'text':
            if child.text:
                yield TextBox(child)
        elif child.is_inline_box():
            yield from broken(InlineBox(child, children_of(child)))
        else:
            yield child


def children_of(part):
    """The parts in a node or an anonymous box."""
    if isinstance(part, Anonymous):
        return with_table_boxes(part.display, part.children, part.node)
    return with_table_boxes(part.display, list(generated(part)), part)


def is_out_of_flow(part):
    return isinstance(part, Node) and part.is_out_of_flow()


def is_atomic(part):
    """It stands in a line as one box."""
    return part.is_atomic() if isinstance(part, Node) else part.display == 'inline-table'


def is_block(part):
    """A block in the flow."""
    return isinstance(part, (Node, Anonymous)) and not is_out_of_flow(part) and not is_atomic(part)


def is_blank(part):
    """A text that is white space which is collapsed away where it stands alone (9.2.2.1, 16.6.1).

    A carriage return is an ordinary character where no linefeed is beside it.
    """
    if not isinstance(part, TextBox) or part.text.strip(' \t\r\n'):
        return False
    mode = part.style['white-space'].amount
    if mode in ('normal', 'nowrap'):
        return '\r' not in part.text or '\n' in part.text
    return mode == 'pre-line' and '\r' not in part.text and '\n' not in part.text


def broken(inline):
    """The parts of an inline box and the blocks that break it (9.2.1.1), or the box whole.

    Blocks with nothing between them but blank texts and boxes out of the flow are one break; these boxes stay between.
    """
    places = [place for place, child in enumerate(inline.children) if is_block(child)]
    if not places:
        return [inline]
    found, begin, is_first = [], 0, True
    while places:
        first = last = places.pop(0)
        while places and all(is_out_of_flow(child) or is_blank(child)
                             for child in inline.children[last + 1:places[0]]):
            last = places.pop(0)
        found.append(InlineBox(inline.node, inline.children[begin:first], is_first, False))
        found += [child for child in inline.children[first:last + 1] if not is_blank(child)]
        begin, is_first = last + 1, False
    return found + [InlineBox(inline.node, inline.children[begin:], False, True)]
