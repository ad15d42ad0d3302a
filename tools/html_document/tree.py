"""The tree of a page of plain HTML, by Python's own parser, with the end tags that HTML lets one leave out."""
from html.parser import HTMLParser

VOID = set('area base br col embed hr img input link meta param source track wbr'.split())
BLOCKS = set('address article aside blockquote center details dialog dir div dl fieldset figcaption figure footer form h1 h2 h3 h4 h5 h6 header '
             'hgroup hr main menu nav ol p pre search section summary table ul'.split())
HEADINGS = set('h1 h2 h3 h4 h5 h6'.split())
IN_HEAD = set('base basefont bgsound link meta noframes script style template title'.split())
# An element with this name ends open ones of these names, up to one of those.
ENDS = {
    'li': ({'li'}, {'ul', 'ol', 'menu', 'dir'}), 'dt': ({'dt', 'dd'}, {'dl'}), 'dd': ({'dt', 'dd'}, {'dl'}),
    'option': ({'option'}, {'select', 'datalist', 'optgroup'}), 'optgroup': ({'option', 'optgroup'}, {'select'}),
    'tr': ({'tr', 'td', 'th', 'caption', 'colgroup'}, {'table', 'thead', 'tbody', 'tfoot'}), 'td': ({'td', 'th'},
        {'tr', 'table'}), 'th': ({'td', 'th'}, {'tr', 'table'}),
    **{name: ({'thead', 'tbody', 'tfoot', 'tr', 'td', 'th', 'caption', 'colgroup'}, {'table'})
        for name in ('thead', 'tbody', 'tfoot', 'colgroup', 'caption')},
}
WALLS = {'table', 'td', 'th', 'caption', 'button', 'html', 'body'}
RAW = {'script', 'style'}
# So many elements stand in each other; a deeper one stands beside the last of them, as in browsers.
MOST_OPEN = 512
# The line end behind their start tag is no part of their text.
SKIPS_A_LINE = {'pre', 'textarea', 'listing'}


class Element:
    """An element: its name, its attributes, its children, which are elements and texts."""

    def __init__(self, name, attributes=()):
        self.name, self.kids = name, []
        self.attributes = {key.lower(): value if value is not None else '' for key, value in attributes}


class Builder(HTMLParser):
    """Builds the tree while it reads."""

    def __init__(self):
        super().__init__(convert_charrefs=True)
        self.html = Element('html')
        self.head, self.body, self.open = None, None, [self.html]
        self.is_quirky = True

    def parse_marked_section(self, i, report=1):
        """What begins with `<![` is a comment up to the next `>`, where Python's parser knows some names and stops at others."""
        return self.parse_bogus_comment(i, report)

    def handle_decl(self, decl):
        self.is_quirky = decl.lower().strip() != 'doctype html' and 'strict' not in decl.lower()

    def names(self):
        return [element.name for element in self.open]

    def pop_to(self, name, walls=()):
        """Ends the nearest open element of this name; whether there is one before a wall."""
        for at in range(len(self.open) - 1, 0, -1):
            if self.open[at].name == name:
                del self.open[at:]
                return True
            if self.open[at].name in walls:
                return False
        return False

    def need_head(self):
        if self.head is None and self.body is None:
            self.head = Element('head')
            self.html.kids.append(self.head)
            self.open = [self.html, self.head]

    def need_body(self):
        if self.body is None:
            self.body = Element('body')
            self.html.kids.append(self.body)
            self.open = [self.html, self.body]

    def make_room(self, name):
        """Ends what an element with this name ends, and makes what it needs around it."""
        if name in IN_HEAD and self.body is None:
            self.need_head()
            return
        self.need_body()
        if name in BLOCKS:
            self.pop_to('p', WALLS - {'p'})
        if name in HEADINGS and self.open[-1].name in HEADINGS:
            self.open.pop()
        ended, walls = ENDS.get(name, (set(), set()))
        while any(element.name in ended for element in self.open[1:]):
            at = max(k for k, element in enumerate(self.open) if element.name in ended)
            if any(element.name in walls for element in self.open[at + 1:]):
                break
            del self.open[at:]
        around = {'td': 'tr', 'th': 'tr', 'tr': 'tbody', 'col': 'colgroup'}.get(name)
        while around and around not in self.names()[self.last_table():]:
            if around == 'tr':
                self.handle_starttag('tr', [])
            elif self.open[-1].name == 'table':
                self.push(Element(around))
            break

    def last_table(self):
        names = self.names()
        return max([k for k, name in enumerate(names) if name == 'table'] + [0])

    def push(self, element):
        if len(self.open) >= MOST_OPEN:
            self.open.pop()
        self.open[-1].kids.append(element)
        self.open.append(element)

    def handle_starttag(self, tag, attrs):
        if tag == 'html':
            self.html.attributes.update(Element('html', attrs).attributes)
        elif tag == 'head':
            self.need_head()
        elif tag == 'body':
            self.need_body()
            self.body.attributes.update(Element('body', attrs).attributes)
        else:
            self.make_room(tag)
            element = Element(tag, attrs)
            self.push(element)
            if tag in VOID:
                self.open.pop()

    def handle_endtag(self, tag):
        if tag in ('html', 'body') or tag in VOID and tag != 'br':
            return
        if tag == 'head':
            self.open = [self.html] if self.body is None else self.open
            return
        if tag in ('br', 'p') and tag not in self.names():
            self.handle_starttag(tag, [])
        walls = () if tag in ('table', 'td', 'th', 'tr', 'tbody', 'thead', 'tfoot') else {'table', 'td', 'th'}
        self.pop_to(tag, walls)

    def handle_data(self, data):
        if self.body is None and not data.strip() and self.open[-1].name not in RAW | {'title'}:
            return
        if self.body is None and self.open[-1].name not in RAW | {'title', 'noframes', 'template'}:
            self.need_body()
        kids = self.open[-1].kids
        if self.open[-1].name in SKIPS_A_LINE and not kids:
            data = data[1:] if data.startswith('\n') else data[2:] if data.startswith('\r\n') else data
        if not data:
            return
        if kids and isinstance(kids[-1], str):
            kids[-1] += data
        else:
            kids.append(data)


def tree_of(text):
    """The root of the tree of a page, and whether browsers read the page in quirks mode."""
    builder = Builder()
    builder.feed(text)
    builder.close()
    builder.need_body()
    return builder.html, builder.is_quirky
