"""A run document of the tree of a page."""
import re
from urllib.parse import unquote

from .images import size_of
from .styles import declarations, of_attributes, sheet_of

MOST_DEPTH, MOST_NODES, MOST_TEXT, MOST_TEXTS, MOST_SPAN, MOST_SIDE = 128, 65536, 65536, 1048576, 64, 1000000
REPLACED = {'img': None, 'input': (153, 21), 'select': (60, 19), 'button': (60, 21), 'textarea': (182, 36), 'meter': (80, 16),
    'progress': (160, 16),
            'iframe': (300, 150), 'video': (300, 150), 'audio': (300, 54), 'canvas': (300, 150), 'embed': (300, 150), 'object': (300, 150),
            'svg': (300, 150), 'math': (40, 20), 'applet': (300, 150)}
LEFT_OUT = {'script', 'style', 'head', 'template', 'noframes', 'datalist', 'param', 'source', 'track', 'area', 'title', 'link', 'meta',
    'base'}
SILENT_ATTRIBUTES = {'id', 'class', 'style', 'href', 'name', 'lang', 'title', 'alt', 'src', 'rel', 'type', 'content', 'charset', 'target',
    'colspan',
                     'rowspan', 'span', 'width', 'height', 'cellspacing', 'cellpadding', 'border', 'valign', 'nowrap', 'hidden', 'role', 'value', 'summary',
                     'xmlns', 'xml:lang', 'scope', 'headers', 'cite', 'datetime', 'tabindex', 'accesskey', 'color', 'bgcolor', 'link', 'vlink', 'alink', 'text',
                     'action', 'method', 'for', 'open', 'loading', 'media', 'http-equiv', 'property', 'dir', 'data', 'rules', 'frame', 'start', 'abbr', 'axis'}


class Maker:
    """Makes the nodes of a document, and notes what it leaves out."""

    def __init__(self, values, folder):
        self.values, self.folder, self.nodes, self.left_out, self.sheets, self.bytes = values, folder, [], {}, [], 0

    def note(self, words):
        self.left_out[words] = self.left_out.get(words, 0) + 1

    def new(self, parent, kind, **fields):
        if len(self.nodes) >= MOST_NODES:
            self.note('more than 65,536 nodes: the rest')
            return None
        ident = len(self.nodes) + 1
        self.nodes.append({'id': ident, 'parent': parent, 'kind': kind, **fields})
        return ident

    def style_of(self, element, table):
        """An element's own declarations: those of its attributes that look like CSS, and of `style`."""
        style = of_attributes(element.name, element.attributes, table)
        for name, value, _ in declarations(element.attributes.get('style', '')):
            if self.values.fault(name, value) is None:
                style[name] = value
            elif name in self.values.patterns:
                self.note('a value of `%s`, as `%s`' % (name, value[:30]))
            elif re.match(r'(float|clear|display|position|flex|grid|columns?$|transform|box-sizing|direction|writing)', name):
                self.note('the property `%s`' % name)
        for name in element.attributes:
            if name not in SILENT_ATTRIBUTES and not name.startswith(('on', 'data-', 'aria-')) and not (name == 'align'
                and 'text-align' in style):
                self.note('the attribute `%s` of `%s`' % (name, element.name))
        return style

    def named(self, element, style):
        """The fields of an element that sheets ask for, and its declarations."""
        fields = {'tag': element.name}
        if element.attributes.get('id'):
            fields['label'] = element.attributes['id']
        if element.attributes.get('class', '').split():
            fields['classes'] = element.attributes['class'].split()
        return {**fields, 'style': style} if style else fields

    def spans(self, element):
        fields = {}
        for name, attribute in (('colspan', 'span' if element.name in ('col', 'colgroup') else 'colspan'), ('rowspan', 'rowspan')):
            value = element.attributes.get(attribute, '')
            if value.isdecimal() and int(value) > 1 and element.name in ('td', 'th', 'col', 'colgroup'):
                fields[name] = min(MOST_SPAN, int(value))
        return fields

    def natural_of(self, element):
        """The natural size of a replaced element, in whole px."""
        if REPLACED[element.name]:
            self.note('`%s`, an empty box of %d × %d px' % (element.name, *REPLACED[element.name]))
            return list(REPLACED[element.name])
        found = size_of(self.folder / unquote(element.attributes.get('src', '').split('?')[0])) if element.attributes.get('src') else None
        given = [int(text) for text in (element.attributes.get('width', ''), element.attributes.get('height', '')) if text.isdecimal()]
        if not found and len(given) < 2:
            self.note('the size of an image that isn\'t there: 16 × 16 px')
        return [min(MOST_SIDE, max(1, side)) for side in (found or (given if len(given) == 2 else (16, 16)))]

    def element(self, element, parent, depth, table):
        """Writes an element and what is in it."""
        if element.name in LEFT_OUT:
            self.read_sheet(element)
            return
        if depth > MOST_DEPTH:
            self.note('what is deeper than 128 levels')
            return
        style, is_input = self.style_of(element, table), element.name == 'input' and element.attributes.get('type', '').lower() == 'hidden'
        if is_input:
            return
        fields = self.named(element, style)
        if element.name in REPLACED:
            self.new(parent, 'replaced', natural=self.natural_of(element), **fields)
            return
        ident = self.new(parent, 'element', **self.spans(element), **fields)
        if ident is None:
            return
        if element.name == 'br':
            self.text('\n', ident)
        if element.name == 'table':
            table = element.attributes
        is_shut = element.name == 'details' and 'open' not in element.attributes
        for kid in element.kids:
            if not is_shut or not isinstance(kid, str) and kid.name == 'summary':
                self.kid(kid, ident, depth + 1, table)

    def kid(self, kid, parent, depth, table):
        if not isinstance(kid, str):
            if kid.name == 'wbr':
                self.text('\u200b', parent)
            else:
                self.element(kid, parent, depth, table)
        elif kid and depth <= MOST_DEPTH:
            self.text(kid, parent)

    def text(self, text, parent):
        """Writes a text, in parts where it is longer than a text may be."""
        text = re.sub('[\ud800-\udfff]', '\ufffd', text.replace('\r\n', '\n'))
        step = MOST_TEXT // 4
        for at in range(0, len(text), step):
            part = text[at:at + step]
            self.bytes += len(part.encode())
            if self.bytes > MOST_TEXTS:
                self.note('a text behind 1,048,576 bytes of text')
                return
            self.new(parent, 'text', text=part)

    def read_sheet(self, element):
        """Notes what a page's own sheets say, with shorthands as what they stand for."""
        attributes = element.attributes
        if element.name == 'head':
            for kid in element.kids:
                if not isinstance(kid, str):
                    self.read_sheet(kid)
        elif element.name == 'style':
            self.sheets.append(sheet_of(''.join(kid for kid in element.kids if isinstance(kid, str))))
        elif element.name == 'link' and 'stylesheet' in attributes.get('rel', '').lower() and attributes.get('href'):
            path = self.folder / unquote(attributes['href'].split('?')[0])
            if '//' not in attributes['href'] and path.is_file():
                self.sheets.append(sheet_of(path.read_text(errors='replace')))
            else:
                self.note('the sheet %s' % attributes['href'][:60])
