// Makes a run document of `lay` (a styled tree, one face, a viewport) from the live page. Unproved; browser/README.md says more.
//
// Three ways to use it:
//   console      paste the file: the document is copied, or offered as a file, and the warnings are shown as a table
//   bookmarklet  node browser/bookmarklet.mjs > bookmarklet.txt, and make its one line the address of a bookmark
//   protocol     evaluate `window.layExportSettings = { manual: true }`, then this file, then `layExport(options)`
//
// Options, all of which may be left out:
//   mode    'measured': a visible character becomes a private use character with the advance that it has here, so that fonts,
//           kerning and ligatures are the browser's and layout alone is judged.  'plain': texts stay readable, in one font.
//   freeze  true: what `lay` has no rules for is given by its used lengths.  false: it is read as if it were CSS 2.2.
//   rects   true: adds the browser's own rectangles of each node, in 1/64 px, and what is needed to compare them.
//   paint   true: adds what each box is painted with, for comparing two pages without painting them.
//   doc     the document; ids: a Map from DOM nodes to the ids that they shall have.
// Answers { run, warnings: [{ what, count, first, places: [{ selector, node }] }], info, rects?, fit?, kinds?, paint? }.
(function () {
  'use strict';

  // ---- What the format knows ----------------------------------------------------------------------------------------------

  const SIDES = ['top', 'right', 'bottom', 'left'];
  const XHTML = 'http://www.w3.org/1999/xhtml';
  const INITIAL = { display: 'inline', position: 'static', float: 'none', clear: 'none', 'z-index': 'auto', width: 'auto',
    height: 'auto', 'min-width': '0', 'min-height': '0', 'max-width': 'none', 'max-height': 'none', overflow: 'visible',
    'vertical-align': 'baseline', 'table-layout': 'auto' };
  for (const side of SIDES) {
    Object.assign(INITIAL, { [side]: 'auto', ['margin-' + side]: '0', ['padding-' + side]: '0', [`border-${side}-style`]: 'none' });
  }
  const INHERITED = { 'font-size': '16px', 'line-height': 'normal', 'white-space': 'normal', 'text-align': 'left', 'text-indent': '0',
    'letter-spacing': 'normal', 'word-spacing': 'normal', 'border-collapse': 'separate', 'border-spacing': '0',
    'caption-side': 'top', visibility: 'visible', 'empty-cells': 'show' };
  const DISPLAYS = new Set(('inline block list-item inline-block table inline-table table-row-group table-header-group ' +
    'table-footer-group table-row table-column-group table-column table-cell table-caption none').split(' '));
  const WHITE_SPACES = ['normal', 'pre', 'nowrap', 'pre-wrap', 'pre-line'];
  const ALIGNMENTS = { start: 'left', end: 'right', left: 'left', right: 'right', center: 'center', justify: 'justify',
    '-webkit-left': 'left', '-webkit-right': 'right', '-webkit-center': 'center',
    '-moz-left': 'left', '-moz-right': 'right', '-moz-center': 'center' };

  // ---- What it doesn't know -----------------------------------------------------------------------------------------------

  const FROZEN = /^(inline-)?(flex|grid|-webkit-box|-webkit-inline-box|grid-lanes)$/;
  const REPLACED = new Set(('input textarea select button meter progress video audio iframe embed object applet canvas img svg ' +
    'math').split(' '));
  // So many places are told of each warning.
  const PLACES = 50;
  const LAYOUT_OF_ITS_OWN = /^(fieldset|legend|details|summary|ruby|rt|frameset|marquee|dialog)$/;
  // The legend of a fieldset stands in its border; browsers have room for it there.
  const legendOf = item => item.tag === 'fieldset' && item.kids.find(kid => kid.tag === 'legend' && !isOut(kid.used.position) &&
    kid.used.float === 'none') || null;
  // [property, values without effect, what is said of others]
  const UNKNOWN = [
    ['direction', /^ltr$/, () => 'direction: rtl'],
    ['writing-mode', /^horizontal-tb$/, () => 'vertical writing mode'],
    ['transform', /^none$/, () => 'transform (not applied)'],
    ['contain', /^(none|auto|)$/, value => 'contain: ' + value],
    ['content-visibility', /^(visible|)$/, value => 'content-visibility: ' + value],
    ['shape-outside', /^(none|)$/, () => 'shape-outside'],
    ['zoom', /^(1|normal|)$/, () => 'zoom'],
    ['text-wrap-style', /^(auto|)$/, value => 'text-wrap: ' + value],
    ['hyphens', /^(manual|none|)$/, value => 'hyphens: ' + value],
    ['-webkit-line-clamp', /^(none|)$/, () => 'line-clamp'],
    ['filter', /^(none|)$/, () => 'filter (may be a containing block)'],
    ['perspective', /^(none|)$/, () => 'perspective (may be a containing block)'],
    ['unicode-bidi', /^(normal|isolate|embed|)$/, value => 'unicode-bidi: ' + value],
    ['initial-letter', /^(normal|)$/, () => 'initial-letter'],
  ];
  const READ = Object.keys(INITIAL).concat(Object.keys(INHERITED), UNKNOWN.map(row => row[0]), ['overflow-x', 'overflow-y', 'box-sizing',
    'font-family', 'font-weight', 'font-style', 'font-stretch', 'font-variant', 'font-kerning', 'font-feature-settings', 'text-transform',
    'column-count', 'column-width', 'list-style-position', 'list-style-type', 'word-break', 'overflow-wrap', 'aspect-ratio', 'tab-size'],
  SIDES.map(side => `border-${side}-width`));
  // What is read again of a hidden root, where it is a computed value and not a used one.
  const READ_AGAIN = READ.filter(name => /^(width|height|(min|max)-|margin-|padding-|top$|right$|bottom$|left$|display|position|float|clear|z-index)/
    .test(name) || /^(line-height|text-indent|vertical-align|(letter|word|border)-spacing|column-|aspect-ratio|overflow)/.test(name));
  const FONT = ['font-style', 'font-variant', 'font-weight', 'font-stretch', 'font-family', 'font-kerning', 'font-feature-settings'];

  // ---- Numbers ------------------------------------------------------------------------------------------------------------

  const float = text => parseFloat(text) || 0;
  const numberText = value => {
    const text = (Math.round(value * 1e6) / 1e6).toFixed(6).replace(/\.?0+$/, '');
    return text === '-0' ? '0' : text;
  };
  // Whole units of 1/64 px, written exactly.
  const unitsText = units => units === 0 ? '0' : (units / 64).toFixed(6).replace(/\.?0+$/, '') + 'px';
  // getComputedStyle writes six significant digits: a length that could be whole units is taken to be so. Browsers round a negative
  // length towards 0, and `lay` rounds it down: it is written as whole units.
  function pixelText(value) {
    const units = value * 64, whole = Math.round(units), digits = Math.max(1, Math.ceil(Math.log10(Math.abs(value) + 1e-9)));
    if (whole === 0 && Math.abs(units) < 1e-3) return '0';
    if (Math.abs(units - whole) < 64 * 0.6 * 10 ** (digits - 6)) return unitsText(whole);
    return value < 0 ? unitsText(Math.ceil(units)) : numberText(value) + 'px';
  }
  // A computed value as a value of `lay`: one of `keywords`, a length or a percentage; null where it is none, as calc().
  function lengthText(value, keywords) {
    if (keywords.includes(value)) return value;
    if (/^-?[\d.]+(e[+-]?\d+)?px$/.test(value)) return pixelText(float(value));
    if (/^-?[\d.]+(e[+-]?\d+)?%$/.test(value)) return float(value) === 0 ? '0' : numberText(float(value)) + '%';
    return null;
  }
  const thousandths = value => Math.max(0, Math.min(10000, Math.round(value)));
  // The units that `lay` has of a length as pixelText writes it.
  const lengthUnits = text => Math.trunc(float(text) * 64 + Math.sign(float(text)) * 1e-6);
  const unitsOf = size => Math.floor(float(size) * 64 + 1e-6);
  // What `lay` makes of thousandths of a font size.
  const scaled = (advance, fontSize) => Math.floor(advance * fontSize / 1000);
  // The thousandths whose scaled value comes nearest to `want` units.
  function nearestAdvance(want, fontSize) {
    if (fontSize <= 0) return 0;
    let advance = Math.max(0, Math.ceil(want * 1000 / fontSize));
    if (advance > 0 && Math.abs(scaled(advance - 1, fontSize) - want) < Math.abs(scaled(advance, fontSize) - want)) advance--;
    return Math.min(advance, 10000);
  }
  const INNER = { width: ['left', 'right'], height: ['top', 'bottom'] };
  const edgesOf = (used, dimension) => INNER[dimension].reduce((sum, side) =>
    sum + float(used['padding-' + side]) + float(used[`border-${side}-width`]), 0);
  const usedContent = (item, dimension) => Math.max(0,
    float(item.used[dimension]) - (item.used['box-sizing'] === 'border-box' ? edgesOf(item.used, dimension) : 0));
  const isTable = display => /^(inline-)?table$/.test(display);
  const isOut = position => /^(absolute|fixed)$/.test(position);

  // ---- A job: one export --------------------------------------------------------------------------------------------------

  function startJob(options) {
    const doc = options.doc, win = doc.defaultView;
    return { options, doc, win, root: doc.documentElement, measured: options.mode === 'measured', warned: new Map(), items: [],
      range: doc.createRange(), scrollX: win.scrollX, scrollY: win.scrollY, probes: new Map(), advances: new Map(),
      nodes: [], rects: {}, fit: {}, kinds: {}, paint: {}, extraId: 2e6, bytes: 0 };
  }
  function warn(job, what, at) {
    if (!job.warned.has(what)) job.warned.set(what, { what, count: 0, places: new Set() });
    const known = job.warned.get(what);
    known.count++;
    if (at && known.places.size < PLACES) known.places.add(at);
  }
  // A selector of the page that has this element alone, up to the nearest element with an id.
  function selectorOf(element) {
    const steps = [];
    for (let at = element; at && at.nodeType === 1; at = at.parentNode) {
      if (at.id && at.id.length < 80) { steps.unshift('#' + CSS.escape(at.id)); break; }
      const alike = at.parentNode ? [...at.parentNode.children].filter(other => other.localName === at.localName) : [at];
      steps.unshift(at.localName + (alike.length > 1 ? `:nth-of-type(${alike.indexOf(at) + 1})` : ''));
    }
    return steps.join(' > ');
  }
  // The warnings with their places: a selector, and the number of the node where the document has one.
  function warningsOf(job) {
    const ids = new Map(job.items.filter(item => item.element && !item.pseudo && !item.wrapper).map(item => [item.element, item.id]));
    return [...job.warned.values()].map(({ what, count, places }) => {
      const told = [...places].map(at => at.nodeType === 1 ? { selector: selectorOf(at), node: ids.get(at) || 0 } :
        { selector: String(at), node: 0 });
      return { what, count, first: told.length ? told[0].selector : '', places: told };
    });
  }
  const isFirefox = job => /Firefox/.test(job.win.navigator.userAgent);
  function warnOfMode(job) {
    const type = job.doc.doctype;
    if (job.doc.compatMode !== 'CSS1Compat' && job.root.localName === 'html') warn(job, 'quirks mode', job.root);
    else if (type && /\/\/DTD (XHTML 1\.0|HTML 4\.01) (Transitional|Frameset)\/\//i.test(type.publicId)) {
      warn(job, 'limited quirks mode (lines without text of their own have no strut)', job.root);
    }
  }
  function readStyle(job, element, pseudo, properties = READ, answer = {}) {
    const style = job.win.getComputedStyle(element, pseudo);
    for (const property of properties) answer[property] = style.getPropertyValue(property);
    return answer;
  }
  // A client rectangle of an item on the page, as if nothing were scrolled.
  const onPage = (job, rect, scrolled) =>
    [rect.left + job.scrollX + scrolled[0], rect.top + job.scrollY + scrolled[1], rect.width, rect.height];

  // ---- The tree, with used values and rectangles --------------------------------------------------------------------------

  function addItem(job, item) {
    const { up, element } = item, own = up && element && element.nodeType === 1 && !item.pseudo && element.localName !== 'body';
    // by what the boxes around it are scrolled, and those around its contents
    item.scrolled = !up || item.used && item.used.position === 'fixed' ? [0, 0] : up.scrolledInside;
    const [left, top] = item.scrolled;
    item.scrolledInside = own && !item.wrapper ? [left + element.scrollLeft, top + element.scrollTop] : item.scrolled;
    item.kids = [];
    if (up) up.kids.push(item);
    job.items.push(item);
    return item;
  }
  function visitGenerated(job, element, up, pseudo) {
    const style = job.win.getComputedStyle(element, pseudo), content = style.content;
    if (content === 'none' || content === 'normal' || content === '' || style.display === 'none') return;
    const item = addItem(job, { kind: 'element', element, pseudo, up, used: readStyle(job, element, pseudo) });
    const match = /^"((?:[^"\\]|\\.)*)"$/.exec(content);
    if (!match) { warn(job, 'generated content that is no text', element); return; }
    if (match[1] === '') return;                                                // an empty box, as for clearing: nothing is lost
    warn(job, 'generated content (its widths are sums of advances)', element);
    const data = match[1].replace(/\\([0-9a-f]{1,6}) ?|\\(.)/gi,
      (_, code, plain) => code ? String.fromCodePoint(parseInt(code, 16)) : plain);
    addItem(job, { kind: 'text', up: item, data, made: true });
  }
  function visitReplaced(job, item) {
    const { element, used } = item;
    item.kind = 'replaced';
    item.size = [usedContent(item, 'width'), usedContent(item, 'height')];
    if (element.localName === 'img' && element.complete && element.naturalWidth > 0) {
      item.natural = [element.naturalWidth, element.naturalHeight];
    } else if (element.localName === 'canvas') item.natural = [element.width, element.height];
    else warn(job, element.localName + ' as a replaced element of its used size', element);
    if (used.display === 'inline' && /%$/.test(used.width)) item.size[0] = element.getBoundingClientRect().width;
    addItem(job, item);
  }
  // An inside list marker takes the room from the content edge to the first character.
  function visitInsideMarker(job, item) {
    const { element, used } = item;
    if (used.display !== 'list-item' || used['list-style-position'] !== 'inside' || used['list-style-type'] === 'none') return;
    const walker = job.doc.createTreeWalker(element, 4);
    let text = walker.nextNode();
    while (text && !/\S/.test(text.data)) text = walker.nextNode();
    if (!text) return;
    job.range.selectNodeContents(text);
    const rect = job.range.getClientRects()[0], box = element.getBoundingClientRect();
    const before = ['border-left-width', 'padding-left', 'text-indent'].reduce((sum, name) => sum + float(used[name]), 0);
    const room = rect ? rect.left - box.left - before : 0;
    if (room > 0 && room < box.width) addItem(job, { kind: 'marker', up: item, room });
  }
  // ::first-letter and ::first-line have no computed display where no rule is about them: their fonts tell.
  function warnOfFirst(job, element, used) {
    if (!/^(block|list-item|table-cell|inline-block)$/.test(used.display)) return;
    for (const pseudo of ['::first-letter', '::first-line']) {
      const style = job.win.getComputedStyle(element, pseudo);
      const differs = name => style.getPropertyValue(name) !== '' && style.getPropertyValue(name) !== used[name];
      if (['font-size', 'font-weight', 'font-family', 'font-style', 'letter-spacing'].some(differs) ||
          pseudo === '::first-letter' && /^(left|right)$/.test(style.float) && style.float !== used.float) warn(job, pseudo, element);
    }
  }
  function kidsOf(job, element) {
    if (element.shadowRoot) { warn(job, 'shadow tree (flattened)', element); return element.shadowRoot.childNodes; }
    if (element.localName === 'slot' && element.assignedNodes().length) return element.assignedNodes();
    return element.childNodes;
  }
  function visitElement(job, element, up, depth) {
    const used = readStyle(job, element);
    if (used.display === 'none') return;
    if (used.display === 'contents') {
      warn(job, 'display: contents (children exported in its place)', element);
      for (const kid of element.childNodes) visitNode(job, kid, up, depth);
      return;
    }
    if (depth > 126) { warn(job, 'deeper than 128 levels: left out', element); return; }
    const turned = up && up.turned || used.transform !== 'none' || used['writing-mode'] !== 'horizontal-tb';
    const item = { kind: 'element', element, up, used, turned, tag: element.localName };
    if (element.localName === 'br') { item.kind = 'break'; addItem(job, item); return; }
    if (element.localName === 'wbr') { addItem(job, { kind: 'text', up, data: '\u200b', made: true }); return; }
    if (REPLACED.has(element.localName)) { visitReplaced(job, item); return; }
    addItem(job, item);
    visitInside(job, item, depth);
    warnOfOwnLayout(job, item);
  }
  function warnOfOwnLayout(job, item) {
    const { element, tag, up } = item, isLegend = tag === 'legend' && up && up.tag === 'fieldset';
    if (!LAYOUT_OF_ITS_OWN.test(tag) || job.options.freeze && isLegend) return;
    warn(job, tag + ' has layout of its own' + (job.options.freeze && legendOf(item) ? ' (its legend frozen)' : ''), element);
  }
  function visitInside(job, item, depth) {
    const { element, used } = item;
    warnOfFirst(job, element, used);
    visitGenerated(job, element, item, '::before');
    const columns = used['column-count'] !== 'auto' || used['column-width'] !== 'auto';
    if (job.options.freeze && used.display !== 'inline' && columns) {
      item.emptied = true;
      warn(job, 'columns (contents left out)', element);
      return;
    }
    visitInsideMarker(job, item);
    const shut = element.localName === 'details' && !element.open;
    for (const kid of kidsOf(job, element)) if (!shut || kid.localName === 'summary') visitNode(job, kid, item, depth + 1);
    if (shut) addItem(job, { kind: 'shut', up: item });
    visitGenerated(job, element, item, '::after');
  }
  function visitNode(job, node, up, depth) {
    if (node.nodeType === 1) { visitElement(job, node, up, depth); return; }
    if (node.nodeType !== 3 && node.nodeType !== 4 || !node.data) return;
    if (job.options.freeze && FROZEN.test(up.used.display)) {
      if (!/[^ \t\r\n\f]/.test(node.data)) return;
      job.range.selectNodeContents(node);                                       // an anonymous item round the text
      const rect = onPage(job, job.range.getBoundingClientRect(), up.scrolledInside);
      up = addItem(job, { kind: 'element', element: up.element, wrapper: true, up, used: { ...up.used, display: 'block' }, rect });
    }
    addItem(job, { kind: 'text', element: node, up, data: node.data });
  }
  function giveIds(job) {
    const ids = job.options.ids;
    let next = ids ? 1000001 : 1;
    for (const item of job.items) {
      const given = ids && !item.pseudo && !item.made && item.element ? ids.get(item.element) : 0;
      item.id = given || next++;
    }
  }
  // A text's rectangles, those that meet on one line joined.
  function textRects(job, item) {
    const list = [];
    job.range.selectNodeContents(item.element);
    for (const rect of job.range.getClientRects()) {
      const next = onPage(job, rect, item.scrolled), last = list[list.length - 1];
      const meets = last && Math.abs(last[1] - next[1]) < 0.01 && Math.abs(last[3] - next[3]) < 0.01 &&
        Math.abs(last[0] + last[2] - next[0]) < 0.03;
      if (meets) last[2] = next[0] + next[2] - last[0]; else list.push(next);
    }
    return list;
  }
  function measureRects(job) {
    for (const item of job.items) {
      if (item.kind === 'text') { if (!item.made) item.rects = textRects(job, item); }
      else if (item.element && !item.pseudo && !item.wrapper) {
        item.rects = [...item.element.getClientRects()].map(rect => onPage(job, rect, item.scrolled));
      }
      item.rect = item.rect || item.rects && item.rects[0];
    }
  }

  // ---- Fonts --------------------------------------------------------------------------------------------------------------

  function makeNode(job, tag, style, text) {
    const node = job.doc.createElementNS(XHTML, tag);
    node.setAttribute('style', style);
    if (text) node.textContent = text;
    return node;
  }
  function contentRect(job, node) {
    job.range.selectNodeContents(node.firstChild);
    return job.range.getBoundingClientRect();
  }
  // So many spaces are measured together: browsers round the width of a text to units.
  const SPACES = 16;
  // A font's measures at a size: one line with a mark at its baseline, and one of text alone with the line height.
  function probeFont(job, used, size, lineHeight) {
    const font = FONT.map(name => `${name}:${used[name]}`).join(';') + `;font-size:${size}`, key = font + lineHeight;
    if (job.probes.has(key)) return job.probes.get(key);
    const plain = 'all:initial;white-space:pre;' + font, spaced = plain + ';line-height:' + lineHeight;
    const first = makeNode(job, 'div', plain + ';display:block'), second = makeNode(job, 'div', spaced + ';display:block');
    const text = makeNode(job, 'span', plain, 'xx'), mark = makeNode(job, 'span', 'all:initial;display:inline-block;width:0;height:0');
    const parted = makeNode(job, 'span', plain, `x${' '.repeat(SPACES)}x`), alone = makeNode(job, 'span', spaced, 'xx');
    const ex = makeNode(job, 'span', plain + ';display:inline-block;height:0;width:1ex');
    const [lowered, raised] = ['sub', 'super'].map(word =>
      makeNode(job, 'span', 'all:initial;display:inline-block;width:0;height:0;vertical-align:' + word));
    first.append(text, mark, parted, ex, lowered, raised); second.append(alone); job.host.append(first, second);
    const textRect = contentRect(job, text), aloneRect = contentRect(job, alone), line = second.getBoundingClientRect();
    const baseline = mark.getBoundingClientRect().bottom, ascent = baseline - textRect.top;
    const probe = { sub: baseline - lowered.getBoundingClientRect().bottom, super: baseline - raised.getBoundingClientRect().bottom,
      ascent, content: textRect.height, above: aloneRect.top - line.top + ascent, line: line.height,
      space: (contentRect(job, parted).width - textRect.width) / SPACES, ex: ex.getBoundingClientRect().width };
    first.remove(); second.remove(); job.probes.set(key, probe);
    return probe;
  }
  // The font with most characters gives the face.
  function countFonts(job) {
    const fonts = new Map();
    for (const item of job.items) if (item.kind === 'text' && /\S/.test(item.data)) {
      const used = item.up.used, key = FONT.map(name => used[name]).join('|');
      if (!fonts.has(key)) fonts.set(key, { count: 0, used, sizes: new Map() });
      const font = fonts.get(key), count = item.data.replace(/\s+/g, ' ').length;
      font.count += count;
      font.sizes.set(used['font-size'], (font.sizes.get(used['font-size']) || 0) + count);
    }
    job.fonts = [...fonts.values()].sort((a, b) => b.count - a.count);
    job.characters = job.fonts.reduce((sum, font) => sum + font.count, 0);
    job.main = job.fonts[0] || { used: job.items[0].used, count: 0, sizes: new Map([['16px', 1]]) };
    job.mainSize = [...job.main.sizes].sort((a, b) => b[1] - a[1])[0][0];
  }
  function chooseFace(job) {
    // At a great size, since browsers round ascent and descent to whole pixels; Firefox knows no fonts above 2,000 px.
    const size = isFirefox(job) ? 1000 : 10000, unit = 1000 / size;
    const probe = probeFont(job, job.main.used, size + 'px', 'normal');
    job.face = { default: 500, ascent: thousandths(probe.ascent * unit), descent: thousandths((probe.content - probe.ascent) * unit),
      xheight: thousandths(probe.ex * unit), normal: thousandths(probe.line * unit) };
    job.space = thousandths(probe.space * unit);
    for (const pair of [[0x20, job.space], [0xa0, job.space], [0x200b, 0]]) job.advances.set(...pair);
    job.context = job.doc.createElementNS(XHTML, 'canvas').getContext('2d');
    if (job.fonts.length > 1 && !job.measured) {
      const share = Math.round(1000 * job.main.count / job.characters) / 10;
      warn(job, `${job.fonts.length} fonts; ${share}% of the text is in the first`, job.main.used['font-family']);
    }
  }
  // The advance of a character without neighbours, in thousandths.
  function canvasAdvance(job, used, character) {
    job.context.font = `${used['font-style']} ${used['font-weight']} 1000px ${used['font-family']}`;
    return job.context.measureText(character).width;
  }
  // What `lay` puts above the baseline of a line of this font size and line height, in units.
  function aboveInLay(face, fontSize, line) {
    const ascent = scaled(face.ascent, fontSize), leading = line - ascent - scaled(face.descent, fontSize);
    return ascent + Math.floor(leading / 2);
  }
  // A line height that is a number is rounded otherwise than the same in px: the number, or null.
  function lineHeightNumber(item) {
    if (item.pseudo || item.wrapper || !item.element.computedStyleMap) return null;
    const value = item.element.computedStyleMap().get('line-height');
    return value && value.unit === 'number' ? value.value : null;
  }
  function measureFonts(job) {
    for (const item of job.items) if (item.used) {
      const used = item.used, number = /px$/.test(used['line-height']) ? lineHeightNumber(item) : null;
      const probe = probeFont(job, used, used['font-size'], number === null ? used['line-height'] : String(number));
      item.probe = probe;
      item.fontSize = unitsOf(used['font-size']);
      item.line = Math.round(probe.line * 64);
      // how much lower the baseline is here than `lay` would have it
      item.lower = Math.round(probe.above * 64) - aboveInLay(job.face, item.fontSize, item.line);
      const own = scaled(job.space, item.fontSize);
      item.wordSpacing = Math.round(probe.space * 64 + float(used['word-spacing']) * 64 - own);
      item.spaceWidth = own + item.wordSpacing;
    }
  }

  // ---- Where the browser breaks words -------------------------------------------------------------------------------------

  const WORD = /[^ \t\r\n\f\u200b]+/g;

  // Texts of one line content together: a word can go on in the next text.
  function lineGroups(job) {
    const groups = [];
    let group = null;
    for (const item of job.items) {
      if (item.kind === 'text') {
        let block = item.up;
        while (block.up && block.used.display === 'inline') block = block.up;
        if (!group || group.block !== block) groups.push(group = { block, text: '', parts: [] });
        item.group = group;
        group.parts.push([group.text.length, item]);
        group.text += item.data;
      } else if (item.kind !== 'element' || item.used.display !== 'inline') group = null;
    }
    return groups;
  }
  // The places in `word` where a column without width breaks it.
  function breaksOf(job, word, node) {
    const breaks = new Set(), text = node.firstChild;
    let top = null, at = 0;
    for (const cluster of job.clusters(word)) {
      job.range.setStart(text, at); job.range.setEnd(text, at + cluster.length);
      const rect = job.range.getClientRects()[0];
      if (rect) { if (top !== null && rect.top > top + 1) breaks.add(at); top = rect.top; }
      at += cluster.length;
    }
    return breaks;
  }
  function measureBreaks(job, groups) {
    const words = new Map(), family = job.main.used['font-family'].replace(/"/g, "'");
    const style = `all:initial;display:block;width:0;white-space:normal;hyphens:manual;font-size:16px;font-family:${family}`;
    for (const group of groups) if (!isUnbroken(group.block)) {
      for (const [word] of group.text.matchAll(WORD)) {
        if (!/[^A-Za-z0-9]/.test(word) || word.length < 2 || words.has(word) || words.size >= 20000) continue;
        const node = makeNode(job, 'div', style, word);
        words.set(word, node);
        job.host.append(node);
      }
    }
    const nodes = [...words];
    for (const [word, node] of nodes) words.set(word, breaksOf(job, word, node));
    for (const [, node] of nodes) node.remove();
    return words;
  }
  const isUnbroken = item => /^(pre|nowrap)$/.test(item.used['white-space']);
  const isIn = (item, box) => { for (let up = item.up; up; up = up.up) if (up === box) return true; return false; };
  // A line may be broken between two texts where the box that holds both says so. Where the first one's own box doesn't, the place stands
  // behind that box.
  function allowBreak(before, item) {
    let box = before;
    while (!isIn(item, box.up)) box = box.up;
    if (isUnbroken(box.up)) return;
    before.breakAfter = true;
    if (isUnbroken(before.up)) box.breakBehind = true;
  }
  // Gives each text the places of its breaks.
  function findBreaks(job) {
    const groups = lineGroups(job), words = measureBreaks(job, groups);
    for (const group of groups) for (const match of group.text.matchAll(WORD)) for (const place of words.get(match[0]) || []) {
      const at = match.index + place;
      let part = group.parts.length - 1;
      while (group.parts[part][0] > at) part--;
      const [start, item] = group.parts[part];
      if (start < at) (item.breaks || (item.breaks = new Set())).add(at - start);
      else if (part > 0) allowBreak(group.parts[part - 1][1], item);
    }
  }

  // ---- Characters, each with the advance that it has here -----------------------------------------------------------------

  function codeOf(job, advance) {
    const code = advance < 6400 ? 0xE000 + advance : 0xF0000 + advance;        // private use characters
    job.advances.set(code, advance);
    return String.fromCodePoint(code);
  }
  // A pen writes one text. `written` is how far `lay` comes on this line, in units, from `left` on.
  function startPen(job, item) {
    const used = item.up.used, pre = isUnbroken(item.up);
    return { job, item, used, data: item.data, fontSize: item.up.fontSize, letter: lengthUnits(used['letter-spacing']),
      space: item.up.spaceWidth, breaks: pre ? null : item.breaks || new Set(), everywhere: /break-all/.test(used['word-break']), pre,
      edge: pre ? null : lineEdge(job, item),
      out: [], next: 0, top: null, left: 0, right: 0, written: 0, solid: false, last: null, lastOfLine: null, end: null, isFresh: true,
      leads: item.group && item.group.parts[0][1] === item };
  }
  // Where lines end on the right, without floats, in px of the window; null where that isn't known.
  function lineEdge(job, item) {
    const block = item.group && item.group.block;
    if (!block || !block.rect || item.made) return null;
    return block.rect[0] + block.rect[2] - float(block.used['border-right-width']) - float(block.used['padding-right']) - job.scrollX -
      item.scrolled[0];
  }
  function rectBetween(pen, from, to) {
    if (pen.item.made) return null;
    pen.job.range.setStart(pen.item.element, from); pen.job.range.setEnd(pen.item.element, to);
    const rects = pen.job.range.getClientRects();
    return rects.length ? rects[rects.length - 1] : null;
  }
  // What the texts before on this line were rounded by goes on: `written` begins with it.
  function startLine(pen, rect) {
    const before = pen.isFresh && pen.job.line, goesOn = before && before.group === pen.item.group && rect.top < before.bottom &&
      rect.bottom > before.top && rect.left >= before.right - 0.5;
    Object.assign(pen, { top: rect.top, left: rect.left, written: goesOn ? before.over : 0, last: null, isFresh: false });
  }
  function endText(pen) {
    const { job, item, end } = pen;
    if (!end || pen.top === null) { job.text = null; return; }
    job.text = { item, solid: pen.solid, bottom: end.bottom, right: end.right };
    job.line = { group: item.group, top: end.top, bottom: end.bottom, right: end.right, over: pen.left * 64 +
      pen.written - end.right * 64 };
  }
  function toLineOf(pen, rect) {
    if (pen.top !== null && Math.abs(rect.top - pen.top) <= 0.5 && rect.left >= pen.left) return;
    startLine(pen, rect);
  }
  const restOf = (pen, rect) => (rect.right - pen.left) * 64 - pen.letter - pen.written;
  // Browsers round the widths of texts up: a line may be 1/32 px wider than there is room for. By how much a character that is `units`
  // wide would pass the edge so.
  function pastEdge(pen, units) {
    const over = pen.edge === null ? 0 : Math.ceil((pen.left - pen.edge) * 64 + pen.written + units + pen.letter - 0.05);
    return over > 0 && over <= 2 ? over : 0;
  }
  // Writes a character that is `want` units wide. A word isn't made wider than it is: frozen boxes hold it exactly.
  function emit(pen, want) {
    let advance = nearestAdvance(Math.max(0, Math.round(want)), pen.fontSize);
    const ends = pen.next >= pen.data.length || /[\s\u00a0]/.test(pen.data[pen.next]);
    if (ends && !pen.item.made) {
      const most = want - pastEdge(pen, scaled(advance, pen.fontSize));
      while (advance > 0 && scaled(advance, pen.fontSize) > most + 0.05) advance--;
    }
    const units = scaled(advance, pen.fontSize);
    pen.written += units + pen.letter;
    pen.last = pen.lastOfLine = { at: pen.out.length, units, reached: pen.left * 64 + pen.written };
    pen.out.push(codeOf(pen.job, advance));
    pen.solid = true;
  }
  // Gives a character that was written another advance; answers by how much it is wider.
  function rewrite(pen, written, advance) {
    const more = scaled(advance, pen.fontSize) - written.units;
    pen.out[written.at] = codeOf(pen.job, advance);
    written.units += more;
    written.reached += more;
    return more;
  }
  // A place where a line may be broken: `lay` gives its character the letter spacing too.
  function writeBreakPlace(pen) { pen.out.push('\u200b'); pen.written += pen.letter; }
  // Whether a visible character of this text stands behind a space on its line.
  function goesOn(pen, rect) {
    let at = pen.next;
    while (!/^pre/.test(pen.used['white-space']) && /[ \t\r\n\f]/.test(pen.data[at] ?? '')) at++;
    if (at >= pen.data.length || /[\s\u00a0]/.test(pen.data[at])) return false;
    const next = rectBetween(pen, at, at + 1);
    return next !== null && next.width > 0 && Math.abs(next.top - rect.top) <= 0.5 && next.left >= rect.right - 0.5;
  }
  // Whether a space of `pre-wrap` begins a line and another one is behind it: no line is broken there.
  const isIndent = (pen, cluster) => pen.leads && cluster === ' ' && pen.used['white-space'] === 'pre-wrap' && pen.data[pen.next] === ' ';
  function writeSpace(pen, cluster, from) {
    if (cluster === '\u00a0' && pen.solid && pen.breaks && pen.breaks.has(from)) writeBreakPlace(pen);
    pen.solid = cluster === '\u00a0';
    const rect = rectBetween(pen, from, pen.next);
    // Nothing breaks at a space of `pre` and at a no-break space: it becomes a character of its width. So does a tab, which would count
    // the face's spaces; with `pre-wrap` a line may break behind it.
    const pre = pen.used['white-space'], kept = cluster === '\t' ? /^(pre|pre-wrap|break-spaces)$/.test(pre) : cluster === '\u00a0' ||
      pre === 'pre' && cluster !== '\n' || isIndent(pen, cluster);
    if (cluster === '\n' && /^pre/.test(pre)) Object.assign(pen, { leads: true, lastOfLine: null });
    if (kept && !pen.item.made) {
      if (rect) toLineOf(pen, rect);
      emit(pen, rect ? restOf(pen, rect) : 0);
      if (rect) pen.end = rect;
      if (cluster === '\t' && pre !== 'pre') { writeBreakPlace(pen); pen.solid = false; }
      return;
    }
    pen.out.push(cluster === '\r' || cluster === '\f' ? ' ' : cluster);         // browsers read CR as a space, CSS 2.2 as a character
    if (cluster === '\t' && kept) { pen.top = null; pen.last = null; return; }       // a collapsed one is a space
    if (pen.item.made) { pen.written += pen.space + pen.letter; return; }
    if (!rect || rect.width === 0) return;                                      // collapsed away
    if (pen.top === null || Math.abs(rect.top - pen.top) > 0.5) startLine(pen, rect);
    pen.written += pen.space + pen.letter;
    pen.end = rect;
    const over = Math.round((rect.right - pen.left) * 64 - pen.written);
    // Kerning of the space with what stands behind it goes to that character, so that it is gone where the line is broken there; at the
    // end of a text it goes to the character before.
    if (!goesOn(pen, rect) && pen.last && Math.abs(over) >= 1 && pen.last.units + over >= 0) {
      pen.written += rewrite(pen, pen.last, nearestAdvance(pen.last.units + over, pen.fontSize));
      pen.last = null;
    }
  }
  function warnOfScript(pen, cluster) {
    if (/[\u0590-\u08ff\ufb1d-\ufdff\ufe70-\ufefe]/.test(cluster)) warn(pen.job, 'right to left text', pen.item.up.element);
    else if (/[\u1100-\u11ff\u2e80-\ua4cf\uac00-\ud7af\uf900-\ufaff\uff00-\uffef]/.test(cluster)) {
      warn(pen.job, 'CJK text', pen.item.up.element);
    }
  }
  function writeVisible(pen, cluster, from) {
    const at = pen.item.up.element;
    pen.leads = false;
    if (cluster === '\u00ad') { warn(pen.job, 'soft hyphen (dropped)', at); return; }
    if (cluster === '\u200b') { pen.out.push(cluster); pen.solid = false; return; }
    const rect = rectBetween(pen, from, pen.next);
    if (!pen.item.made && !rect) return;
    const breaks = pen.solid && pen.breaks;
    // a new line goes on left of where the last character ended; a raised or transformed one doesn't
    const cut = breaks && rect && pen.top !== null && rect.top > pen.top + 0.5 && rect.left < pen.right - 0.5 &&
      !pen.item.up.turned && !breaks.has(from);
    if (rect) { breakBetween(pen, rect); keepBreak(pen, rect, from); pen.right = rect.right; }
    if (cut && !pen.everywhere) warn(pen.job, 'word broken inside', at);
    if (breaks && (breaks.has(from) || pen.everywhere || cut)) { endWithBreak(pen, rect); writeBreakPlace(pen); }
    if (pen.item.made) emit(pen, canvasAdvance(pen.job, pen.used, cluster) * pen.fontSize / 1000);
    else { toLineOf(pen, rect); emit(pen, restOf(pen, rect)); pen.end = rect; }
    warnOfScript(pen, cluster);
  }
  // A generated text at the end of an element may be broken inside, as by `overflow-wrap`; only the element's last line tells how much of
  // it stands there. Gives it that break.
  function breakGenerated(job, item) {
    const box = item.up, around = box.up, used = box.used, word = item.data;
    if (box.pseudo !== '::after' || !around || around.used.display !== 'inline' || !/[^\s]{2}/.test(word) || !around.rects ||
      around.rects.length < 2) return;
    if (!/break-word|anywhere/.test(used['overflow-wrap']) && used['word-break'] !== 'break-word') return;
    const edge = ['padding-right', 'border-right-width', 'margin-right'].reduce((sum, name) => sum + float(used[name]) +
      float(around.used[name]), 0);
    const last = around.rects[around.rects.length - 1], before = around.rects[around.rects.length - 2],
      letter = float(used['letter-spacing']);
    const clusters = job.clusters(word), size = float(used['font-size']) / 1000;
    let tail = last[2] - edge, at = word.length, k = clusters.length;
    if (last[1] < before[1] + 1) return;
    while (k > 0 && tail > 0.4) { k--; at -= clusters[k].length; tail -= canvasAdvance(job, used, clusters[k]) * size + letter; }
    if (at > 0 && Math.abs(tail) <= 1) (item.breaks || (item.breaks = new Set())).add(at);
    const parts = item.group ? item.group.parts : [], place = parts.findIndex(([, other]) => other === item);
    // where all of it stands on the last line, with its left edges, the text before it ends with a break
    const start = float(used['padding-left']) + float(used['border-left-width']) + float(used['margin-left']);
    if (at === 0 && tail > -1 && tail <= start + 1 && place > 0) parts[place - 1][1].breakAfter = true;
  }
  // A word that goes on in the next text may be broken between both, as by `overflow-wrap`: the text before ends with a break then.
  function breakBetween(pen, rect) {
    const { job, item } = pen, before = pen.isFresh && !pen.out.length && job.text;
    if (!before || pen.item.made || before.item.group !== item.group || !before.solid || pen.pre || item.up.turned) return;
    if (rect.top < before.bottom - 2 || rect.left >= before.right - 0.5 || before.item.out.endsWith('\u200b')) return;
    before.item.out += '\u200b';
    warn(job, 'word broken inside', item.up.element);
  }
  // The right edges of the inline boxes that end behind a text, before the next one of its line content, in px.
  function edgesBehind(item, next) {
    let sum = 0;
    for (let box = item.up; box.used.display === 'inline' && !(next && isIn(next[1], box)); box = box.up) {
      sum += ['margin-right', 'border-right-width', 'padding-right'].reduce((edges, name) => edges + float(box.used[name]), 0);
    }
    return sum;
  }
  // How wide the word is that begins at a place of a text, up to where a line may be broken, in px; it goes on in the texts behind it. Null
  // where it stands on several lines.
  function wordWidth(job, item, from) {
    const { parts } = item.group;
    let width = 0;
    for (let part = parts.findIndex(([, other]) => other === item), at = from; part < parts.length; part++, at = 0) {
      const { data, element, breaks, made, breakAfter } = parts[part][1];
      let to = at;
      while (to < data.length && !/[ \t\r\n\f\u200b]/.test(data[to]) && !(to > from && breaks && breaks.has(to))) to++;
      if (made) return width;
      job.range.setStart(element, at); job.range.setEnd(element, to);
      const rects = [...job.range.getClientRects()].filter(rect => rect.width > 0);
      if (rects.length > 1) return null;
      width += rects.length ? rects[0].width : 0;
      if (to < data.length) return width;
      width += edgesBehind(parts[part][1], parts[part + 1]);
      if (breakAfter) return width;
    }
    return width;
  }
  const beginsLine = (pen, rect) => pen.top !== null && rect.top > pen.top + 0.5;
  // A line that is full to less than 1 px is broken by kerning that is gone behind the break, and by what is rounded: where the word that
  // begins a line could fit on the line before, the last character there is made so wide that it doesn't.
  function keepBreak(pen, rect, from) {
    const { job, item, lastOfLine } = pen;
    if (item.made || !beginsLine(pen, rect) || !pen.end || !lastOfLine || pen.edge === null) return;
    if (!/^(left|start|justify|-webkit-auto)$/.test(pen.used['text-align'])) return;
    const word = wordWidth(job, item, from);
    if (word === null) return;
    // spaces that are kept are written, others are gone at the end of a line
    const reached = /^pre|break-spaces/.test(pen.used['white-space']) ? pen.left * 64 + pen.written :
      lastOfLine.reached + (pen.solid ? 0 : pen.space + pen.letter);
    const left = pen.edge * 64 - reached - (word * 64 - 1.5);
    if (left < 0 || left >= 66) return;
    const advance = Math.ceil((lastOfLine.units + left + 1) * 1000 / pen.fontSize);
    if (advance <= 10000) rewrite(pen, lastOfLine, advance);
  }
  // `lay` gives the character of a break the letter spacing too: where a line ends with one, the character before makes up for it.
  function endWithBreak(pen, rect) {
    const { lastOfLine, letter } = pen;
    if (!letter || !rect || !lastOfLine || !beginsLine(pen, rect)) return;
    rewrite(pen, lastOfLine, nearestAdvance(Math.max(0, lastOfLine.units - letter), pen.fontSize));
  }
  function rewriteText(job, item) {
    const pen = startPen(job, item);
    for (const cluster of job.clusters(item.data)) {
      const from = pen.next;
      pen.next += cluster.length;
      if (/^[ \t\r\n\f]+$/.test(cluster) || cluster === '\u00a0') writeSpace(pen, cluster, from);
      else writeVisible(pen, cluster, from);
    }
    if (item.breakAfter && !pen.pre) writeBreakPlace(pen);
    endText(pen);
    return pen.out.join('');
  }
  function rewriteTexts(job) {
    findBreaks(job);
    for (const item of job.items) if (item.kind === 'text' && item.made && item.up.pseudo) breakGenerated(job, item);
    for (const item of job.items) if (item.kind === 'text') item.out = rewriteText(job, item);
  }

  // ---- Changes of the page for a moment -----------------------------------------------------------------------------------

  // Runs `work` while the element has these declarations, and leaves its style attribute as it was.
  function withStyle(element, declarations, work) {
    const before = element.getAttribute('style');
    for (const [name, value] of Object.entries(declarations)) element.style.setProperty(name, value, 'important');
    try { work(); } finally {
      element.getAttribute('style');                                            // Chromium writes it late, and would leave an empty one
      if (before === null) element.removeAttribute('style'); else element.setAttribute('style', before);
    }
  }
  // A sticky box stands where `relative` without offsets puts it, moved: by how much.
  function measureSticky(job) {
    for (const item of job.items) if (item.used && /sticky$/.test(item.used.position) && !item.pseudo && item.rect) {
      const offsets = { position: 'relative', top: 'auto', right: 'auto', bottom: 'auto', left: 'auto' };
      withStyle(item.element, offsets, () => {
        const rect = onPage(job, item.element.getBoundingClientRect(), item.scrolled);
        item.stuck = [item.rect[0] - rect[0], item.rect[1] - rect[1]];
      });
    }
  }
  // With a hidden root getComputedStyle answers computed and not used values, in every browser.
  function readComputed(job) {
    withStyle(job.root, { display: 'none' }, () => {
      for (const item of job.items) if (item.used) {
        item.computed = item.wrapper ? item.used : readStyle(job, item.element, item.pseudo, READ_AGAIN, { ...item.used });
        if (item.element === job.root && !item.pseudo) item.computed.display = item.used.display;
        const number = job.measured || !/px$/.test(item.computed['line-height']) ? null : lineHeightNumber(item);
        if (number !== null) item.lineNumber = numberText(number);
      }
    });
    job.win.scrollTo(job.scrollX, job.scrollY);
  }

  // ---- Declarations -------------------------------------------------------------------------------------------------------

  // What is being made of one item: its declarations `style`, and what its children inherit.
  function startStyle(job, item, inherited) {
    const computed = item.computed, options = job.options;
    const frozen = options.freeze && item.up && !isOut(computed.position) && (FROZEN.test(item.up.used.display) ||
      legendOf(item.up) === item);
    return { job, item, computed, used: item.used, at: item.element, style: {}, before: inherited, inherited: {}, frozen,
      isRoot: !item.up, isReplaced: item.kind === 'replaced', display: computed.display, position: computed.position, overflow: null };
  }
  const put = (making, name, value) => { if (value !== INITIAL[name]) making.style[name] = value; };

  function putDisplay(making) {
    const { job, item, computed, at } = making;
    if (making.display === 'flow-root') Object.assign(making, { display: 'block', overflow: 'hidden' });
    making.flexible = FROZEN.test(making.display);
    if (making.flexible) {
      warn(job, 'display: ' + making.display + (job.options.freeze ? ' (its items frozen)' : ''), at);
      making.display = /inline/.test(making.display) ? 'inline-block' : 'block';
    }
    if (!DISPLAYS.has(making.display)) {
      if (!LAYOUT_OF_ITS_OWN.test(item.tag)) warn(job, `display: ${making.display} (read as block)`, at);
      making.display = /^ruby/.test(making.display) ? 'inline' : 'block';
    }
    if (making.isReplaced && isTable(making.display)) making.display = 'block';
    put(making, 'display', making.display);
    for (const [name, harmless, what] of UNKNOWN) {
      const value = making.used[name], told = !making.isRoot && value === item.up.used[name];     // a box is needed to compute `transform`
      if (!harmless.test(value) && !told) warn(job, what(value), at);
    }
    if (making.used.transform !== 'none') item.moved = true;
    if (!item.emptied && (computed['column-count'] !== 'auto' || computed['column-width'] !== 'auto')) warn(job, 'columns', at);
    if (making.display !== 'list-item' || computed['list-style-type'] === 'none') return;
    if (computed['list-style-position'] === 'inside') warn(job, 'list marker inside (an empty box of its width)', at);
    if (!item.kids.length) warn(job, 'empty list item with a marker', at);
  }
  const STARTS = [['left', 'right', 0], ['top', 'bottom', 1]];
  // The corner of what `lay` has for the containing block of an absolute box: that of a padding box, or of the page.
  function containingCorner(making) {
    let up = making.position === 'fixed' ? null : making.item.up;
    while (up && !up.contains) up = up.up;
    if (!up || !up.rect) return [0, 0];
    return [up.rect[0] + float(up.used['border-left-width']), up.rect[1] + float(up.used['border-top-width'])];
  }
  // Where the browser has an absolute box that has no offset on this axis.
  function putStaticOffset(making, side, axis) {
    const { item, used } = making;
    put(making, side, pixelText(item.rect[axis] - float(used['margin-' + side]) - containingCorner(making)[axis]));
  }
  function putPosition(making) {
    const { job, item, computed, used, at } = making;
    const sticky = /sticky$/.test(making.position);
    if (sticky) { warn(job, 'position: sticky (frozen where it is)', at); making.position = 'relative'; }
    const still = item.up && isOut(making.position) ? STARTS.filter(([a, b]) => computed[a] === 'auto' && computed[b] === 'auto') : [];
    const frozenStill = job.options.freeze && item.rect && !making.frozen;
    if (still.length) warn(job, 'absolute box at its static position' + (frozenStill ? ' (frozen)' : ''), at);
    if (making.frozen) making.position = 'absolute';
    put(making, 'position', making.position);
    const floating = { 'inline-start': 'left', 'inline-end': 'right', left: 'left', right: 'right' };
    put(making, 'float', !making.frozen && floating[computed.float] || 'none');
    put(making, 'clear', making.frozen ? 'none' : computed.clear === 'both' ? 'both' : floating[computed.clear] || 'none');
    making.floats = making.style.float !== undefined;
    if (sticky && !making.frozen && item.stuck) {
      const moves = item.stuck.map(pixelText);
      for (const [side, move] of [['left', moves[0]], ['top', moves[1]]]) put(making, side, move === '0' ? 'auto' : move);
    } else if (making.position !== 'static' && !making.frozen && !sticky) for (const side of SIDES) {
      const value = lengthText(computed[side], ['auto']);
      if (value === null) warn(job, 'offset: calc (used value taken)', at);
      put(making, side, value === null ? pixelText(float(used[side])) : value);
    }
    if (frozenStill) for (const [side, , axis] of still) putStaticOffset(making, side, axis);
    if (/^-?\d{1,9}$/.test(computed['z-index'])) put(making, 'z-index', computed['z-index']);
  }
  // The width or height as `lay` has it, of the content.
  function sizeText(making, dimension) {
    const { job, item, computed, used, at, display } = making;
    if (making.frozen || item.emptied || job.options.freeze && making.flexible) return pixelText(usedContent(item, dimension));
    const value = lengthText(computed[dimension], ['auto']);
    if (value === null) {
      warn(job, `${dimension}: ${computed[dimension].replace(/[\d.]+/g, '..')} (used value taken)`, at);
      return pixelText(usedContent(item, dimension));
    }
    if (value === 'auto' || computed['box-sizing'] !== 'border-box') return value;
    if (!/%$/.test(value)) return pixelText(Math.max(0, float(computed[dimension]) - edgesOf(used, dimension)));
    const matters = edgesOf(used, dimension) > 0 || isTable(display) && used['border-collapse'] === 'collapse';
    if (!matters || !/px$/.test(used[dimension])) return value;
    warn(job, `${dimension} in percent with box-sizing: border-box` + (job.options.freeze ? ' (used value taken)' : ''), at);
    return job.options.freeze ? pixelText(usedContent(item, dimension)) : value;
  }
  function putLimit(making, dimension, limit) {
    const { job, computed, used, at } = making, name = limit + dimension, none = limit === 'min-' ? '0' : 'none';
    let value = lengthText(computed[name], ['auto', 'none']);
    if (value === null) {
      if (!LAYOUT_OF_ITS_OWN.test(making.item.tag)) warn(job, `${name}: ${computed[name].replace(/[\d.]+/g, '..')} (left out)`, at);
      return;
    }
    const border = computed['box-sizing'] === 'border-box';
    if (value === 'auto' || value === 'none') value = none;
    else if (border && /px$/.test(value)) value = pixelText(Math.max(0, float(computed[name]) - edgesOf(used, dimension)));
    else if (border && /%$/.test(value) && edgesOf(used, dimension) > 0) warn(job, `${name} in percent with box-sizing: border-box`, at);
    put(making, name, value);
  }
  // What is inside its own context, and so keeps out of the way of floats.
  function isContext(making) {
    const { item, computed } = making;
    return item.tag === 'fieldset' || making.overflow === 'hidden' || /hidden|scroll|auto|overlay/.test(computed['overflow-x']);
  }
  // Whether the browser gave a block less width than its container has, as beside a float; `lay` never does.
  function isNarrowed(making) {
    const { job, item, used, computed } = making;
    if (!job.options.freeze || making.frozen || making.floats || !item.rect || !item.up || isOut(making.position)) return false;
    if (!/^(block|list-item)$/.test(making.display) || computed.width !== 'auto' || !isContext(making)) return false;
    let up = item.up;
    while (up.up && up.used.display === 'inline') up = up.up;
    if (!up.rect || FROZEN.test(up.used.display)) return false;
    const room = up.rect[2] - edgesOf(up.used, 'width') - Math.max(0, float(used['margin-left'])) - Math.max(0,
      float(used['margin-right']));
    const limit = lengthText(computed['max-width'], ['none']), most = /px$/.test(limit) ? float(limit) + edgesOf(used, 'width') : room;
    return item.rect[2] < Math.min(room, most) - 1 / 32 && !/%$/.test(limit || '');
  }
  function putSizes(making) {
    if (making.display === 'inline' && !making.isReplaced && !making.isRoot && !isOut(making.position) && !making.floats) return;
    const narrowed = isNarrowed(making);
    if (narrowed) warn(making.job, 'narrowed beside a float (width frozen)', making.at);
    for (const dimension of ['width', 'height']) {
      const isUsed = narrowed && dimension === 'width';
      put(making, dimension, isUsed ? pixelText(usedContent(making.item, dimension)) : sizeText(making, dimension));
      if (making.frozen || making.job.options.freeze && making.flexible) continue;
      putLimit(making, dimension, 'min-');
      putLimit(making, dimension, 'max-');
    }
  }
  function putEdges(making) {
    const { job, computed, used, at } = making;
    for (const side of SIDES) {
      let value = lengthText(computed['margin-' + side], ['auto']);
      if (making.frozen) value = '0';
      else if (value === null) { warn(job, 'margin: calc (used value taken)', at); value = pixelText(float(used['margin-' + side])); }
      put(making, 'margin-' + side, value);
      value = lengthText(computed['padding-' + side], []);
      if (value === null) { warn(job, 'padding: calc (used value taken)', at); value = pixelText(float(used['padding-' + side])); }
      put(making, 'padding-' + side, value);
      const border = computed[`border-${side}-style`];
      put(making, `border-${side}-style`, border);
      if (border === 'none' || border === 'hidden') continue;
      const width = pixelText(float(computed[`border-${side}-width`]));
      if (width !== '3px') making.style[`border-${side}-width`] = width;
    }
  }
  // A fieldset holds its floats and margins, and begins below its legend.
  function putFieldset(making) {
    const { job, item, used, style } = making, legend = legendOf(item), top = float(used['border-top-width']);
    if (item.tag !== 'fieldset' || !job.options.freeze) return;
    making.overflow = 'hidden';
    if (making.position === 'static') style.position = 'relative';
    if (!legend || !legend.rect) return;
    // Firefox has room for both margins of a legend; Chromium centres one that is lower than the border, and has no room for its top margin
    const before = isFirefox(job) ? float(legend.used['margin-top']) : Math.max(0, (top - legend.rect[3]) / 2);
    const high = before + legend.rect[3] + float(legend.used['margin-bottom']);
    if (high > top) style['padding-top'] = pixelText(float(used['padding-top']) + high - top);
  }
  // A frozen item stands in its container where it was.
  function putFrozenPlace(making) {
    const { item, style } = making, rect = item.rect, around = item.up.rect;
    if (!rect || !around) return;
    const top = item.wrapper ? rect[1] - (item.probe.above - item.probe.ascent) : rect[1];
    style.left = pixelText(rect[0] - around[0] - float(item.up.used['border-left-width']));
    style.top = pixelText(top - around[1] - float(item.up.used['border-top-width']));
    if (!item.wrapper) return;
    style.width = pixelText(Math.ceil(rect[2] * 64 + 1) / 64);
    delete style.height;
    for (const side of SIDES) for (const name of [`padding-${side}`, `border-${side}-style`, `border-${side}-width`]) delete style[name];
  }
  // `align=center` and the like move blocks in a way that no property says.
  function putAlignedBlock(making) {
    const { job, item, used, style, at } = making;
    if (making.isRoot || !/^-(webkit|moz)-(center|right)$/.test(item.up.computed['text-align'])) return;
    if (!/^(block|table|list-item)$/.test(making.display) || making.position !== 'static' || making.floats) return;
    if (!item.rect || !item.up.rect) return;
    const left = item.rect[0] - (item.up.rect[0] + float(item.up.used['border-left-width']) + float(item.up.used['padding-left']));
    if (Math.abs(left - float(used['margin-left'])) <= 0.02) return;
    style['margin-left'] = pixelText(left);
    warn(job, 'align=center of a block (frozen as a margin)', at);
  }
  const barWidth = ({ element, used }) =>
    element.offsetWidth - element.clientWidth - float(used['border-left-width']) - float(used['border-right-width']);
  function putOverflow(making) {
    const { job, item, computed, at } = making;
    if (making.isReplaced) return;
    const both = [computed['overflow-x'], computed['overflow-y']];
    let value = both.find(word => /^(hidden|scroll|auto|overlay|clip)$/.test(word)) || 'visible';
    if (value === 'clip') { warn(job, 'overflow: clip (read as visible)', at); value = 'visible'; }
    if (value === 'overlay') value = 'auto';
    const ofViewport = item.element.localName === 'body' && item.up && item.up.computed['overflow-x'] === 'visible';
    if (making.isRoot || ofViewport && !item.wrapper) value = 'visible';
    if (/scroll|auto/.test(value) && !item.pseudo && barWidth(item) > 1) warn(job, 'scroll bar that takes room', at);
    if (item.emptied) making.overflow = 'hidden';
    put(making, 'overflow', value === 'visible' && making.overflow || value);
  }
  function inheritTexts(making) {
    const { job, item, computed, at, inherited } = making;
    const space = computed['white-space'];
    if (!WHITE_SPACES.includes(space)) warn(job, 'white-space: ' + space, at);
    inherited['white-space'] = WHITE_SPACES.includes(space) ? space : /nowrap/.test(space) ? 'nowrap' : 'normal';
    const align = ALIGNMENTS[computed['text-align']] || 'left';
    const told = !making.isRoot && item.up.computed['text-align'] === 'justify';
    if (align === 'justify' && !told) warn(job, 'text-align: justify (read as left)', at);
    inherited['text-align'] = align;
    const indent = lengthText(computed['text-indent'], []);
    if (indent === null) warn(job, 'text-indent: calc (left out)', at);
    inherited['text-indent'] = indent || '0';
    const letter = float(computed['letter-spacing']), word = float(computed['word-spacing']);
    inherited['letter-spacing'] = letter === 0 ? 'normal' : pixelText(letter);
    inherited['word-spacing'] = word === 0 ? 'normal' : pixelText(word);
    if (job.measured) inherited['word-spacing'] = item.wordSpacing === 0 ? 'normal' : unitsText(item.wordSpacing);
    let height = computed['line-height'];
    if (job.measured) height = unitsText(item.line);
    else if (item.lineNumber) height = item.lineNumber;
    else if (/px$/.test(height)) height = pixelText(float(height));
    inherited['line-height'] = height === '0' ? '0px' : height;
  }
  function putInherited(making) {
    const { job, computed, inherited, before } = making;
    inherited['font-size'] = pixelText(float(computed['font-size']));
    inheritTexts(making);
    inherited['border-collapse'] = computed['border-collapse'] === 'collapse' ? 'collapse' : 'separate';
    const spacing = computed['border-spacing'].split(' ').map(float);
    inherited['border-spacing'] = spacing.every(value => value === 0) ? '0' : spacing.map(pixelText).join(' ');
    inherited['caption-side'] = computed['caption-side'] === 'bottom' ? 'bottom' : 'top';
    inherited.visibility = ['visible', 'hidden', 'collapse'].includes(computed.visibility) ? computed.visibility : 'visible';
    inherited['empty-cells'] = computed['empty-cells'] === 'hide' ? 'hide' : 'show';
    if (making.isReplaced && job.measured) for (const name of ['line-height', 'word-spacing']) inherited[name] = before[name];
    for (const name in inherited) if (inherited[name] !== before[name]) making.style[name] = inherited[name];
  }
  // Units by which a control's or a broken image's baseline, that of its own text, stands above its bottom margin edge.
  function baselineOfText(item) {
    const { element, used, probe } = item;
    const below = ['margin-bottom', 'border-bottom-width', 'padding-bottom'].reduce((sum, name) => sum + float(used[name]), 0);
    if (element.localName === 'img' && !item.natural && element.alt) return Math.round((below + item.size[1] - probe.above) * 64);
    const texts = /^(button|input|select)$/.test(element.localName) && !/^(checkbox|radio|range|color|image|hidden)$/.test(element.type);
    if (!texts) return 0;
    return Math.round((below + Math.max(0, item.size[1] - probe.line) / 2 + probe.line - probe.above) * 64);
  }
  // Baselines of other fonts are made up for by `vertical-align`.
  function raisedText(making, value) {
    const { item, computed, display } = making, up = item.up;
    const lowers = making.isReplaced ? false : display === 'inline' ||
      display === 'inline-block' && computed['overflow-x'] === 'visible' && item.kids.length;
    let units = (lowers ? item.lower : 0) - up.lower - (making.isReplaced ? baselineOfText(item) : 0);
    if (value === 'sub' || value === 'super') units += Math.round(up.probe[value] * 64);
    else if (value !== 'baseline') units += lengthUnits(value);
    return units === 0 ? 'baseline' : unitsText(units);
  }
  // What a box in a line has above and below its baseline, in units; null where that isn't known: an inline-block of more than a line.
  function aboveAndBelow(making) {
    const { item, used, computed, display } = making, units = number => Math.round(number * 64);
    const height = item.rect ? units(item.rect[3] + float(used['margin-top']) + float(used['margin-bottom'])) : 0;
    if (!item.rect) return null;
    if (making.isReplaced) return [height, 0];
    if (display === 'inline') return [units(item.probe.above), item.line - units(item.probe.above)];
    const oneLine = item.kids.length && item.kids.every(kid => kid.kind === 'text') && units(usedContent(item, 'height')) === item.line;
    if (display !== 'inline-block' || !oneLine || computed['overflow-x'] !== 'visible') return null;
    const before = float(used['margin-top']) + float(used['border-top-width']) + float(used['padding-top']);
    const above = units(before + item.probe.above);
    return [above, height - above];
  }
  // The words that are about the parent's font, as lengths: by how much the baseline is raised.
  function alignedText(making, value, [above, below]) {
    const { item } = making, up = item.up, units = number => Math.round(number * 64);
    const lower = (making.isReplaced ? 0 : item.lower) - up.lower;
    if (value === 'middle') return unitsText(Math.floor(units(up.probe.ex) / 2) + lower - Math.floor((above - below) / 2));
    if (value === 'text-top') return unitsText(units(up.probe.ascent) + lower - above);
    return unitsText(below + lower - units(up.probe.content - up.probe.ascent));
  }
  function putVerticalAlign(making) {
    const { job, item, computed, at, display } = making;
    let value = computed['vertical-align'];
    if (!/^(baseline|sub|super|top|text-top|middle|bottom|text-bottom)$/.test(value)) {
      value = lengthText(value, []);
      if (value === null) { warn(job, 'vertical-align: ' + computed['vertical-align'], at); value = 'baseline'; }
    }
    const inLine = /^inline/.test(display) && !isOut(making.position) && !making.floats && item.up;
    if (job.measured && inLine) {
      if (/^(baseline|sub|super|-?[\d.]+px|0)$/.test(value)) value = raisedText(making, value);
      const extent = /^(middle|text-top|text-bottom)$/.test(value) && aboveAndBelow(making);
      if (extent) value = alignedText(making, value, extent);
    }
    if (display === 'table-cell' && !['top', 'middle', 'bottom', 'baseline'].includes(value)) value = 'baseline';
    put(making, 'vertical-align', value);
  }
  function styleOf(job, item, inherited) {
    const making = startStyle(job, item, inherited);
    putDisplay(making);
    putPosition(making);
    putSizes(making);
    putEdges(making);
    putFieldset(making);
    if (making.frozen) putFrozenPlace(making);
    if (job.options.freeze && making.flexible && making.position === 'static') making.style.position = 'relative';
    putAlignedBlock(making);
    putOverflow(making);
    if (isTable(making.display)) put(making, 'table-layout', making.computed['table-layout'] === 'fixed' ? 'fixed' : 'auto');
    putInherited(making);
    putVerticalAlign(making);
    const outside = /^(inline|table-(row|cell|caption|row-group|header-group|footer-group|column|column-group))$/.test(making.display);
    item.contains = making.style.position !== undefined && (!outside || isOut(making.style.position) || making.floats);
    return making;
  }

  // ---- Automatic tables: the browser's columns, as column elements --------------------------------------------------------

  const displayOf = item => item.used ? item.used.display : '';
  const spacingOf = used => used['border-collapse'] === 'collapse' ? 0 : float(used['border-spacing']);

  // [cell, its first column, how many it spans] of each cell.
  function cellsOf(table) {
    const cells = [];
    const visitRows = (group, inner) => {
      const busy = new Map();                                                   // columns that a cell from above takes, up to a row
      let row = 0;
      for (const kid of group.kids) {
        if (/^table-(row|header|footer)-group$/.test(displayOf(kid))) { visitRows(kid, true); continue; }
        if (displayOf(kid) !== 'table-row') continue;
        let column = 0;
        for (const cell of kid.kids) if (displayOf(cell) === 'table-cell') {
          while ((busy.get(column) || 0) > row) column++;
          const span = cell.element.colSpan || 1;
          cells.push([cell, column, span]);
          for (let k = 0; k < span; k++) busy.set(column + k, row + (cell.element.rowSpan || 1));
          column += span;
        }
        row++;
      }
    };
    visitRows(table, false);
    return cells;
  }
  function columnElements(item) {
    let count = 0;
    for (const kid of item.kids) {
      if (displayOf(kid) === 'table-column') count += kid.element.span || 1;
      else if (displayOf(kid) === 'table-column-group') count += columnElements(kid) || kid.element.span || 1;
    }
    return count;
  }
  function columnWidths(table) {
    const cells = cellsOf(table).filter(([cell]) => cell.rect), spacing = spacingOf(table.used);
    const count = Math.max(columnElements(table), ...cells.map(([, column, span]) => column + span));
    if (!(count > 0) || count > 200) return null;
    const widths = Array(count).fill(null);
    for (const [cell, column, span] of cells) if (span === 1) widths[column] = Math.max(widths[column] ?? 0, cell.rect[2]);
    for (const [cell, column, span] of cells.sort((a, b) => a[2] - b[2])) if (span > 1) {
      const open = [];
      let known = spacing * (span - 1);
      for (let k = column; k < column + span; k++) if (widths[k] === null) open.push(k); else known += widths[k];
      for (const k of open) widths[k] = Math.max(0, (cell.rect[2] - known) / open.length);
    }
    // columns without cells share what is left
    const edges = table.used['border-collapse'] === 'collapse' ? 0 : edgesOf(table.used, 'width');
    const rest = table.rect ? table.rect[2] - edges - spacing * (count + 1) - widths.reduce((sum, width) => sum + (width ?? 0), 0) : 0;
    const without = widths.filter(width => width === null).length;
    return widths.map(width => width ?? Math.max(0, rest / without));
  }
  // Freezes an automatic table's columns: their widths, or null where the table stays as it is.
  function freezeTable(job, making) {
    const { item, computed, style } = making, freeze = job.options.freeze;
    const sum = widths => widths.reduce((a, b) => a + b, 0);
    if (freeze && (computed['table-layout'] !== 'fixed' || computed.width === 'auto')) {
      const widths = columnWidths(item);
      if (!widths) return null;
      warn(job, 'automatic table (column widths frozen)', item.element);
      const collapsed = item.used['border-collapse'] === 'collapse';
      style['table-layout'] = 'fixed';
      style.width = pixelText(Math.max(0, collapsed ? sum(widths) : item.rect[2] - edgesOf(item.used, 'width')));
      delete style['min-width']; delete style['max-width'];
      return widths;
    }
    if (freeze && item.used['border-collapse'] === 'collapse' && computed['box-sizing'] === 'border-box') {
      // CSS 2.2's width of such a table leaves out half of its outer borders
      const widths = columnWidths(item);
      if (widths) style.width = pixelText(sum(widths));
    } else if (computed['table-layout'] !== 'fixed') warn(job, 'automatic table', item.element);
    return null;
  }

  // What a cell is higher than the rows that it spans goes to the last of them in `lay`, and to all in browsers: such rows have
  // their used heights.
  function freezeRows(job, table) {
    const spans = cellsOf(table).some(([cell]) => cell.element.rowSpan > 1);
    if (!job.options.freeze || !spans || table.used['border-collapse'] === 'collapse') return;
    warn(job, 'cell that spans rows (row heights frozen)', table.element);
    const visit = group => {
      for (const kid of group.kids) {
        if (/^table-(row|header|footer)-group$/.test(displayOf(kid))) visit(kid);
        else if (displayOf(kid) === 'table-row' && kid.rect) kid.rowHeight = kid.rect[3];
      }
    };
    visit(table);
  }

  // ---- The document -------------------------------------------------------------------------------------------------------

  function saveRects(job, item) {
    if (!job.options.rects || !item.rects || !item.rects.length) return;
    job.rects[item.id] = item.rects.map(rect => rect.map(value => Math.round(value * 64 * 16) / 16));
  }
  // What a replaced element shows, as a text: its address, what was drawn on it, or its own markup.
  function sourceOf(element) {
    const address = element.currentSrc || element.src;
    if (address) return `${element.localName} ${address}`;
    const copy = element.cloneNode(true);
    if (element.localName === 'canvas') {
      try { return element.toDataURL() === copy.toDataURL() ? '' : element.toDataURL(); } catch { return 'a canvas that can\'t be read'; }
    }
    for (const name of ['id', 'class', 'style']) copy.removeAttribute(name);
    return copy.outerHTML;
  }
  function savePaint(job, item) {
    if (!job.options.paint || item.wrapper) return;
    const style = job.win.getComputedStyle(item.element, item.pseudo || null), { element } = item;
    const source = item.kind === 'replaced' ? sourceOf(element) : '';
    job.paint[item.id] = { background: style.backgroundColor, image: style.backgroundImage,
      borders: SIDES.map(side => style.getPropertyValue(`border-${side}-color`)),
      color: style.color, opacity: style.opacity, outline: style.outlineStyle === 'none' ? '' :
        `${style.outlineColor} ${style.outlineWidth}`, source };
  }
  // What to add to the y and the height of a text or inline box of another font than the face's before comparing.
  function saveFit(job, item, font) {
    if (!job.options.rects || !font.probe) return;
    const ascent = scaled(job.face.ascent, font.fontSize), height = ascent + scaled(job.face.descent, font.fontSize);
    job.fit[item.id] = [ascent - Math.round(font.probe.ascent * 64) + font.lower, Math.round(font.probe.content * 64) - height];
  }
  function transformed(text, how) {
    if (how === 'uppercase') return text.toUpperCase();
    if (how === 'lowercase') return text.toLowerCase();
    return how === 'capitalize' ? text.replace(/(^|\s)(\S)/g, (_, before, first) => before + first.toUpperCase()) : text;
  }
  function writeText(job, item, parent) {
    let text = job.measured ? item.out : transformed(item.data, item.up.used['text-transform']);
    if (text === '') return;
    if (!job.measured) for (const character of text) {
      const code = character.codePointAt(0);
      if (!job.advances.has(code) && code > 0x20) job.advances.set(code, thousandths(canvasAdvance(job, job.main.used, character)));
    }
    const length = new TextEncoder().encode(text).length;
    job.bytes += length;
    if (length > 65536) { warn(job, 'text of more than 65,536 bytes (cut)', item.up.element); text = [...text].slice(0, 16384).join(''); }
    // `lay` reads no member `as`: it is the text as it was, for people and pictures
    job.nodes.push(job.measured ? { id: item.id, parent, kind: 'text', text, as: item.data } : { id: item.id, parent, kind: 'text', text });
    job.kinds[item.id] = item.made ? 'skip' : 'text';                           // no browser tells where generated texts are
    saveRects(job, item);
    saveFit(job, item, item.up);
  }
  function writeBreak(job, item, parent) {
    if (item.computed.clear !== 'none') warn(job, 'br with clear (clear left out)', item.element);
    const style = { 'white-space': 'pre' };
    if (job.measured && item.lower !== item.up.lower) {
      style['line-height'] = unitsText(item.line);
      style['font-size'] = pixelText(float(item.computed['font-size']));
    }
    job.nodes.push({ id: item.id, parent, kind: 'element', style }, { id: job.extraId++, parent: item.id, kind: 'text', text: '\n' });
    job.kinds[item.id] = 'break';
  }
  function writeReplaced(job, item, parent, making) {
    const { style } = making, [width, height] = item.size;
    let natural = item.natural;
    const fix = () => { style.width = pixelText(width); style.height = pixelText(height); };
    if (!natural || !(natural[0] >= 1 && natural[1] >= 1)) { natural = item.size.map(value => Math.max(1, Math.round(value))); fix(); }
    // natural sizes are whole px here: a picture of another ratio (SVG) has its used size
    const oneAuto = ['width', 'height'].filter(name => style[name] === undefined).length === 1;
    const other = oneAuto && Math.abs(height * natural[0] - width * natural[1]) > natural[0] / 32;
    if (job.options.freeze && (/^\d/.test(item.computed['aspect-ratio']) || other)) fix();
    job.nodes.push({ id: item.id, parent, kind: 'replaced', natural: natural.map(value => Math.min(1000000, value)), style });
    job.kinds[item.id] = making.display === 'inline' ? 'atom' : 'block';
    saveRects(job, item);
    savePaint(job, item);
  }
  function kindOf(item, making) {
    const { display, style } = making, out = !item.up || isOut(style.position) || style.float;
    if (item.wrapper || item.pseudo || item.moved) return 'skip';
    if (isTable(display)) return 'table';
    if (/^table-column/.test(display)) return 'column';
    return display === 'inline' && !out ? 'inline' : display === 'inline-block' && !out ? 'atom' : 'block';
  }
  function spansOf(job, item, making) {
    const { element } = item, spans = {}, held = span => Math.min(64, span);
    if (making.display === 'table-cell') {
      if (element.colSpan > 1) spans.colspan = held(element.colSpan);
      if (element.rowSpan > 1) spans.rowspan = held(element.rowSpan);
      if (element.rowSpan === 0) warn(job, 'rowspan 0', element);
    }
    if (/^table-column/.test(making.display) && element.span > 1) spans.colspan = held(element.span);
    return spans;
  }
  function writeElement(job, item, parent, making) {
    const node = { id: item.id, parent, kind: 'element', style: making.style, ...spansOf(job, item, making) };
    const named = typeof item.element.className === 'string' ? item.element.className.trim().split(/\s+/).filter(Boolean) : [];
    if (job.measured && item.tag) node.tag = [item.tag, ...named].join('.');   // `lay` reads no member `tag`
    if (!/^auto/.test(item.computed['aspect-ratio']) && item.computed['aspect-ratio']) warn(job, 'aspect-ratio', item.element);
    if (item.rowHeight !== undefined) node.style.height = pixelText(item.rowHeight);
    job.nodes.push(node);
    job.kinds[item.id] = kindOf(item, making);
    if (!item.pseudo && !item.wrapper) saveRects(job, item);
    savePaint(job, item);
    if (making.display === 'inline') saveFit(job, item, item);
    const widths = isTable(making.display) ? freezeTable(job, making) : null;
    if (isTable(making.display)) freezeRows(job, item);
    if (widths) writeColumns(job, item, widths, making.inherited);
    for (const kid of item.kids) if (!widths || !/^table-column/.test(displayOf(kid))) {
      write(job, kid, item.id, making.inherited);
      if (kid.breakBehind && job.measured) writeBreakBehind(job, item);
    }
  }
  // The place is a character of its own, which gets no letter spacing.
  function writeBreakBehind(job, item) {
    const put = node => { job.nodes.push(node); job.kinds[node.id] = 'skip'; return node.id; };
    const parent = lengthUnits(item.used['letter-spacing'])
      ? put({ id: job.extraId++, parent: item.id, kind: 'element', style: { 'letter-spacing': '0px' } }) : item.id;
    put({ id: job.extraId++, parent, kind: 'text', text: '\u200b', as: '' });
  }
  // What columns and their groups have but their widths: the borders, which tables with collapsed borders draw, and whether they collapse.
  function columnStyle(job, item, inherited) {
    const { display, style } = styleOf(job, item, inherited);
    const kept = Object.entries(style).filter(([name]) => /^border-(top|right|bottom|left)-|^visibility$/.test(name));
    return { display, ...Object.fromEntries(kept) };
  }
  // The columns of a frozen table: the page's own ones, each as often as it stands for, and then those that no element makes.
  function writeColumns(job, table, widths, inherited) {
    let next = 0;
    const pushNode = (id, parent, style) => { job.nodes.push({ id, parent, kind: 'element', style }); job.kinds[id] = 'column'; };
    const pushColumns = (item, count, parent, style) => {
      for (let k = 0; k < count; k++) {
        const width = pixelText(widths[next++] ?? 0);
        pushNode(item && k === 0 ? item.id : job.extraId++, parent, { ...style, display: 'table-column', width });
      }
    };
    for (const kid of table.kids) {
      if (displayOf(kid) === 'table-column') pushColumns(kid, kid.element.span || 1, table.id, columnStyle(job, kid, inherited));
      if (displayOf(kid) !== 'table-column-group') continue;
      pushNode(kid.id, table.id, columnStyle(job, kid, inherited));
      const columns = kid.kids.filter(column => displayOf(column) === 'table-column');
      for (const column of columns) pushColumns(column, column.element.span || 1, kid.id, columnStyle(job, column, inherited));
      if (!columns.length) pushColumns(null, kid.element.span || 1, kid.id, {});
    }
    pushColumns(null, widths.length - next, table.id, {});
  }
  function write(job, item, parent, inherited) {
    if (job.nodes.length > 65532) { warn(job, 'more than 65,536 nodes: the rest is left out', item.element); return; }
    if (item.kind === 'text') { writeText(job, item, parent); return; }
    if (item.kind === 'break') { writeBreak(job, item, parent); return; }
    if (item.kind === 'shut' || item.kind === 'marker') {
      job.kinds[item.id] = 'skip';
      // what is hidden still parts margins
      const shut = { kind: 'element', style: { display: 'block', overflow: 'hidden', height: '0' } };
      const marker = { kind: 'replaced', natural: [1, 1], style: { width: pixelText(item.room || 0), height: '0' } };
      job.nodes.push({ id: item.id, parent, ...(item.kind === 'shut' ? shut : marker) });
      return;
    }
    const making = styleOf(job, item, inherited);
    if (item.kind === 'replaced') writeReplaced(job, item, parent, making); else writeElement(job, item, parent, making);
  }
  function viewportOf(job) {
    return [job.root.clientWidth || job.win.innerWidth, job.win.innerHeight].map(value => Math.max(1, Math.round(value)));
  }
  function answerOf(job) {
    if (job.bytes > 1048576) warn(job, 'more than 1,048,576 bytes of text', '');
    const advance = [...job.advances].sort((a, b) => a[0] - b[0]);
    const run = { viewport: viewportOf(job), face: { advance, ...job.face }, nodes: job.nodes };
    const info = { nodes: job.nodes.length, fonts: job.fonts.length, main: job.main.used['font-family'] + ' ' + job.mainSize,
      mainShare: job.characters ? job.main.count / job.characters : 1, url: String(job.doc.location || '') };
    const answer = { run, warnings: warningsOf(job), info };
    if (job.options.paint) answer.paint = job.paint;
    return job.options.rects ? { ...answer, rects: job.rects, fit: job.fit, kinds: job.kinds } : answer;
  }
  // The clusters of a text, each with one advance.
  function clusterer() {
    if (typeof Intl === 'undefined' || !Intl.Segmenter) return text => [...text];
    const segmenter = new Intl.Segmenter('en', { granularity: 'grapheme' });
    return text => [...segmenter.segment(text)].map(part => part.segment);
  }
  // All that needs probes in the page, which are gone afterwards.
  function measurePage(job) {
    job.host = makeNode(job, 'div', 'all:initial;display:block;position:absolute;left:0;top:0;visibility:hidden;white-space:nowrap');
    job.root.appendChild(job.host);
    try {
      countFonts(job);
      chooseFace(job);
      measureFonts(job);
      if (job.measured) rewriteTexts(job);
    } finally { job.host.remove(); }
  }

  window.layExport = function layExport(given) {
    const job = startJob({ mode: 'measured', freeze: true, rects: false, doc: document, ids: null, ...given });
    job.clusters = clusterer();
    warnOfMode(job);
    // `lay` sets what is justified as `left`: so it is measured
    withStyle(job.root, { 'text-justify': 'none' }, () => {
      visitElement(job, job.root, null, 1);
      giveIds(job);
      measureRects(job);
      measurePage(job);
      measureSticky(job);
      readComputed(job);
      write(job, job.items[0], 0, INHERITED);
    });
    // the elements of some nodes, for who compares
    window.layExport.selectorsOf = ids => {
      const items = new Map(job.items.map(item => [item.id, item]));
      return ids.map(id => {
        const item = items.get(id), element = item && (item.element || item.up && item.up.element);
        return element ? selectorOf(element.nodeType === 1 ? element : element.parentNode) : '';
      });
    };
    return answerOf(job);
  };

  // ---- In a console or a bookmarklet --------------------------------------------------------------------------------------

  function offer(text) {
    try { copy(text); console.log('lay: copied'); return; } catch { /* only a console has `copy` */ }
    const link = document.createElement('a');
    link.href = URL.createObjectURL(new Blob([text], { type: 'application/json' }));
    link.download = 'page.run.json';
    link.click();
  }
  if (window.layExportSettings && window.layExportSettings.manual) return undefined;
  const answer = window.layExport(), text = JSON.stringify(answer.run);
  const { nodes, fonts } = answer.info;
  const many = (count, one, more) => `${count} ${count === 1 ? one : more}`;
  console.log(`lay: ${many(nodes, 'node', 'nodes')}, ${text.length} bytes, ${many(fonts, 'font', 'fonts')}, ` +
    many(answer.warnings.length, 'kind of warnings', 'kinds of warnings'));
  console.table(answer.warnings.map(({ what, count, first }) => ({ what, count, first })));
  offer(text);
  return answer;
})();
