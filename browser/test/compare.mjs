// A report of `lay` against the browser's rectangles of the exported page.

// The pieces of the last tree: `box 7` -> [[x, y, width, height] ..], by part.
export function readReport(text) {
  const pieces = new Map(), lines = text.split('\n');
  for (const line of lines.slice(lines.findIndex(line => line.startsWith('final ')) + 1)) {
    const fields = line.split(' ');
    if (fields.length !== 7 || fields[0] === 'line') continue;
    const key = fields[0] + ' ' + fields[1];
    if (!pieces.has(key)) pieces.set(key, []);
    pieces.get(key).push([+fields[2], fields.slice(3).map(Number)]);
  }
  for (const [key, list] of pieces) pieces.set(key, list.sort((a, b) => a[0] - b[0]).map(piece => piece[1]));
  return pieces;
}

// 1/32 px, and 1 px, in units.
export const EXACT = 2, NEAR = 64;
const wide = rects => rects.filter(rect => rect[2] > 0);
// Rectangles side by side on one line as one: browsers tell an inline box by its parts.
export function joined(rects) {
  const list = [];
  for (const rect of rects) {
    const last = list[list.length - 1];
    const meets = last && Math.abs(last[1] - rect[1]) <= EXACT && Math.abs(last[3] - rect[3]) <= EXACT &&
      Math.abs(last[0] + last[2] - rect[0]) <= EXACT;
    if (meets) list[list.length - 1] = [last[0], last[1], rect[0] + rect[2] - last[0], last[3]]; else list.push(rect);
  }
  return list;
}
// What the browser and `lay` have for one node, made comparable.
function bothOf(answer, pieces, node, kind) {
  let browser = wide(answer.rects[node.id] || []), lay = wide(pieces.get((kind === 'text' ? 'text ' : 'box ') + node.id) || []);
  // of a table the browser tells the wrapper, or the table box where there is a caption
  if (kind === 'table' && lay.length > 1) lay = browser.length && Math.abs(browser[0][3] - lay[0][3]) > EXACT ? [lay[1]] : [lay[0]];
  if (kind === 'block' || kind === 'atom') { browser = browser.slice(0, 1); lay = lay.slice(0, 1); }
  const fit = answer.fit[node.id];
  if (fit && (kind === 'text' || kind === 'inline')) lay = lay.map(([x, y, width, height]) => [x, y + fit[0], width, height + fit[1]]);
  return kind === 'inline' ? [joined(browser), joined(lay)] : [browser, lay];
}
const isAlike = (browser, lay, units) => browser.length === lay.length &&
  browser.every((rect, i) => rect.every((value, k) => Math.abs(value - lay[i][k]) <= units));
const from = (rects, [x, y]) => rects.map(rect => [rect[0] - x, rect[1] - y, rect[2], rect[3]]);

// Counts of each kind: pieces, and those the same within 2 units (1/32 px), within 1 px, and within 2 units from the corner of the nearest
// node above. `off` are all nodes that differ, in the order of the document, `first` the innermost ones.
export function compare(answer, report) {
  const pieces = readReport(report), counts = {}, off = [], parents = new Map(answer.run.nodes.map(node => [node.id, node.parent]));
  const corners = new Map([[0, [[0, 0], [0, 0]]]]);
  for (const node of answer.run.nodes) {
    const kind = answer.kinds[node.id], above = corners.get(node.parent) || [[0, 0], [0, 0]];
    corners.set(node.id, above);
    if (!kind || ['skip', 'column', 'break'].includes(kind)) continue;
    const [browser, lay] = bothOf(answer, pieces, node, kind);
    if (!browser.length && !lay.length) continue;
    if (browser.length && lay.length && kind !== 'inline') corners.set(node.id, [browser[0], lay[0]]);
    const count = counts[kind] || (counts[kind] = { all: 0, exact: 0, near: 0, within: 0 });
    const inParent = isAlike(from(browser, above[0]), from(lay, above[1]), EXACT), near = isAlike(browser, lay, NEAR);
    count.all++;
    if (isAlike(browser, lay, EXACT)) count.exact++; else off.push({ id: node.id, kind, browser, lay, near, inParent });
    if (near) count.near++;
    if (inParent) count.within++;
  }
  const outer = new Set();
  for (const { id } of off) for (let up = parents.get(id); up; up = parents.get(up)) outer.add(up);
  return { counts, off, first: off.filter(({ id }) => !outer.has(id)) };
}

const NONE = { all: 0, exact: 0, near: 0, within: 0 };
export const added = (one, other) => Object.fromEntries(Object.keys(NONE).map(name => [name, one[name] + other[name]]));
// Blocks, tables and inline-blocks together; texts; inline boxes.
export function sums(counts) {
  const sum = kinds => kinds.reduce((total, kind) => added(total, counts[kind] || NONE), NONE);
  return { blocks: sum(['block', 'table', 'atom']), texts: sum(['text']), inlines: sum(['inline']) };
}
