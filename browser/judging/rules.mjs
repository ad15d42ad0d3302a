// Where a difference may be one that docs/BROWSERS.md names: by what is declared of a node and of those around it. Most of what is on that
// page is frozen in exported documents; these may be left.

const is = (node, property, pattern) => pattern.test(node.style?.[property] ?? '');
const has = (node, ...properties) => properties.every(property => node.style?.[property] !== undefined);
const isOut = node => is(node, 'position', /^(absolute|fixed)$/);
const isTable = node => is(node, 'display', /^(inline-)?table$/);
const isFixed = node => isTable(node) && is(node, 'table-layout', /fixed/) && has(node, 'width');
const isAutomatic = node => isTable(node) && !isFixed(node);
const isCell = node => is(node, 'display', /^table-cell$/);
const isSolid = node => node.kind === 'replaced' || isTable(node) || is(node, 'overflow', /hidden|scroll|auto/);
const isInline = node => node.kind === 'element' && !has(node, 'display') && node.parent !== 0 && !isOut(node) &&
  !is(node, 'float', /left|right/);

// A node, and those above it, from itself on.
function* upwards(nodes, node) { for (let up = node; up; up = nodes.get(up.parent)) yield up; }
const someAbove = (nodes, node, test) => { for (const up of upwards(nodes, node)) if (test(up)) return true; return false; };
const kidsOf = (nodes, parent) => [...nodes.values()].filter(node => node.parent === parent.id);
const inside = (nodes, node, test) => { const up = [...upwards(nodes, node)].find(isTable); return Boolean(up) && test(up); };
const someCell = (nodes, node, test) => inside(nodes, node, isAutomatic) && someAbove(nodes, node, up => isCell(up) && test(up));

// [the heading of docs/BROWSERS.md, whether a node may be of it]
const RULES = [
  ['Solid boxes beside floats', (nodes, node) => someAbove(nodes, node, up => isSolid(up) && !isOut(up) && !is(up, 'float', /./) &&
    kidsOf(nodes, { id: up.parent }).some(other => is(other, 'float', /left|right/)))],
  ['Clearance', (nodes, node) => someAbove(nodes, node, up => has(up, 'clear') && !isTable(up))],
  ['Static position', (nodes, node) => someAbove(nodes, node, up => isOut(up) &&
    (!has(up, 'left') && !has(up, 'right') || !has(up, 'top') && !has(up, 'bottom')))],
  ['Percent heights between top and bottom', (nodes, node) => someAbove(nodes, node, up => is(up, 'height', /%/)) &&
    someAbove(nodes, node, up => isOut(up) && has(up, 'top', 'bottom'))],
  ['Positioned cells', (nodes, node) => someAbove(nodes, node, up => is(up, 'display', /^table-(cell|row|caption|row-group)/) &&
    is(up, 'position', /relative/))],
  ['Inline containing blocks', (nodes, node) => someAbove(nodes, node, isOut) && someAbove(nodes, node, up => isInline(up) &&
    has(up, 'position'))],
  ['Last margin and min-height', (nodes, node) => someAbove(nodes, node, up => has(up, 'min-height')) ||
    kidsOf(nodes, { id: node.parent }).some(other => has(other, 'min-height'))],
  ['Clear of a table', (nodes, node) => someAbove(nodes, node, up => isTable(up) && has(up, 'clear'))],
  ['Alignment of an inline-table', (nodes, node) => someAbove(nodes, node, up => is(up, 'display', /^inline-table$/))],
  ['Spare width of a fixed table', (nodes, node) => inside(nodes, node, isFixed)],
  ['Spare height of a table', (nodes, node) => inside(nodes, node, table => has(table, 'height'))],
  ['Cells over several rows', (nodes, node) => inside(nodes, node, table => [...nodes.values()].some(cell => cell.rowspan > 1 &&
    someAbove(nodes, cell, up => up === table)))],
  ['Widths of cells', (nodes, node) => someCell(nodes, node, cell => has(cell, 'width'))],
  ['Percentages of cells', (nodes, node) => someCell(nodes, node, cell => is(cell, 'width', /%/))],
  ['Bounds of cells', (nodes, node) => someCell(nodes, node, cell => has(cell, 'min-width') || has(cell, 'max-width'))],
  ['Spare width of an automatic table', (nodes, node) => inside(nodes, node, table => isAutomatic(table) && has(table, 'width'))],
  ['Cells over several columns', (nodes, node) => inside(nodes, node, isAutomatic) && someAbove(nodes, node, up => up.colspan > 1)],
  ['Absolutely positioned tables', (nodes, node) => someAbove(nodes, node, up => isTable(up) && isOut(up) && !has(up, 'width'))],
  ['Floats around tables', (nodes, node) => someAbove(nodes, node, up => is(up, 'float', /left|right/) && kidsOf(nodes, up).some(isTable))],
  ['Justified text', (nodes, node) => someAbove(nodes, node, up => is(up, 'text-align', /justify/))],
];
export const TITLES = RULES.map(([title]) => title);
const slug = title => title.toLowerCase().replace(/[^\w\- ]+/g, '').trim().replace(/ /g, '-');

// The rules that a node may be of: { title, anchor }.
export function rulesOf(nodes, node) {
  return RULES.filter(([, test]) => test(nodes, node)).map(([title]) => ({ title, anchor: slug(title) }));
}
export const titleOf = anchor => TITLES.find(title => slug(title) === anchor) || anchor;
