// view.html in headless Chromium, from the disk: what is dropped is shown, and what is pointed at is told.
import { after, before, test } from 'node:test';
import assert from 'node:assert/strict';
import { spawnSync } from 'node:child_process';
import { readFileSync } from 'node:fs';
import { Chromium } from './chromium.mjs';
import { installed } from './installed.mjs';
import { program } from './lay.mjs';

const skip = !installed(process.env.CHROMIUM || 'chromium');
const root = new URL('../../', import.meta.url), read = path => readFileSync(new URL(path, root), 'utf8');
const laid = (document, word = 'scratch') => spawnSync(program, [word], { input: JSON.stringify(document) }).stdout.toString();
let browser, page;
before(async () => { if (!skip) { browser = await Chromium.start(); page = await browser.page(1280, 800); } });
after(async () => { if (browser) await browser.close(); });
// Drops texts into a fresh page, one list after another, and evaluates.
async function shown(drops, expression) {
  await page.open(new URL('browser/view.html', root).href);
  for (const texts of drops) await page.evaluate(`takeAll(${JSON.stringify(texts)})`);
  return page.evaluate(expression);
}
const block = (id, parent, style = {}, more = {}) => ({ id, parent, kind: 'element', style: { display: 'block', ...style }, ...more });
const text = (id, parent, words) => ({ id, parent, kind: 'text', text: words });

test('a document and its report, from the disk without a server', { skip }, async () => {
  const seen = await shown([[read('examples/table.json'), read('examples/table.txt')]],
    `({ pieces: document.querySelectorAll('svg g[data-i]').length, rows: element('tree').children.length, kinds: element('legend').textContent })`);
  assert.equal(seen.pieces, read('examples/table.txt').match(/^(box|line|text) /gm).length);
  assert.equal(seen.rows, 12);
  assert.match(seen.kinds, /cell/);
});
test('edits in a batch are made', { skip }, async () => {
  const run = { viewport: [800, 600], nodes: [block(1, 0), block(2, 1, { height: '50px' })],
    editors: [[{ do: 'batch', edits: [{ ...block(5, 1, { height: '10px' }), do: 'insert', index: 1 },
      { do: 'set', node: 5, property: 'width', value: '40px' }] }]] };
  const seen = await shown([[JSON.stringify(run), laid(run, 'run')]], `[...state.nodes.keys(), state.nodes.get(5).style.width]`);
  assert.deepEqual(seen, [1, 2, 5, '40px']);
});
test('a refusal is told with its meaning and its node', { skip }, async () => {
  const run = { viewport: [800, 600], nodes: [block(1, 0), block(7, 1, { colour: 'red' })] };
  const seen = await shown([[JSON.stringify(run), laid(run)]], `element('picture').textContent`);
  assert.match(seen, /refused I6 1 V1/);
  assert.match(seen, /A property isn't known/);
  assert.match(seen, /node at place 1, id 7/);
  assert.match(seen, /colour/);
});
test('each code of docs/REPORT.md has a meaning', () => {
  const meanings = read('browser/view/refusals.js');
  const codes = new Set([...read('docs/REPORT.md').matchAll(/^\| (?:`refused (I\d+)[^`]*`|(E\d+(?:, E\d+)*)) \|/gm)].flatMap(match => (match[1] || match[2]).split(', ')));
  assert.ok(codes.size >= 20, [...codes].join());
  for (const code of codes) assert.match(meanings, new RegExp(`\\b${code}: '`), code);
});
test('a second report is compared: moved, resized, new and gone', { skip }, async () => {
  const one = { viewport: [800, 600], nodes: [block(1, 0), block(2, 1, { height: '50px', width: '10px' }), block(3, 1, { height: '5px' }), block(4, 1)] };
  const other = { viewport: [800, 600], nodes: [block(1, 0), block(2, 1, { height: '60px', width: '10px' }), block(3, 1, { height: '5px' }), text(9, 1, 'x')] };
  const seen = await shown([[JSON.stringify(other), laid(one)], [laid(other)]],
    `({ ...state.changes.counts, words: element('differences').textContent, gone: document.querySelectorAll('svg .gone').length, hidden: element('compared').hidden })`);
  assert.equal(seen.moved, 1);
  assert.equal(seen.resized, 2);
  assert.ok(seen.new >= 2 && seen.gone >= 1, JSON.stringify(seen));
  assert.match(seen.words, /1 moved, 2 resized/);
  assert.equal(seen.hidden, false);
  assert.equal(await page.evaluate(`element('alone').click(), state.changes`), null);
});
test('the box model and the containing block', { skip }, async () => {
  const style = { 'margin-top': '10px', 'margin-left': '1em', 'padding-left': '10%', 'border-right-style': 'solid', 'border-right-width': '7px', width: '100px', height: '20px' };
  const run = { viewport: [800, 600], nodes: [block(1, 0, { 'padding-top': '3px' }), block(2, 1, style), block(3, 1, { position: 'absolute', top: '1px', 'margin-left': 'auto' })] };
  const model = await shown([[JSON.stringify(run), laid(run)]],
    `(() => { const find = node => BoxModel.of(state.world, state.pieces.find(piece => piece.word === 'box' && piece.node === node)); return [find(2), find(3)]; })()`);
  assert.deepEqual(model[0].margin, [10, 0, 0, 16]);
  assert.deepEqual(model[0].border, [0, 7, 0, 0]);
  assert.deepEqual(model[0].padding, [0, 0, 0, 80]);
  assert.equal(model[0].contentBox.width, 100);
  assert.equal(model[0].contentBox.height, 20);
  assert.deepEqual([model[0].containing.node, model[0].containing.what, model[0].containing.width], [1, 'content box', 800]);
  assert.equal(model[1].containing.what, 'the page');
  assert.equal(model[1].margin[3], null);
  const table = await page.evaluate(`tell(2, null), [document.querySelectorAll('.model-table .ring').length, document.querySelectorAll('svg .model path').length, element('info').textContent]`);
  assert.equal(table[0], 3);
  assert.equal(table[1], 3);
  assert.match(table[2], /containing block: content box of node 1, 800/);
});
test('nodes are found by number, by tag and by text; the address names one; arrow keys go on', { skip }, async () => {
  const run = { viewport: [800, 600], sheet: 'p { display: block }', nodes: [block(1, 0), { id: 2, parent: 1, kind: 'element', tag: 'p', classes: ['a'] }, text(3, 2, 'some words'),
    { id: 4, parent: 1, kind: 'element', tag: 'p', label: 'x' }, text(5, 4, 'Other WORDS')] };
  const found = await shown([[JSON.stringify(run), laid(run)]], `['4', 'p', '.a', '#x', 'words', 'nothing'].map(query => Find.find(state.nodes, query))`);
  assert.deepEqual(found, [[4], [2, 4], [2], [4], [3, 5], []]);
  const pinned = await page.evaluate(`(() => { element('query').value = 'words'; element('query').oninput(); const first = state.pinned;
    element('query').onkeydown({ key: 'Enter' }); return [first, state.pinned, element('hits').textContent, location.hash]; })()`);
  assert.deepEqual(pinned, [3, 5, '2 of 2', '#node=5']);
  const next = await page.evaluate(`(() => { location.hash = '#node=2'; pinAddressed(); const first = state.pinned;
    element('tree').dispatchEvent(new KeyboardEvent('keydown', { key: 'ArrowDown' })); return [first, state.pinned]; })()`);
  assert.deepEqual(next, [2, 3]);
});
test('a sheet says what a node is', { skip }, async () => {
  const run = { viewport: [800, 600], sheet: 'p, div > b { display: block } .a { float: left !important } /* p { } */ @media x { p { display: none } } p + p { margin-top: 4px }',
    nodes: [block(1, 0), { id: 2, parent: 1, kind: 'element', tag: 'p' }, { id: 3, parent: 1, kind: 'element', tag: 'p', classes: ['a'], style: { float: 'right' } }] };
  const styles = await shown([[JSON.stringify(run), laid(run)]], `[2, 3].map(node => state.nodes.get(node).style)`);
  assert.deepEqual(styles, [{ display: 'block' }, { display: 'block', float: 'left', 'margin-top': '4px' }]);
});
test('a screenshot stands behind', { skip }, async () => {
  const width = await shown([[read('examples/text.json'), read('examples/text.txt')]], `(async () => {
    const canvas = document.createElement('canvas'); canvas.width = 640; canvas.height = 400;
    const blob = await new Promise(done => canvas.toBlob(done, 'image/png'));
    await takeFiles([new File([blob], 'page.png', { type: 'image/png' })]);
    return [document.querySelector('svg image').getAttribute('width'), document.querySelector('svg').classList.contains('shot'), element('shots').hidden]; })()`);
  assert.deepEqual(width, ['320', true, false]);
});
test('labels stand on no other label, on no text and on no edge', { skip }, async () => {
  const nested = [block(1, 0)];
  for (let id = 2; id < 40; id++) nested.push(block(id, id - 1, { 'padding-left': `${1 + id % 4}px`, 'padding-top': `${id % 3 * 7}px`, ...(id % 5 ? {} : { 'border-left-style': 'solid' }) }));
  nested.push(text(40, 39, 'some words in the innermost box'));
  const run = { viewport: [800, 600], nodes: nested };
  const faults = await shown([[JSON.stringify(run), laid(run)]], `(() => {
    const boxes = [...document.querySelectorAll('svg .label')].map(label => label.getBBox()), found = [];
    const meet = (a, b) => a.x < b.x + b.width - 1 && b.x < a.x + a.width - 1 && a.y + 3 < b.y + b.height && b.y + 3 < a.y + a.height;
    boxes.forEach((a, i) => boxes.slice(i + 1).forEach(b => { if (meet(a, b)) found.push([a.x, a.y, b.x, b.y]); }));
    const edges = state.pieces.filter(piece => piece.word === 'box').flatMap(({ x, y, width, height }) =>
      [[x, y, width, 0], [x, y + height, width, 0]]);
    for (const box of boxes) for (const [x, y, width] of edges) if (y > box.y + 3 && y < box.y + box.height - 3 && x < box.x +
      box.width - 1 && x + width > box.x + 1) found.push([box.x, box.y, y]);
    return [boxes.length, found]; })()`);
  assert.ok(faults[0] >= 3, String(faults[0]));
  assert.deepEqual(faults[1], []);
});
test('what is neither is told', { skip }, async () => {
  assert.match(await shown([['hello']], `element('info').textContent`), /neither a document nor a report/);
  assert.match(await shown([['{ "viewport": ']], `element('info').textContent`), /^Not read/);
});
