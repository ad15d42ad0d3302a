// The command: its words, its lines, its pages, shards, tests with references.
import { test } from 'node:test';
import assert from 'node:assert/strict';
import { execFile } from 'node:child_process';
import { existsSync, mkdtempSync, readFileSync, rmSync, writeFileSync } from 'node:fs';
import { tmpdir } from 'node:os';
import { join } from 'node:path';
import { pathToFileURL } from 'node:url';
import { Chromium } from './chromium.mjs';
import { installed } from './installed.mjs';
import { TITLES } from '../judging/rules.mjs';

const command = new URL('../judge_page', import.meta.url).pathname, pages = new URL('pages/', import.meta.url).pathname;
const skip = !installed(process.env.CHROMIUM || 'chromium');
// How long one command may take, in milliseconds.
const LIMIT = Math.max(300, 10 * Number(process.env.LAY_SECONDS || 0)) * 1000;
const judge = (...words) => new Promise(done => execFile(process.execPath, [command, ...words], { timeout: LIMIT, maxBuffer: 1 << 26 },
  (error, stdout, stderr) => done({ status: error ? error.code : 0, stdout, stderr })));
const folder = mkdtempSync(join(tmpdir(), 'lay-test-judge-'));
process.on('exit', () => rmSync(folder, { recursive: true, force: true }));
const linesOf = file => readFileSync(file, 'utf8').split('\n').filter(Boolean).map(line => JSON.parse(line));

const bad = join(folder, 'bad.html');
writeFileSync(bad, '<!doctype html><meta charset=utf-8><p id=moved style="transform:translate(9px,0)">moved</p><p>not moved <b>at all</b></p>');

test('words: help, none, wrong ones', async () => {
  assert.match((await judge('--help')).stdout, /^browser\/judge_page PAGE\.html/);
  for (const words of [[], ['--what', bad], ['--width', 'x', bad], ['--shard', '3/2', bad], ['--browser', 'other', bad], [bad, '--width'],
    [join(folder, 'none.html')]]) {
    const { status, stderr } = await judge(...words);
    assert.equal(status, 2, words.join(' '));
    assert.ok(stderr.length > 5);
  }
});
test('a page that is whole: a line and status 0', { skip }, async () => {
  const { status, stdout } = await judge(join(pages, 'article.html'));
  assert.match(stdout, /^article \(800 px\): blocks (\d+) of \1 to 1\/32 px, \1 to 1 px, \1 within the parent; texts (\d+) of \2/);
  assert.equal(status, 0);
});
test('a page that differs: JSON, a page with both rectangles, and status 1', { skip }, async () => {
  const out = join(folder, 'out'), { status, stdout } = await judge(bad, '--out', out),
    result = JSON.parse(readFileSync(join(out, 'bad.json')));
  assert.equal(status, 1);
  assert.match(stdout, /texts 2 of 3.*1 other warning/);
  assert.equal(result.verdict, 'differs');
  const [difference] = result.differences;
  assert.ok(difference.begins && difference.innermost);
  assert.equal(difference.selector, '#moved');
  assert.equal(difference.browser[0][0] - difference.lay[0][0], 9 * 64);
  assert.deepEqual(result.warnings[0].places.map(({ selector }) => selector), ['#moved']);
  for (const ending of ['.png', '.html', '.run.json', '.report.txt']) assert.ok(existsSync(join(out, 'bad' + ending)), ending);
  const browser = await Chromium.start();
  try {
    const page = await browser.page(1200, 800);
    await page.open(pathToFileURL(join(out, 'bad.html')).href);
    const seen = await page.evaluate(`({ red: document.querySelectorAll('#stage .lay').length, orange: document.querySelectorAll('#stage .browser').length,
      rows: document.querySelectorAll('.differences tr[data-node]').length, warnings: document.querySelectorAll('aside li').length,
      picture: document.querySelector('#stage img').naturalWidth, boxes: document.querySelectorAll('#stage .b').length })`);
    assert.equal(seen.red, 1); assert.equal(seen.orange, 1); assert.equal(seen.rows, 1); assert.equal(seen.warnings,
      1); assert.equal(seen.picture, 800);
    assert.ok(seen.boxes >= 4);
    const states = await page.evaluate(`['browser', 'lay', 'both'].map(value => { const radio = document.querySelector('[value=' + value + ']'); radio.click();
      return [getComputedStyle(document.querySelector('#stage svg')).visibility, getComputedStyle(document.querySelector('#stage img')).visibility]; })`);
    assert.deepEqual(states, [['hidden', 'visible'], ['visible', 'hidden'], ['visible', 'visible']]);
    await page.evaluate(`document.querySelector('tr[data-node]').click()`);
    assert.equal(await page.evaluate(`document.querySelectorAll('#stage .on').length`), 2);
  } finally { await browser.close(); }
});
test('a difference that BROWSERS names has a link there', { skip }, async () => {
  const out = join(folder, 'named'), { status } = await judge(join(pages, 'clearance.html'), '--out', out),
    result = JSON.parse(readFileSync(join(out, 'clearance.json')));
  assert.equal(status, 1);
  assert.ok(result.differences.some(({ rules }) => rules.includes('clearance')), JSON.stringify(result.differences));
  assert.match(readFileSync(join(out, 'clearance.html'), 'utf8'), /docs\/BROWSERS\.md#clearance/);
});
test('each rule is a heading of docs/BROWSERS.md', { skip: !existsSync(new URL('../../docs/BROWSERS.md', import.meta.url)) }, () => {
  const headings = [...readFileSync(new URL('../../docs/BROWSERS.md', import.meta.url), 'utf8').matchAll(/^#+ +(.+?) *$/gm)].map(match =>
    match[1]);
  for (const title of TITLES) assert.ok(headings.includes(title), title);
});
test('shards of a folder put together are the whole', { skip }, async () => {
  const parts = [];
  for (const place of [1, 2]) {
    const lines = join(folder, `part${place}.jsonl`);
    await judge(join(pages, 'reftests'), '--shard', `${place}/2`, '--lines', lines, '--width', '420');
    parts.push(lines);
  }
  const all = parts.flatMap(linesOf).filter(({ verdict }) => verdict);
  assert.equal(new Set(all.map(({ page }) => page)).size, all.length);
  assert.ok(all.length >= 8);
  const joined = await judge('--join', ...parts, '--out', join(folder, 'joined'));
  assert.match(joined.stdout, new RegExp(`all: ${all.length} pages`));
  assert.equal(joined.status, all.every(({ verdict }) => verdict === 'whole') ? 0 : 1);
  assert.equal(linesOf(join(folder, 'joined', 'pages.jsonl')).length, all.length);
  const lacking = await judge('--join', parts[0]);
  assert.match(lacking.stdout, /shard 2\/2 is missing/);
  assert.equal(lacking.status, 1);
});
test('a run that ended early goes on', { skip }, async () => {
  const lines = join(folder, 'early.jsonl'), words = [join(pages, 'reftests'), '--lines', lines, '--width', '420'];
  await judge(...words);
  const whole = linesOf(lines), [head, first, second, third] = whole;
  const kept = [head, { ...first, seen: 'before' }, { ...second, verdict: 'failed' }].map(value => JSON.stringify(value) + '\n');
  writeFileSync(lines, kept.join('') + JSON.stringify(third).slice(0, 50));
  const { stdout } = await judge(...words, '--continue'), again = linesOf(lines);
  assert.equal(again.length, whole.length);
  assert.equal(again[1].seen, 'before');
  assert.deepEqual(new Set(again.slice(1).map(({ page }) => page)), new Set(whole.slice(1).map(({ page }) => page)));
  assert.ok(again.slice(1).every(({ verdict }) => verdict !== 'failed'));
  assert.match(stdout, new RegExp(`all: ${whole.length - 1} pages`));
  const other = await judge(...words.slice(0, -1), '500', '--continue');
  assert.match(other.stderr, /is of other pages/);
  assert.equal(other.status, 2);
  assert.equal(linesOf(lines).length, whole.length);
});
test('a page that can\'t be opened is told, and the others are judged', { skip }, async () => {
  const empty = join(folder, 'empty.html');
  writeFileSync(empty, '');
  const { status, stdout } = await judge(empty, join(pages, 'article.html'), '--jobs', '2');
  assert.equal(status, 0, stdout);
  assert.match(stdout, /all: 2 pages, 2 whole/);
});
test('tests with references', { skip }, async () => {
  const { status, stdout } = await judge('--reftest', join(pages, 'reftests'));
  assert.equal(status, 0, stdout);
  assert.match(stdout, /all: 6 pairs, 6 pass/);
  const two = await judge('--reftest', ...['margins.html', 'float-beside.html'].map(name => join(pages, 'reftests', name)));
  assert.match(two.stdout, /all: 2 pairs, 2 pass/);
  const parts = [];
  for (const place of [1, 2]) {
    parts.push(join(folder, `pairs${place}.jsonl`));
    await judge('--reftest', join(pages, 'reftests'), '--shard', `${place}/2`, '--lines', parts[place - 1], '--jobs', '2');
  }
  const joined = await judge('--join', ...parts);
  assert.match(joined.stdout, /all: 6 pairs, 6 pass/);
  assert.equal(joined.status, 0, joined.stdout);
  const lacking = await judge('--join', parts[1]);
  assert.match(lacking.stdout, /shard 1\/2 is missing/);
  assert.equal(lacking.status, 1);
  const other = await judge('--reftest', join(pages, 'reftests', 'margins.html'), join(pages, 'reftests', 'covered-ref.html'));
  assert.equal(other.status, 1);
  assert.match(other.stdout, /fails: \d+ places differ/);
});
test('a test that goes on after loading is waited for', { skip }, async () => {
  const plain = join(folder, 'plain.html'), late = join(folder, 'late.html'), head = '<!doctype html><meta charset=utf-8><body><p>';
  writeFileSync(plain, `${head}one</p>`);
  writeFileSync(late, `${head}two</p><script>document.documentElement.className = 'reftest-wait';
    setTimeout(() => { document.querySelector('p').textContent = 'one'; document.documentElement.className = ''; }, 800)</script>`);
  const { status, stdout } = await judge('--reftest', late, plain);
  assert.equal(status, 0, stdout);
});
