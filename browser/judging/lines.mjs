// A line a page: as words on the screen, and as JSON that other commands read.
import { existsSync, mkdirSync, readFileSync, writeFileSync } from 'node:fs';
import { join as path } from 'node:path';
import { frozenOf, shortly } from './judge.mjs';
import { indexPage } from './index_page.mjs';
import { share, totalOf } from './totals.mjs';

const FIRST = 10;
export const headOf = (options, pages) => ({ shard: options.shard || '1/1', pages, of: options.whole, widths: options.widths,
  browser: options.browser, ...(options.reftest ? { reftest: true } : {}) });
// What a line keeps of a result: the counts, the kinds of warnings, and the first places where differences begin.
export function lineOf(result) {
  const { differences, warnings, ...rest } = result;
  const first = differences.filter(({ begins }) => begins).slice(0, FIRST);
  return { ...rest, warnings: Object.fromEntries(warnings.map(({ what, count }) => [what, count])),
    first: first.map(({ node, kind, selector, browser, lay, rules }) => ({ node, kind, selector, browser, lay, rules })) };
}
// What a run that ended early wrote of the same pages, but for those that failed. A last line that was cut off counts for nothing.
export function keptLines(file, head) {
  if (!existsSync(file)) return [];
  const [first, ...results] = readFileSync(file, 'utf8').split('\n').slice(0, -1).map(line => JSON.parse(line));
  if (first && JSON.stringify(first) !== JSON.stringify(head)) throw new Error(`${file} is of other pages, widths or another browser`);
  return results.filter(({ verdict }) => verdict !== 'failed');
}
export function sayPage(result) {
  const { blocks, texts, inlines, verdict } = result, at = `${result.name} (${result.width} px${result.mode ? ', ' + result.mode : ''})`;
  if (verdict === 'failed' || verdict === 'refused') return `${at}: ${verdict}: ${result.fault}`;
  const frozen = frozenOf(result.warnings).map(warning => `${shortly(warning)} ${warning.count}`),
    others = result.warnings.length - frozen.length;
  return `${at}: blocks ${blocks.exact} of ${blocks.all} to 1/32 px, ${blocks.near} to 1 px, ${blocks.within} within the parent; ` +
    `texts ${texts.exact} of ${texts.all}; inline boxes ${inlines.exact} of ${inlines.all}` +
      (frozen.length ? `; frozen: ${frozen.join(', ')}` : '') +
    (others ? `; ${others} other ${others === 1 ? 'warning' : 'warnings'}` : '') + (result.unchanged ? '' : '; THE PAGE WAS CHANGED');
}
export function sayTotal(results) {
  const widths = [...new Set(results.map(({ width }) => width))].sort((a, b) => a - b);
  const parts = widths.length > 1 ? [...widths.map(width => [`${width} px`, results.filter(result => result.width === width)]),
    ['all', results]] : [['all', results]];
  return parts.map(([title, list]) => {
    const { pages, whole, differs, refused, failed, blocks, texts, inlines } = totalOf(list);
    return `${title}: ${pages} pages, ${whole} whole, ${differs} differ, ${refused} refused, ${failed} failed; blocks ${blocks.exact} of ${blocks.all}` +
      `${share(blocks.exact, blocks.all)} to 1/32 px, ${blocks.near}${share(blocks.near, blocks.all)} to 1 px, ${blocks.within}` +
      `${share(blocks.within, blocks.all)} within the parent; texts ${texts.exact} of ${texts.all}; inline boxes ${inlines.exact} of ${inlines.all}`;
  }).join('\n');
}
// How many pairs of test and reference there are, and how many pass.
export function sayPairs(results) {
  const passed = results.filter(({ verdict }) => verdict === 'passes').length;
  return `all: ${results.length} ${results.length === 1 ? 'pair' : 'pairs'}, ${passed} pass, ${results.length - passed} don't`;
}
// What is missing of the shards that were put together.
function gaps(heads, results) {
  const found = [], count = +(heads[0]?.shard.split('/')[1] ?? 1), places = new Set(heads.map(({ shard }) => +shard.split('/')[0]));
  if (heads.some(({ shard, of, reftest }) => +shard.split('/')[1] !== count || of !== heads[0].of || reftest !== heads[0].reftest)) {
    found.push('the shards are of different suites');
  }
  for (let place = 1; place <= count; place++) if (!places.has(place)) found.push(`shard ${place}/${count} is missing`);
  if (places.size !== heads.length) found.push('a shard is there twice');
  const wanted = heads.reduce((sum, { pages }) => sum + pages, 0);
  if (wanted !== results.length) found.push(`${results.length} of ${wanted} ${heads[0]?.reftest ? 'pairs' : 'pages'} were judged`);
  return found;
}
const before = (one, other) => (one < other ? -1 : one > other ? 1 : 0);
// Says what isn't as it should be, a line each, and the total; with a folder it writes one file and an index of all.
function joinPages(results, out) {
  results.sort((a, b) => before(a.page, b.page) || a.width - b.width);
  for (const { name, width, verdict, fault } of results) {
    if (verdict !== 'whole') console.log(`${name} (${width} px): ${verdict}${fault ? ': ' + fault : ''}`);
  }
  if (out) writeFileSync(path(out, 'index.html'), indexPage(results));
  console.log(sayTotal(results));
  return results.every(({ verdict }) => verdict === 'whole');
}
function joinPairs(results) {
  results.sort((a, b) => before(a.test, b.test) || before(a.reference, b.reference));
  for (const { test, verdict, fault } of results) if (verdict !== 'passes') console.log(`${test}: ${verdict}${fault ? ': ' + fault : ''}`);
  console.log(sayPairs(results));
  return results.every(({ verdict }) => verdict === 'passes');
}
// Reads lines of shards, of pages or of pairs of test and reference, and tells what is missing.
export function join(options) {
  const values = options.files.flatMap(file => readFileSync(file, 'utf8').split('\n').filter(Boolean).map(line => JSON.parse(line)));
  const heads = values.filter(value => value.shard !== undefined), results = values.filter(value => value.verdict !== undefined);
  if (options.out) mkdirSync(options.out, { recursive: true });
  const isRight = heads[0]?.reftest ? joinPairs(results) : joinPages(results, options.out);
  if (options.out) writeFileSync(path(options.out, 'pages.jsonl'), results.map(value => JSON.stringify(value) + '\n').join(''));
  const missing = gaps(heads, results);
  for (const gap of missing) console.log(gap);
  return missing.length || !isRight ? 1 : 0;
}
