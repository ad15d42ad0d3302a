// Whether `lay` lays a test and its reference out alike: both are exported, laid out, and what can be seen of them is compared.
import { existsSync, readFileSync, statSync } from 'node:fs';
import { dirname, join, resolve } from 'node:path';
import { exporting, layingOut } from '../test/lay.mjs';
import { sayPairs } from './lines.mjs';
import { differences, painted } from './paint.mjs';
import { judgeShard } from './pool.mjs';
import { listed, ofShard, pagesIn } from './tasks.mjs';

const SHOWN = 5;
const px = units => Math.round(units / 64 * 100) / 100;

// The references that a test names itself: [file, whether it has to look otherwise].
function namedBy(file) {
  const text = readFileSync(file, 'latin1');
  return [...text.matchAll(/<link\b[^>]*>/gi)].map(([tag]) => {
    const rel = /\brel\s*=\s*["']?(match|mismatch)\b/i.exec(tag), href = /\bhref\s*=\s*["']?([^"'\s>]+)/i.exec(tag);
    return rel && href ? [join(dirname(file), href[1].split('#')[0]), rel[1].toLowerCase() === 'mismatch'] : null;
  }).filter(Boolean);
}
// Two files are a test and its reference, unless both are tests with references of their own.
function isPair(files) {
  if (files.length !== 2 || files.some(file => statSync(file).isDirectory())) return false;
  const named = files.map(namedBy);
  return !named.every(list => list.length) || named[0].some(([file]) => resolve(file) === resolve(files[1]));
}
// { test, reference, mismatch } of all that is asked for; with `mismatch` both have to look otherwise.
function pairsOf({ files, list, mismatch = false }) {
  if (!list && isPair(files)) return [{ test: files[0], reference: files[1], mismatch }];
  const words = files.concat(list ? listed(list) : []);
  const tests = words.flatMap(file => statSync(file).isDirectory() ? pagesIn(file) : [file]);
  return tests.flatMap(test => namedBy(test).map(([reference, otherwise]) => ({ test, reference, mismatch: otherwise })));
}
async function sceneOf(opener, file, { widths, height }) {
  const { tab } = await opener.open({ file, width: widths[0], height });
  try {
    const answer = await tab.evaluate(exporting({ rects: true, paint: true })), report = await layingOut(answer.run);
    if (!report.startsWith('publish')) throw new Error(`${file}: ${report.trim()}`);
    return { ...painted(answer, report), warnings: answer.warnings.map(({ what }) => what) };
  } finally { await opener.shut(tab); }
}
async function judgePair(opener, options, { test, reference, mismatch }) {
  if (!existsSync(reference)) throw new Error('its reference isn\'t there');
  const [one, other] = [await sceneOf(opener, test, options), await sceneOf(opener, reference, options)];
  const found = differences(one, other), alike = found.length === 0;
  return { test, reference, mismatch, verdict: alike === !mismatch ? 'passes' : 'fails', alike, differences: found.slice(0, 50),
    warnings: [...new Set([...one.warnings, ...other.warnings])] };
}
function say({ test, verdict, alike, fault, differences: found, warnings }) {
  const words = fault || (alike ? 'both are laid out alike' : `${found.length} ${found.length === 1 ? 'place differs' : 'places differ'}`);
  console.log(`${test}: ${verdict}: ${words}${warnings.length ? ` (warnings: ${warnings.join(', ')})` : ''}`);
  for (const { rect: [x, y, width, height], one, other } of found.slice(0, SHOWN)) {
    console.log(`   at ${px(x)}, ${px(y)}, ${px(width)} × ${px(height)} px: ${one || 'nothing'} in the test, ${other || 'nothing'} in the reference`);
  }
}
export async function judgeReftests(options) {
  const pairs = pairsOf(options);
  if (!pairs.length) { console.error('no test with a reference: two files, or pages with <link rel="match">'); return 2; }
  const results = await judgeShard(options, ofShard(options, pairs), { say, keyOf: ({ test, reference }) => `${test} ${reference}`,
    judged: (opener, pair) => judgePair(opener, options, pair), lineOf: result => result,
    failed: (pair, fault) => ({ ...pair, verdict: 'failed', fault, differences: [], warnings: [] }) });
  if (pairs.length > 1) console.log(sayPairs(results));
  return results.every(({ verdict }) => verdict === 'passes') ? 0 : 1;
}
