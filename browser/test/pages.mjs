#!/usr/bin/env node
// LAY=program node pages.mjs [--width 800] [--out FOLDER] [--show N] PAGE.html ..
// Exports pages in headless Chromium, lays the documents out, and says how many pieces stand exactly where the browser has them.
// A page in quirks mode is loaded again in standards mode.
import './help.mjs';
import { mkdirSync, mkdtempSync, readFileSync, rmSync, writeFileSync } from 'node:fs';
import { tmpdir } from 'node:os';
import { join, resolve } from 'node:path';
import { pathToFileURL } from 'node:url';
import { Chromium } from './chromium.mjs';
import { compare, sums } from './compare.mjs';
import { exporting, layOut } from './lay.mjs';

const options = { width: '800', height: '600', out: '', show: '3', mode: 'measured' }, files = [];
for (let i = 2; i < process.argv.length; i++) {
  const word = process.argv[i];
  if (word.startsWith('--')) options[word.slice(2)] = process.argv[++i]; else files.push(word);
}
const folder = mkdtempSync(join(tmpdir(), 'lay-pages-'));

async function openInStandardsMode(page, file) {
  await page.open(pathToFileURL(resolve(file)).href);
  const quirks = `document.compatMode !== 'CSS1Compat' || /(Transitional|Frameset)/.test(document.doctype && document.doctype.publicId)`;
  if (!await page.evaluate(quirks)) return '';
  const text = readFileSync(file, 'latin1').replace(/<\?xml[^>]*>|<!doctype[^>]*>/gi, '');
  const copy = join(folder, 'page.html');
  writeFileSync(copy, `<!doctype html><base href="${pathToFileURL(resolve(file)).href}">` + text, 'latin1');
  await page.open(pathToFileURL(copy).href);
  return ' (loaded in standards mode)';
}
export async function judge(browser, file) {
  const page = await browser.page(+options.width, +options.height);
  try {
    const mode = await openInStandardsMode(page, file);
    const before = await page.evaluate('document.documentElement.outerHTML'), start = Date.now();
    const answer = await page.evaluate(exporting({ mode: options.mode, rects: true })), milliseconds = Date.now() - start;
    const same = before === await page.evaluate('document.documentElement.outerHTML');
    return { file, mode, answer, milliseconds, same, report: layOut(answer.run) };
  } finally { await page.close(); }
}
const ratio = ({ all, exact }) => `${exact} of ${all}`;
function tell({ file, mode, answer, milliseconds, same, report }) {
  const name = file.replace(/.*\/(?=[^/]*\/[^/]*$)/, '').replace(/\.html?$/, '').replace(/\W+/g, '-');
  if (options.out) {
    mkdirSync(options.out, { recursive: true });
    writeFileSync(join(options.out, name + '.json'), JSON.stringify(answer.run));
    writeFileSync(join(options.out, name + '.txt'), report);
  }
  if (!report.startsWith('publish')) { console.log(`${name}: ${report.trim()}`); return null; }
  const { counts, first } = compare(answer, report), sum = sums(counts);
  console.log(`${name}${mode}: ${answer.info.nodes} nodes, ${answer.info.fonts} fonts, ${milliseconds} ms; blocks ${ratio(sum.blocks)}, ` +
    `texts ${ratio(sum.texts)}, inline boxes ${ratio(sum.inlines)}${same ? '' : '; THE PAGE WAS CHANGED'}`);
  console.log('   ' + answer.warnings.map(warning => `${warning.what} ${warning.count}`).join('; '));
  for (const { id, kind, browser, lay } of first.slice(0, +options.show)) {
    console.log(`   ${kind} ${id}: browser ${JSON.stringify(browser.slice(0, 2))}, lay ${JSON.stringify(lay.slice(0, 2))}`);
  }
  return sum;
}

const browser = await Chromium.start(), all = [];
try {
  for (const file of files) {
    try { const sum = tell(await judge(browser, file)); if (sum) all.push(sum); } catch (error) {
      console.log(`${file}: ${error.message.slice(0, 400)}`);
    }
  }
} finally { await browser.close(); rmSync(folder, { recursive: true, force: true }); }
const add = (a, b) => ({ all: a.all + b.all, exact: a.exact + b.exact });
const total = kind => ratio(all.map(sum => sum[kind]).reduce(add, { all: 0, exact: 0 }));
const whole = all.filter(sum => sum.blocks.all === sum.blocks.exact).length;
console.log(`${all.length} of ${files.length} pages at ${options.width} px: blocks ${total('blocks')} (${whole} pages whole), ` +
  `texts ${total('texts')}, inline boxes ${total('inlines')}`);
