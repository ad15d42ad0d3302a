#!/usr/bin/env node
// node plain_html.mjs [PAGE.html]: what tools/from_html makes of a page, beside what Chromium shows: the blocks that stand alike to 1 px.
// The page is in one font, whose measures the document is given; its quotation marks are left out, as they are generated.
import { spawnSync } from 'node:child_process';
import { resolve } from 'node:path';
import { pathToFileURL } from 'node:url';
import { Chromium } from './chromium.mjs';
import { exporting, layOut } from './lay.mjs';
import { readReport } from './compare.mjs';

const file = process.argv[2] || new URL('pages/plain.html', import.meta.url).pathname, WIDTHS = [420, 800];
const maker = new URL('../../tools/from_html', import.meta.url).pathname;
const BLOCKS = new Set(('html body p div ul ol li h1 h2 h3 h4 h5 h6 blockquote dl dt dd pre table caption thead tbody tr td th hr address center figure ' +
  'figcaption section').split(' '));

function documentOf(width) {
  const made = spawnSync('python3', [maker, '--quiet', '--width', String(width), file], { maxBuffer: 1 << 28 });
  if (made.status !== 0) throw new Error(made.stderr.toString());
  return JSON.parse(made.stdout);
}
// The rectangles of the elements with these names, in the order of the document.
const RECTS = names => `${JSON.stringify(names)}.map(name => [...document.getElementsByTagName(name)].map(element => {
  const rect = element.getBoundingClientRect(); return [rect.left, rect.top + scrollY, rect.width, rect.height].map(value => value * 64); }))`;

async function judge(browser, width) {
  const page = await browser.page(width, 600), run = documentOf(width);
  await page.open(pathToFileURL(resolve(file)).href);
  const { face } = (await page.evaluate(exporting({ mode: 'plain' }))).run, seen = new Map(), names = [...BLOCKS], found = [];
  const advance = await page.evaluate(`(() => { const context = document.createElement('canvas').getContext('2d'); context.font = '1000px ' + getComputedStyle(document.body).fontFamily;
    return Math.round(context.measureText('x').width); })()`);
  run.face = { ...face, advance: [[0x200b, 0]], default: advance };
  const pieces = readReport(layOut(run)), rects = await page.evaluate(RECTS(names));
  for (const node of run.nodes) if (BLOCKS.has(node.tag)) {
    const at = seen.get(node.tag) || 0, parts = pieces.get('box ' + node.id) || [], theirs = rects[names.indexOf(node.tag)][at];
    seen.set(node.tag, at + 1);
    const ours = node.tag === 'table' && parts.length > 1 && Math.abs(parts[0][3] - theirs[3]) > 64 ? parts[1] : parts[0];
    found.push({ tag: node.tag, at, ours, theirs, alike: Boolean(ours && theirs) && ours.every((value, k) =>
      Math.abs(value - theirs[k]) <= 64) });
  }
  await page.close();
  return found;
}
const browser = await Chromium.start();
let all = 0, alike = 0;
try {
  for (const width of WIDTHS) for (const block of await judge(browser, width)) {
    all++;
    if (block.alike) alike++; else console.error(`${width} px, ${block.tag} ${block.at}: here ${block.ours}, in the browser ${block.theirs}`);
  }
} finally { await browser.close(); }
console.log(`${alike} of ${all} blocks`);
process.exitCode = alike === all ? 0 : 1;
