#!/usr/bin/env node
// Lays the documents of docs/BROWSERS.md out in the browsers that are installed, and prints each box that stands elsewhere than in the
// report beside the document, and each rule for which no box does.
//
// usage: node browser/compare_rules.mjs      CHROMIUM and FIREFOX name the programs, if not `chromium` and `firefox-esr`
//
// A line has the browser, the box, its place and size in px there, and those of the report. Boxes of texts aren't compared, nor heights
// that come from the browser's font: look for what the page says of the rule. What is under a point, compare_hits.mjs asks.
import './test/help.mjs';
import { mkdtempSync, readFileSync, rmSync, writeFileSync } from 'node:fs';
import { spawnSync } from 'node:child_process';
import { tmpdir } from 'node:os';
import { join } from 'node:path';
import { pathToFileURL } from 'node:url';
import { Chromium } from './test/chromium.mjs';
import { Firefox } from './test/firefox.mjs';

const UNITS_PER_PX = 64;
const FRAME = '<!doctype html><title>rules</title><body style="margin:0"><iframe id="frame" style="border:0" srcdoc="<!doctype html>'
  + '<body style=\'margin:0;font:10px/20px monospace\'>"></iframe>';

// The headings of the page with their documents and reports.
function rules() {
  const text = readFileSync(new URL('../docs/BROWSERS.md', import.meta.url), 'utf8');
  return text.split('\n### ').slice(1).map(part => ({
    name: part.slice(0, part.indexOf('\n')),
    run: JSON.parse(part.match(/```json\n([^]*?)```/)[1]),
    boxes: boxesOf(part.match(/```report\n([^]*?)```/)[1]),
  }));
}

// The first box of each node, in px: that of a table is its wrapper.
function boxesOf(report) {
  const lines = report.split('\n').map(line => line.split(' ')).filter(([kind, , part]) => kind === 'box' && part === '0');
  return new Map(lines.map(([, node, , ...numbers]) => [+node, numbers.map(number => number / UNITS_PER_PX)]));
}

// Runs in the page: makes the document in the frame, and tells where its boxes are. The root establishes a block formatting context.
function layOut(run) {
  const frame = document.getElementById('frame'), page = frame.contentDocument, made = new Map([[0, page.body]]);
  [frame.style.width, frame.style.height] = run.viewport.map(length => length + 'px');
  page.body.replaceChildren();
  for (const node of run.nodes) {
    if (node.kind === 'text') { made.get(node.parent).append(page.createTextNode(node.text)); continue; }
    const element = page.createElement(node.colspan || node.rowspan ? 'td' : 'div');
    Object.assign(element, { colSpan: node.colspan || 1, rowSpan: node.rowspan || 1 });
    element.style.cssText = 'display: inline; padding: 0';
    for (const [name, value] of Object.entries(node.style || {})) element.style.setProperty(name, value);
    if (node.parent === 0) element.style.display = 'flow-root';
    made.get(node.parent).append(element);
    made.set(node.id, element);
  }
  const rectangle = element => { const { x, y, width, height } = element.getBoundingClientRect(); return [x, y, width, height]; };
  return run.nodes.filter(node => made.has(node.id)).map(node => [node.id, rectangle(made.get(node.id))]);
}

async function compare(browser, name) {
  for (const rule of rules()) {
    const found = await browser.evaluate(`(${layOut})(${JSON.stringify(rule.run)})`);
    const isElsewhere = ([node, there]) => rule.boxes.get(node)?.some((length, k) => Math.abs(length - there[k]) * UNITS_PER_PX > 0.5);
    const elsewhere = found.filter(isElsewhere);
    const show = lengths => lengths.map(length => +length.toFixed(3)).join(' ');
    const lines = elsewhere.map(([node, there]) => `${name}: box ${node} ${show(there)}, and not ${show(rule.boxes.get(node))}`);
    console.log([rule.name, ...(lines.length ? lines : [`${name}: no box stands elsewhere`])].join('\n    '));
  }
}

async function main() {
  const folder = mkdtempSync(join(tmpdir(), 'lay-rules-')), file = join(folder, 'frame.html');
  writeFileSync(file, FRAME);
  const installed = name => spawnSync(name, ['--version'], { timeout: 20000 }).status === 0;
  if (installed(process.env.CHROMIUM || 'chromium')) {
    const chromium = await Chromium.start(), page = await chromium.page();
    try { await page.open(pathToFileURL(file).href); await compare(page, chromium.version); } finally { await chromium.close(); }
  }
  if (installed(process.env.FIREFOX || 'firefox-esr')) {
    const firefox = await Firefox.start();
    try { await firefox.open(pathToFileURL(file).href); await compare(firefox, firefox.version); } finally { await firefox.close(); }
  }
  rmSync(folder, { recursive: true });
}

await main();
