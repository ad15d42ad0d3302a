#!/usr/bin/env node
// node view.mjs DOCUMENT.json REPORT.txt PICTURE.png [light|dark] [place on the slider]: what view.html shows, as a picture.
import './help.mjs';
import { readFileSync, writeFileSync } from 'node:fs';
import { Chromium } from './chromium.mjs';

const [run, report, picture, mode = 'light', place = ''] = process.argv.slice(2);

// These run in the page.
function show(texts, mode, place) {
  const start = performance.now();
  takeAll(texts);
  element('picture').getBoundingClientRect();
  const milliseconds = performance.now() - start;
  document.documentElement.dataset.mode = mode;
  if (place !== '') { element('slider').value = place; element('slider').oninput({ target: element('slider') }); }
  const piece = state.pieces.find(piece => piece.kind !== 'block' && piece.kind !== 'line') || state.pieces[0];
  tell(piece.node, piece);
  return milliseconds;
}
function overlaps() {
  const boxes = [...document.querySelectorAll('svg .label')].map(label => label.getBBox());
  const meet = (a, b) => a.x < b.x + b.width && b.x < a.x + a.width && a.y + 3 < b.y + b.height && b.y + 3 < a.y + a.height;
  return [boxes.length, boxes.reduce((sum, a, i) => sum + boxes.slice(i + 1).filter(b => meet(a, b)).length, 0)];
}

const browser = await Chromium.start();
try {
  const page = await browser.page(1280, 800), calling = (work, ...words) => page.evaluate(`(${work})(...${JSON.stringify(words)})`);
  await page.open(new URL('../view.html', import.meta.url).href);
  const milliseconds = await calling(show, [run, report].map(file => readFileSync(file, 'utf8')), mode, place);
  const [labels, over] = await calling(overlaps), pieces = await page.evaluate('state.pieces.length');
  console.log(`${picture}: ${pieces} pieces in ${Math.round(milliseconds)} ms, ${labels} labels, ${over} pairs overlap`);
  writeFileSync(picture, await page.picture());
} finally { await browser.close(); }
