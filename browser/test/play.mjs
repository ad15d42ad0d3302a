#!/usr/bin/env node
// node play.mjs PICTURE.png [--width 1400] [--height 900] [--mode dark] [--example 0] [--document FILE]
// What play.html shows, as a picture.
import './help.mjs';
import { readFileSync, writeFileSync } from 'node:fs';
import { Chromium, pause } from './chromium.mjs';

const options = { width: '1400', height: '900', mode: 'light', example: '0', document: '', script: '' }, files = [];
for (let i = 2; i < process.argv.length; i++) {
  const word = process.argv[i];
  if (word.startsWith('--')) options[word.slice(2)] = process.argv[++i]; else files.push(word);
}
const browser = await Chromium.start();
try {
  const page = await browser.page(+options.width, +options.height), start = Date.now();
  await page.open(new URL('../play.html', import.meta.url).href);
  await page.evaluate(`document.documentElement.dataset.mode = ${JSON.stringify(options.mode)}`);
  const until = async test => { for (let i = 0; i < 200 && !await page.evaluate(test); i++) await pause(50); };
  await until('layPlay.state.pieces.length > 0 || layPlay.state.refusal');
  console.log(`first layout ${Date.now() - start} ms after opening`);
  await page.evaluate(`(layPlay.state.pieces = [], layPlay.state.refusal = '', 0)`);
  if (options.document) await page.evaluate(`layPlay.put(${JSON.stringify(readFileSync(options.document, 'utf8'))})`);
  else await page.evaluate(`(select => { select.value = '${options.example}'; select.onchange(); })(document.getElementById('examples'))`);
  await until('layPlay.state.pieces.length > 0 || layPlay.state.refusal');
  if (options.script) console.log(await page.evaluate(options.script));
  await pause(300);
  const parts = JSON.stringify(['status', 'verdict', 'differences', 'warnings']);
  console.log(await page.evaluate(`${parts}.map(id => document.getElementById(id).innerText).join('\\n')`));
  for (const file of files) writeFileSync(file, await page.picture());
} finally { await browser.close(); }
