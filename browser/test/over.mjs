#!/usr/bin/env node
// LAY=program LAY_PICTURE=program node over.mjs PAGE.html PICTURE.png [WIDTH HEIGHT]: the picture of what `lay` says of a page, over the
// page as Chromium shows it.
import './help.mjs';
import { spawnSync } from 'node:child_process';
import { writeFileSync } from 'node:fs';
import { resolve } from 'node:path';
import { pathToFileURL } from 'node:url';
import { Chromium } from './chromium.mjs';
import { exporting, layOut } from './lay.mjs';

const [file, picture, width = '800', height = '600'] = process.argv.slice(2);
const painter = process.env.LAY_PICTURE || new URL('../../crates/lay_picture/out/lay_picture', import.meta.url).pathname;

function draw(report) {
  const answer = spawnSync(painter, [], { input: report, maxBuffer: 1 << 28, timeout: 120000 });
  if (answer.error) throw answer.error;
  return answer.stdout.toString();
}
// This runs in an empty page. The picture has a margin of 1 px.
function over(shot, svg) {
  document.documentElement.innerHTML = `<head><style>body { margin: 0 } img, svg { position: absolute; left: 0; top: 0 } img { width: 100vw }
    svg { transform: translate(-1px, -1px) } .lay { background: none !important } .lay .text { fill-opacity: 0.15 !important }
    .label { display: none }</style></head><body><img src="data:image/png;base64,${shot}">${svg}</body>`;
  return document.querySelector('img').decode();
}

const browser = await Chromium.start();
try {
  const page = await browser.page(+width, +height);
  await page.open(pathToFileURL(resolve(file)).href);
  const shot = (await page.picture()).toString('base64'), { run } = await page.evaluate(exporting({ mode: 'measured' }));
  const empty = await browser.page(+width, +height);
  await empty.open('about:blank');
  await empty.evaluate(`(${over})(${JSON.stringify(shot)}, ${JSON.stringify(draw(layOut(run)))}).then(() => 0)`);
  writeFileSync(picture, await empty.picture());
} finally { await browser.close(); }
