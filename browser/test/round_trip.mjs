#!/usr/bin/env node
// LAY=program node round_trip.mjs --bridge FOLDER [--every 15] [--from 0] [--show 5] FILE.jsonl.gz ..
// Run document -> page -> run document, by a bridge (a folder with chromium/bridge.mjs and chromium/style.mjs, which makes a page of a
// document, in a font with the document's face). Both documents must give the same report, byte for byte.
import './help.mjs';
import { readFileSync } from 'node:fs';
import { gunzipSync } from 'node:zlib';
import { join, resolve } from 'node:path';
import { pathToFileURL } from 'node:url';
import { layOut, source } from './lay.mjs';

const options = { every: '15', from: '0', show: '5', bridge: '' }, files = [];
for (let i = 2; i < process.argv.length; i++) {
  const word = process.argv[i];
  if (word.startsWith('--')) options[word.slice(2)] = process.argv[++i]; else files.push(word);
}
const part = name => import(pathToFileURL(join(resolve(options.bridge), 'chromium', name)));
const [{ Bridge }, { prepare }] = [await part('bridge.mjs'), await part('style.mjs')];
const lines = files.flatMap(file => gunzipSync(readFileSync(file)).toString().split('\n').filter(Boolean));
const documents = lines.filter((_, i) => i % +options.every === +options.from).map(line => JSON.parse(line));

async function exported(bridge, run) {
  const prepared = prepare(run, { scale: 1, raw: false, tables: 'auto' });
  await bridge.ready([prepared.faceKey], 1);
  return bridge.page.eval(`(() => { const { doc, map } = peerBuild(${JSON.stringify(prepared)}, 1), ids = new Map();
    for (const [id, node] of map) ids.set(node, id);
    return layExport({ doc, ids, mode: 'plain', freeze: false }).run; })()`);
}
const bridge = await Bridge.start();
let same = 0;
try {
  await bridge.page.eval(`window.layExportSettings = { manual: true }; ${source}; 0`);
  for (const { name, run } of documents) {
    let was = '', is = '';
    try { was = layOut(run); is = layOut(await exported(bridge, run)); } catch (error) { is = error.message.slice(0, 200); }
    if (was === is) { same++; continue; }
    const [before, now] = [was.split('\n'), is.split('\n')], at = before.findIndex((line, i) => line !== now[i]);
    if (options.show-- > 0) console.log(`${name}: ${before[at]} | ${now[at]}`);
  }
} finally { await bridge.close(); }
console.log(`${same} of ${documents.length} documents with the same report (${(100 * same / documents.length).toFixed(2)}%)`);
