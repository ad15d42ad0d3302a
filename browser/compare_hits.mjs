#!/usr/bin/env node
// Compares what `lay hit` names with what Chromium's `elementFromPoint` does, at random points of run documents.
//
// usage: browser/compare_hits.mjs --bridge FOLDER [--program PATH] [--points N] [--documents N] [--seed S] [--show K] FILE.jsonl[.gz] ..
//
// FOLDER has a `bridge.mjs` that brings a headless Chromium up and makes a page of a run document, and a `style.mjs`. Each line of a file
// is an object with `name` and `run`, a run document; with --documents so many of each file are taken, evenly spread. The browser is
// asked with all lengths 64 times as great, so that what it rounds to whole px falls on single units, and as they are, since it has no
// font over 10,000 px: one answer that is ours is enough. Half of the N points (else 20) lie in a piece that `lay scratch` names, the
// others anywhere on the part of the viewport that has pieces.
//
// `elementFromPoint` names elements alone: for a text it names the one around it, and where no box is, the root. `hit` clips nothing and
// sees what is hidden, so `visibility` isn't given to the browser, and a block with `overflow` makes a context there without it. A
// document that differs is printed with its first K such points (else 3), and at last how many documents and points are the same. The
// status is 1 where one differs.
import './test/help.mjs';
import { execFile } from 'node:child_process';
import { readFileSync } from 'node:fs';
import { basename, dirname, join, resolve } from 'node:path';
import { fileURLToPath } from 'node:url';
import { gunzipSync } from 'node:zlib';

const SCALES = [64, 1], UNITS_PER_PX = 64, AT_ONCE = 20;
const HERE = dirname(fileURLToPath(import.meta.url));

function settings(words) {
  const found = { program: join(HERE, '../crates/lay/out/lay'), points: 20, documents: Infinity, seed: 1, show: 3, files: [] };
  while (words.length) {
    const word = words.shift();
    if (!word.startsWith('--')) found.files.push(word);
    else if (['--bridge', '--program'].includes(word)) found[word.slice(2)] = resolve(words.shift());
    else found[word.slice(2)] = Number(words.shift());
  }
  return found;
}

// Draws from 0 up to 1, settled by a seed (mulberry32).
function draws(seed) {
  return () => {
    seed = (seed + 0x6D2B79F5) | 0;
    let mixed = Math.imul(seed ^ (seed >>> 15), 1 | seed);
    mixed = (mixed + Math.imul(mixed ^ (mixed >>> 7), 61 | mixed)) ^ mixed;
    return ((mixed ^ (mixed >>> 14)) >>> 0) / 4294967296;
  };
}

function documentsOf(file, most) {
  const bytes = readFileSync(file);
  const lines = (file.endsWith('.gz') ? gunzipSync(bytes) : bytes).toString().split('\n').filter(line => line.trim());
  const step = Math.max(1, lines.length / most);
  const taken = [];
  for (let at = 0; at < lines.length; at += step) taken.push(JSON.parse(lines[Math.floor(at)]));
  return taken.map(({ name, run }) => ({ name: basename(file).split('.')[0] + ' ' + name, run }));
}

function layout(program, run, words) {
  return new Promise((answered, failed) => {
    const child = execFile(program, words, { maxBuffer: 1 << 28 }, (error, text) => error ? failed(error) : answered(text));
    child.stdin.end(JSON.stringify(run));
  });
}

// The rectangles of boxes and texts, in px.
function rectangles(report) {
  const lines = report.split('\n').map(line => line.split(' '));
  return lines.filter(([kind, ...rest]) => rest.length === 6 && kind !== 'line').map(fields => fields.slice(3).map(n => n / UNITS_PER_PX));
}

// Points in whole px, within the viewport.
function pointsOf(run, found, count, draw) {
  const within = (low, length, most) => Math.max(0, Math.min(most - 1, Math.floor(low + draw() * length)));
  const [width, height] = run.viewport;
  const right = Math.max(1, ...found.map(([x, , w]) => Math.ceil(x + w) + 2));
  const bottom = Math.max(1, ...found.map(([, y, , h]) => Math.ceil(y + h) + 2));
  const all = [0, 0, Math.min(width, right), Math.min(height, bottom)];
  const shown = found.filter(([x, y, w, h]) => w > 0 && h > 0 && x < width && y < height && x + w > 0 && y + h > 0);
  return Array.from({ length: count }, (_, number) => {
    const [x, y, w, h] = number % 2 && shown.length ? shown[Math.floor(draw() * shown.length)] : all;
    return [within(x, w, width), within(y, h, height)];
  });
}

// Runs in the page: the number of the element at each point.
function elementsAt(page, points, scale) {
  const { doc, map } = window.peerBuild(page, scale);
  const numbers = new Map([...map].map(([number, node]) => [node, number]));
  return points.map(([x, y]) => numbers.get(doc.elementFromPoint(x * scale, y * scale)) ?? null);
}

// `hit` clips nothing (11.1.1), so a block that would clip becomes one that makes a context and doesn't.
function unclipped(run) {
  const nodes = run.nodes.map(node => {
    const { overflow, ...style } = node.style ?? {};
    const clips = overflow && overflow !== 'visible' && style.display === 'block';
    return clips ? { ...node, style: { ...style, display: 'flow-root' } } : node;
  });
  return { ...run, nodes };
}

function pageOf(prepare, run, scale) {
  const page = prepare(unclipped(run), { scale, tables: 'auto', raw: false });
  const levels = new Map(run.nodes.filter(node => node.style?.['z-index'] !== undefined).map(node => [node.id, node.style['z-index']]));
  for (const node of page.nodes) if (levels.has(node.i)) node.s += ';z-index:' + levels.get(node.i);
  return page;
}

// The element that an answer of `lay hit` names.
function elementOf(run, answer) {
  const [, kind, number] = answer.split(' ');
  const node = run.nodes.find(({ id }) => id === Number(number));
  return kind === 'none' ? run.nodes[0].id : kind === 'text' ? node.parent : node.id;
}

async function answersOf(program, run, points) {
  const answers = [];
  for (let at = 0; at < points.length; at += AT_ONCE) {
    const some = points.slice(at, at + AT_ONCE).map(([x, y]) => layout(program, run, ['hit', '--x', String(x), '--y', String(y)]));
    answers.push(...await Promise.all(some));
  }
  return answers;
}

// The elements that the browser names at each point, at each scale.
async function namedBy(browser, prepare, run, points) {
  const named = [];
  for (const scale of SCALES) {
    const page = pageOf(prepare, run, scale);
    await browser.ready([page.faceKey], scale);
    named.push(await browser.page.eval(`(${elementsAt})(${JSON.stringify(page)}, ${JSON.stringify(points)}, ${scale})`));
  }
  return points.map((_, number) => named.map(elements => elements[number] ?? run.nodes[0].id));
}

async function differences(browser, prepare, asked, run, draw) {
  const found = rectangles(await layout(asked.program, run, ['scratch']));
  const points = pointsOf(run, found, asked.points, draw);
  const elements = await namedBy(browser, prepare, run, points), answers = await answersOf(asked.program, run, points);
  return points.map((point, number) => ({ point, lay: answers[number].trim(), named: elements[number] }))
    .filter(({ lay, named }) => !named.includes(elementOf(run, lay)));
}

const asked = settings(process.argv.slice(2));
if (!asked.bridge || !asked.files.length) {
  console.error('usage: browser/compare_hits.mjs --bridge FOLDER [--program PATH] [..] FILE.jsonl[.gz] ..');
  process.exit(2);
}
const { Bridge } = await import(join(asked.bridge, 'bridge.mjs')), { prepare } = await import(join(asked.bridge, 'style.mjs'));
const browser = await Bridge.start(), draw = draws(asked.seed), counts = { documents: 0, same: 0, points: 0, agree: 0, refused: 0 };
try {
  for (const { name, run } of asked.files.flatMap(file => documentsOf(file, asked.documents))) {
    let off;
    try {
      off = await differences(browser, prepare, asked, run, draw);
    } catch (error) {
      counts.refused++;
      console.log(`${name}: ${String(error.message).split('\n')[0].slice(0, 100)}`);
      continue;
    }
    counts.documents++;
    counts.points += asked.points;
    counts.agree += asked.points - off.length;
    if (!off.length) counts.same++;
    else console.log(`${name}: ${off.length} points differ`);
    for (const { point, lay, named } of off.slice(0, asked.show)) {
      console.log(`    at ${point.join(', ')}: lay ${lay}, Chromium ${named.join(' and ')}`);
    }
  }
} finally {
  await browser.close();
}
console.log(`${counts.same} of ${counts.documents} documents, ${counts.agree} of ${counts.points} points; ${counts.refused} not asked`);
process.exit(counts.same === counts.documents ? 0 : 1);
