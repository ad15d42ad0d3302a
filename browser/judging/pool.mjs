// Judges all pages of a shard, some at a time, and writes what is asked for.
import { mkdirSync, openSync, renameSync, writeFileSync, writeSync, closeSync } from 'node:fs';
import { join } from 'node:path';
import { Opener } from './opening.mjs';
import { judge } from './judge.mjs';
import { headOf, keptLines, lineOf, sayPage, sayTotal } from './lines.mjs';
import { resultPage } from './result_page.mjs';
import { indexPage } from './index_page.mjs';

// One browser for all; another where it has ended.
function starter(options) {
  let running = null;
  return {
    async get() {
      if (running && (await running).isGone) { await (await running).close().catch(() => {}); running = null; }
      running ??= Opener.start(options.browser, options.network);
      return running;
    },
    async close() { if (running) await (await running).close(); },
  };
}
function writeResults(folder, { result, answer, report, pictures }) {
  const file = ending => join(folder, result.name + ending);
  const named = pictures.map(({ top }, i) => ({ top, name: result.name + (i ? `-${i + 1}` : '') + '.png' }));
  pictures.forEach(({ data }, i) => writeFileSync(join(folder, named[i].name), data));
  writeFileSync(file('.run.json'), JSON.stringify(answer.run));
  writeFileSync(file('.report.txt'), report);
  writeFileSync(file('.json'), JSON.stringify(result, null, 1) + '\n');
  writeFileSync(file('.html'), resultPage(result, answer, report, named));
}
// Runs `work` of all tasks, `jobs` at a time.
async function inTurns(jobs, tasks, work) {
  let next = 0;
  const worker = async () => { while (next < tasks.length) { const task = tasks[next++]; await work(task); } };
  await Promise.all(Array.from({ length: Math.min(jobs, Math.max(1, tasks.length)) }, worker));
}
// The file of lines, opened behind its head and what is kept of a run before.
function startLines(file, head, kept) {
  writeFileSync(file + '.new', [head, ...kept].map(value => JSON.stringify(value) + '\n').join(''));
  renameSync(file + '.new', file);
  return openSync(file, 'a');
}
// Judges one task; `judged` and `failed` are those of judgeShard.
async function judgeOne(browsers, task, { judged, failed }) {
  for (let tries = 0; ; tries++) {
    try { return await judged(await browsers.get(), task); } catch (error) {
      // a browser that ended takes other pages along
      if (tries === 1 || !/ended|closed|crash/i.test(error.message)) return failed(task, error.message.slice(0, 400));
    }
  }
}
// Judges each task of which no line is kept, and gives the lines of all.
// work: { keyOf(task or line), judged(opener, task), failed(task, fault), lineOf(result), say(result) }
export async function judgeShard(options, tasks, work) {
  const browsers = starter(options), file = options.lines || options.out && join(options.out, 'pages.jsonl');
  const head = headOf(options, tasks.length), lines = options.continue ? keptLines(file, head) : [];
  if (options.out) mkdirSync(options.out, { recursive: true });
  const out = file ? startLines(file, head, lines) : null, known = new Set(lines.map(work.keyOf));
  try {
    await inTurns(options.browser === 'firefox' ? 1 : options.jobs, tasks.filter(task => !known.has(work.keyOf(task))), async task => {
      const result = await judgeOne(browsers, task, work), line = work.lineOf(result);
      lines.push(line);
      if (out !== null) writeSync(out, JSON.stringify(line) + '\n');
      work.say(result);
    });
  } finally { await browsers.close(); if (out !== null) closeSync(out); }
  return lines;
}
function failedPage({ page, name, width, height }, fault) {
  const none = { all: 0, exact: 0, near: 0, within: 0 };
  return { page, name, width, height, verdict: 'failed', fault, nodes: 0, blocks: none, texts: none, inlines: none, differing: 0,
    differences: [], warnings: [] };
}
export async function judgePages(options, tasks) {
  const wants = result => Boolean(options.out) && (!options.differing || result.verdict !== 'whole');
  const judged = async (opener, task) => {
    const answer = await judge(opener, task, wants);
    if (wants(answer.result)) writeResults(options.out, answer);
    return answer.result;
  };
  const results = await judgeShard(options, tasks, { judged, failed: failedPage, lineOf, keyOf: ({ page, width }) => `${width} ${page}`,
    say: result => console.log(sayPage(result)) });
  if (options.out) writeFileSync(join(options.out, 'index.html'), indexPage(results));
  if (results.length !== 1) console.log(sayTotal(results));
  return results.every(({ verdict }) => verdict === 'whole') ? 0 : 1;
}
