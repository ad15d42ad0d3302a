// The module in Chromium where memory ends, where it is stopped, and what a call after that gives; and its heap.
import assert from 'node:assert/strict';
import { execFileSync, spawnSync } from 'node:child_process';
import { mkdtempSync, readFileSync, rmSync } from 'node:fs';
import { createServer } from 'node:http';
import { tmpdir } from 'node:os';
import { dirname, join } from 'node:path';
import { after, before, test } from 'node:test';
import { Chromium, pause } from './chromium.mjs';
import { ModulePage } from './module.mjs';

const here = path => new URL(path, import.meta.url).pathname;
const MIB = 2 ** 20;
const example = readFileSync(here('../../examples/two-blocks.json')), report = readFileSync(here('../../examples/two-blocks.txt'), 'utf8');
let page;
before(async () => { page = await ModulePage.start(); });
after(() => page?.close());

// A document of so many floats with texts.
function documentOf(count) {
  const nodes = [{ id: 1, parent: 0, kind: 'element', style: { display: 'block' } }];
  for (let i = 0; i < count; i++) {
    const style = { display: 'block', float: i % 3 ? 'left' : 'right', width: `${20 + i % 70}px` };
    nodes.push({ id: 2 + 2 * i, parent: 1, kind: 'element', style });
    nodes.push({ id: 3 + 2 * i, parent: 2 + 2 * i, kind: 'text', text: 'some words to be laid out' });
  }
  return JSON.stringify({ viewport: [800, 600], nodes });
}

test('the module says what it is', async () => {
  const told = await page.page.evaluate('Lay.about(window.layModule)');
  assert.equal(told.proved, false);
  assert.match(told.sources, /^[0-9a-f]{64}$/);
});

test('an example, a refusal, other words', async () => {
  const calls = [[['scratch'], example], [['scratch'], '{"viewport": [1, 1]}'], [['scratched'], example]];
  const [good, refused, usage] = await page.calls(calls);
  assert.deepEqual([good.status, good.out.toString()], [0, report]);
  assert.deepEqual([refused.status, refused.out.toString()], [1, 'refused I3 nodes run\n']);
  assert.deepEqual([usage.status, usage.out.toString()], [2, 'usage\n']);
});

test('where memory ends the status is 5, and what is written is a front of the report', async () => {
  const text = documentOf(2000), whole = await page.call(['scratch'], text), seen = { 0: 0, 5: 0 };
  assert.equal(whole.status, 0);
  const limits = Array.from({ length: 48 }, (_, i) => Math.ceil(whole.memory * (i + 1) / 46 / 65536) * 65536);
  for (const limit of limits) {
    const answer = await page.call(['scratch'], text, limit);
    assert.ok(answer.status === 0 || answer.status === 5, `status ${answer.status} at ${limit}: ${answer.said}`);
    assert.ok(answer.memory <= Math.max(limit, 5 * MIB), `${answer.memory} bytes at ${limit}`);
    assert.ok(whole.out.subarray(0, answer.out.length).equals(answer.out));
    if (answer.status === 0) assert.equal(answer.out.length, whole.out.length);
    seen[answer.status]++;
  }
  assert.ok(seen[0] > 0 && seen[5] > 20, JSON.stringify(seen));
  const again = await page.call(['scratch'], text);
  assert.ok(again.out.equals(whole.out), 'the next call has all of it');
});

test('an input that does not fit is answered with status 5', async () => {
  const spaces = (mib, memory) => page.page.evaluate(`(({ status, out }) => [status, new TextDecoder().decode(out)])(
    Lay.call(window.layModule, ['scratch'], new Uint8Array(${mib * MIB}).fill(32), { memory: ${memory * MIB} }))`);
  assert.deepEqual(await spaces(24, 16), [5, '']);
  assert.deepEqual(await spaces(17, 1024), [1, 'refused I1\n']);
});

test('a module that is stopped says so, and the next call is as the first', async () => {
  // an import that returns where it must not stops the module
  const stopped = await page.page.evaluate(`(() => {
    const host = new WebAssembly.Instance(window.layModule, { host: { exit: () => {} } }).exports;
    const words = new TextEncoder().encode('lay\\0other\\0'), at = Number(host.host_words(BigInt(words.length)));
    new Uint8Array(host.memory.buffer, at, words.length).set(words);
    try { return [host.host_run(), '']; } catch (error) { return [error.name, error.message]; }
  })()`);
  assert.equal(stopped[0], 'RuntimeError');
  const next = await page.call(['scratch'], example);
  assert.deepEqual([next.status, next.out.toString()], [0, report]);
});

test('a stop within a call is the status \'trap\'', async () => {
  const answer = await page.page.evaluate(`(() => {
    const Instance = WebAssembly.Instance;
    WebAssembly.Instance = class extends Instance { constructor(module) { super(module, { host: { exit: () => {} } }); } };
    try {
      const { status, said } = Lay.call(window.layModule, ['other'], new Uint8Array(0));
      return { status, said };
    } finally { WebAssembly.Instance = Instance; }
  })()`);
  assert.equal(answer.status, 'trap');
  assert.ok(answer.said.length > 0);
});

test('calls do not keep memory: 100 in a row', async () => {
  const text = documentOf(300), first = await page.call(['scratch'], text);
  for (let i = 0; i < 5; i++) {
    for (const answer of await page.calls(Array(20).fill([['scratch'], text]))) assert.ok(answer.out.equals(first.out));
  }
});

test('the example of wasm/README.md', async () => {
  const readme = readFileSync(here('../wasm/README.md'), 'utf8'), example = /```html\n([^]*?)```/.exec(readme)[1];
  assert.ok(example.split('\n').length <= 34, 'it is an example of some 30 lines');
  const server = createServer((request, response) => {
    const name = request.url.slice(1);
    const isFile = ['lay.js', 'lay_unproved.wasm.gz'].includes(name);
    response.end(name === '' ? example : isFile ? readFileSync(here('../wasm/' + name)) : '');
  });
  await new Promise(done => server.listen(0, '127.0.0.1', done));
  const browser = await Chromium.start(['--host-resolver-rules=MAP * ~NOTFOUND, EXCLUDE 127.0.0.1']), tab = await browser.page();
  try {
    await tab.open(`http://127.0.0.1:${server.address().port}/`);
    const shown = `document.getElementById('report').textContent`;
    for (let i = 0; i < 200 && !await tab.evaluate(shown); i++) await pause(50);
    const wanted = 'publish 0\nfinal 0\nbox 1 0 0 0 20480 1280\nline 1 0 0 0 20480 1280\ntext 2 0 0 128 5632 1024\n';
    assert.equal(await tab.evaluate(shown), wanted);
  } finally { await browser.close(); server.close(); server.closeAllConnections(); }
});

// ---- The heap -------------------------------------------------------------------------------------------------------------------

function heapModule() {
  const folder = mkdtempSync(join(tmpdir(), 'lay-heap-')), object = join(folder, 'heap.o'), module = join(folder, 'heap.wasm');
  const base = join(dirname(execFileSync('rt', ['doc'], { encoding: 'utf8' }).trim()), 'toolchain/bin');
  try {
    execFileSync(join(base, 'clang'), ['--target=wasm64-unknown-unknown', '-c', '-O2', '-ffreestanding', '-mbulk-memory', '-w', '-I',
      here('../wasm'), here('heap_test.c'), '-o', object]);
    execFileSync(join(base, 'ld.lld'), ['-flavor', 'wasm', '-mwasm64', '--no-entry', '--gc-sections', '--stack-first',
      ...['heap', 'refused', 'pages', 'huge'].map(name => '--export=test_' + name), '-s', '-o', module, object]);
    return readFileSync(module).toString('base64');
  } finally { rmSync(folder, { recursive: true, force: true }); }
}
const hasTools = spawnSync('rt', ['doc']).status === 0;

test('the heap holds together over drawn takes, resizes and frees', { skip: !hasTools && 'rt is not on the PATH' }, async () => {
  const answers = await page.page.evaluate(`(() => {
    const module = new WebAssembly.Module(bytesOf(${JSON.stringify(heapModule())})), out = [];
    for (const pages of [3n, 20n, 2000n]) for (let seed = 1n; seed <= 10n; seed++) {
      const heap = new WebAssembly.Instance(module, {}).exports;
      const numbers = [pages, heap.test_heap(seed, 20000n, pages), heap.test_refused(), heap.test_pages(), heap.test_huge()];
      out.push(numbers.map(Number));
    }
    return out;
  })()`);
  for (const [pages, fault, refused, taken, huge] of answers) {
    assert.equal(fault, 0, `with ${pages} pages, after step ${fault}`);
    assert.ok(taken <= pages && huge === 0);
    assert.ok(pages > 100 ? refused === 0 : refused > 0);
  }
});
