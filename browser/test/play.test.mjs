// play.html in Chromium: its examples, a refusal, versions, an address, a limit of time, a great document while one types, the bookmark.
import assert from 'node:assert/strict';
import { readFileSync } from 'node:fs';
import { after, before, test } from 'node:test';
import { Chromium, pause } from './chromium.mjs';

const here = path => new URL(path, import.meta.url);
const PLAY = here('../play.html').href;
let browser, page;

const told = id => page.evaluate(`document.getElementById('${id}').innerText`);
async function until(expression, milliseconds = 60000) {
  for (const end = Date.now() + milliseconds; Date.now() < end; await pause(30)) if (await page.evaluate(expression)) return;
  throw new Error('not within time: ' + expression + '; ' + await told('status'));
}
const status = `document.getElementById('status').className`;
const isDone = `${status} === '' && layPlay.state.pieces.length > 0 || ${status} === 'bad'`;
// Puts a text into the editor, and waits for its layout.
async function put(text) {
  await page.evaluate(`(layPlay.state.pieces = [], ${status} = 'busy', layPlay.put(${JSON.stringify(text)}), 0)`);
  await until(isDone);
}
before(async () => {
  browser = await Chromium.start();
  page = await browser.page(1400, 900);
  const start = Date.now();
  await page.open(PLAY);
  await until(isDone);
  console.log(`# from opening to the first layout: ${Date.now() - start} ms`);
});
after(() => browser?.close());

test('it says that the module is not proved, and of which sources it is', async () => {
  await page.evaluate(`document.getElementById('about').open = true`);
  const about = await told('about');
  assert.match(about, /Not proved/);
  assert.match(about, /[0-9a-f]{64}/);
});

test('pages of the examples stand where lay has them, but for the one that is about differences', async () => {
  const examples = JSON.parse(await page.evaluate(`document.getElementById('given').textContent`)).examples;
  assert.ok(examples.length >= 6);
  for (const [name, text] of examples.filter(([, text]) => !text.startsWith('{'))) {
    await put(text);
    const [off, causes, frame] = await page.evaluate(`[layPlay.state.compared.off.length, layPlay.state.compared.causes.length,
      Boolean(document.querySelector('iframe.shown'))]`);
    assert.equal(frame, true);
    if (/otherwise/.test(name)) { assert.ok(off > 3); assert.equal(causes, 1); } else assert.equal(off, 0, name);
  }
});

test('scripts of the page that is judged do not run, and nothing is fetched', async () => {
  await put('<p id="a">one</p><script>document.getElementById("a").textContent = "two"</script>' +
    '<img src="https://example.org/a.png" onerror="document.body.append(1)">');
  assert.ok((await page.evaluate(`layPlay.state.run.nodes.map(node => node.as || '').join('')`)).includes('one'));
});

test('a refusal is told in words, and names the node', async () => {
  await put('{ "viewport": [100, 100], "nodes": [{ "id": 1, "parent": 0, "kind": "element", "style": { "width": "10" } }] }');
  const words = await told('layer');
  assert.match(words, /refused I6 0 V2/);
  assert.match(words, /id 1/);
  assert.match(await told('status'), /refuses/);
});

test('a run document with edits has its versions', async () => {
  await put(readFileSync(here('../play/examples/a-run-document-with-edits.json'), 'utf8'));
  assert.deepEqual(await page.evaluate('layPlay.state.shown.map(tree => tree.version)'), [0, 1, 2, 3]);
  await page.evaluate(`(document.getElementById('slider').value = 1, document.getElementById('slider').oninput(), 0)`);
  await until(`/^1,/.test(document.getElementById('version').textContent)`);
});

test('pointing at a box tells its box model', async () => {
  const rule = 'margin: 20px; padding: 10px; border: 5px solid; width: 200px; height: 100px';
  await put(`<!doctype html><style>body { margin: 0 } div { ${rule} }</style><div></div>`);
  const { left, top } = await page.evaluate(`document.querySelector('#layer svg').getBoundingClientRect().toJSON()`);
  await page.send('Input.dispatchMouseEvent', { type: 'mouseMoved', x: left + 10 + 60, y: top + 10 + 60 });
  await until(`/margin/.test(document.getElementById('info').innerText)`);
  const words = (await told('info')).replace(/\s+/g, ' ');
  assert.match(words, /x 20, y 20, 230 × 130 px/);
  assert.match(words, /200 × 100/);
});

test('a great text is pasted where the cursor is, and over what is selected', async () => {
  const lines = from => Array.from({ length: 700 }, (_, i) => `<p>line ${from + i} of what is pasted, as long as this</p>`).join('\n');
  const paste = text => page.evaluate(`(() => {
    const clipboardData = new DataTransfer();
    clipboardData.setData('text/plain', ${JSON.stringify(text)});
    layPlay.editor.place.dispatchEvent(new ClipboardEvent('paste', { clipboardData, bubbles: true, cancelable: true }));
    return layPlay.editor.value;
  })()`);
  const first = lines(0), second = lines(5000);
  await put('one\ntwo\nthree');
  await page.evaluate(`(layPlay.editor.place.focus(), getSelection().collapse(layPlay.editor.place.firstChild.firstChild, 5), 0)`);
  assert.equal(await paste(first), `one\nt${first}wo\nthree`);
  // from the third block of lines to the fifth
  await page.evaluate(`(() => { const blocks = layPlay.editor.place.childNodes;
    getSelection().setBaseAndExtent(blocks[2].firstChild, 7, blocks[4].firstChild, 9); })()`);
  const blocks = await page.evaluate(`[...layPlay.editor.place.childNodes].map(block => block.textContent)`);
  const wanted = [...blocks.slice(0, 2), blocks[2].slice(0, 7)].join('\n') + second + [blocks[4].slice(9), ...blocks.slice(5)].join('\n');
  assert.equal(await paste(second), wanted);
  await page.evaluate(`getSelection().selectAllChildren(layPlay.editor.place)`);
  assert.equal(await paste(first), first);
});

test('an address holds the document', async () => {
  const text = '<p>ä “quoted” & <b>bold</b></p>\n';
  await put(text);
  await page.evaluate(`document.getElementById('link').click()`);
  await until(`location.hash.length > 20`);
  const address = await page.evaluate('location.href'), first = page;
  page = await browser.page(1400, 900);
  try {
    await page.open(address);
    await until(isDone);
    assert.equal(await page.evaluate('layPlay.editor.value'), text);
  } finally { await page.close(); page = first; }
});

// Sections of a float and a text: 4 nodes each.
function sections(count) {
  const nodes = [{ id: 1, parent: 0, kind: 'element', style: { display: 'block' } }];
  for (let id = 2; nodes.length < 4 * count; id += 4) {
    nodes.push({ id, parent: 1, kind: 'element', style: { display: 'block', overflow: 'hidden', 'margin-top': `${id % 20}px` } },
      { id: id + 1, parent: id, kind: 'element',
        style: { display: 'block', float: 'left', width: `${20 + id % 90}px`, height: `${10 + id % 40}px` } },
      { id: id + 2, parent: id, kind: 'element', style: { display: 'block' } },
      { id: id + 3, parent: id + 2, kind: 'text', text: 'some words that stand beside the float '.repeat(1 + id % 5) });
  }
  return `{ "viewport": [800, 600], "nodes": [\n${nodes.map(node => JSON.stringify(node)).join(',\n')}] }`;
}

test('what takes longer than the limit is ended, and the next call is as before', async () => {
  await page.evaluate('layPlay.runner.limit = 1');
  await put(sections(4000));
  assert.match(await told('status'), /took longer than/);
  await page.evaluate('layPlay.runner.limit = 60000');
  await put(sections(10));
  assert.match(await told('status'), /^lay: 41 nodes/);
});

// Notes the longest time between two ticks of a timer, in milliseconds, from now on.
const watch = () => page.evaluate(`(window.gap = 0, window.ticked = performance.now(), window.ticks ??= setInterval(() => {
  const now = performance.now();
  gap = Math.max(gap, now - ticked);
  ticked = now;
}, 5), 0)`);

test('16,000 nodes are laid out while one types, and the page is never frozen', async () => {
  await put(sections(4000));
  await watch();
  await pause(1500);
  const idle = await page.evaluate('gap');                                      // a busy machine has gaps of its own
  await page.evaluate(`(layPlay.editor.place.focus(), getSelection().collapse(layPlay.editor.place.firstChild.firstChild, 1), 0)`);
  await watch();
  const turn = await page.evaluate('layPlay.state.turn');
  for (let i = 0; i < 30; i++) { await page.send('Input.insertText', { text: ' ' }); await pause(60); }
  await until(`layPlay.state.turn > ${turn} && (${isDone})`);
  const gap = await page.evaluate('(clearInterval(ticks), gap)');
  console.log(`# the longest time without an answer to a timer: ${Math.round(gap)} ms, and ${Math.round(idle)} ms where nothing is done`);
  assert.match(await told('status'), /^lay: 16,001 nodes/);
  assert.ok(gap < 400 + 30 * idle, `${gap} ms, ${idle} ms where nothing is done`);
});

// Chooses the bookmark on a page, and waits until its box says something; the test opens the closed shadow tree in which it stands.
// Where the page has a policy that forbids scripts, the test runs it as a console would.
async function chooseBookmark(address, words, isForbidden = false) {
  await page.evaluate(`document.getElementById('about').open = true`);
  await until(`document.getElementById('bookmark').href.startsWith('javascript:')`);
  const href = await page.evaluate(`document.getElementById('bookmark').href`);
  assert.ok(href.length < 2 ** 21, 'Chromium takes addresses of 2 MiB');
  const tab = await browser.page(800, 600), box = `window.opened?.querySelector('aside')?.innerText || ''`;
  await tab.open(address);
  const before = await tab.evaluate('document.body.outerHTML');
  await tab.evaluate(`(() => { const attach = Element.prototype.attachShadow;
    Element.prototype.attachShadow = function () { return window.opened = attach.call(this, { mode: 'open' }); }; })()`);
  if (isForbidden) await tab.evaluate(`(() => { ${decodeURIComponent(href.slice('javascript:'.length))} })()`);
  else await tab.send('Page.navigate', { url: href });
  for (let i = 0; i < 600 && !words.test(await tab.evaluate(box)); i++) await pause(50);
  assert.equal(await tab.evaluate('document.body.outerHTML'), before, 'the page is as it was');
  return { tab, text: await tab.evaluate(box) };
}

test('the bookmark judges a page over the page itself', async () => {
  const { tab, text } = await chooseBookmark(here('pages/article.html').href, /stand where lay has them/);
  const [exact, all] = text.match(/(\d+) of (\d+) blocks/).slice(1).map(Number);
  console.log('# ' + text.split('\n').find(line => /stand where/.test(line)));
  assert.ok(all > 10 && exact >= all - 1);
  assert.ok(await tab.evaluate(`window.opened.querySelectorAll('rect.same').length`) > 10);
  await tab.close();
});

test('on a page that forbids WebAssembly the bookmark offers the document', async () => {
  const html = '<!doctype html><meta http-equiv="Content-Security-Policy" content="script-src \'self\'"><p>one</p>';
  const { tab, text } = await chooseBookmark('data:text/html,' + encodeURIComponent(html), /page\.run\.json/, true);
  assert.match(text, /doesn't let lay run/);
  await tab.close();
});
