// The exporter in both browsers, on a page of this folder: what is laid out stands where the browser has it.
import { test } from 'node:test';
import assert from 'node:assert/strict';
import { spawnSync } from 'node:child_process';
import { Chromium } from './chromium.mjs';
import { Firefox } from './firefox.mjs';
import { installed } from './installed.mjs';
import { compare, sums } from './compare.mjs';
import { exporting, layOut } from './lay.mjs';

const article = new URL('pages/article.html', import.meta.url).href;
const chromium = process.env.CHROMIUM || 'chromium', firefox = process.env.FIREFOX || 'firefox-esr';

async function exported(page) {
  const was = await page.evaluate('document.documentElement.outerHTML'), answer = await page.evaluate(exporting({ rects: true }));
  assert.equal(await page.evaluate('document.documentElement.outerHTML'), was);
  const { counts, first } = compare(answer, layOut(answer.run));
  return { answer, sum: sums(counts), first };
}
test('Chromium: all blocks and texts of the article are exact', { skip: !installed(chromium) }, async () => {
  const browser = await Chromium.start();
  try {
    for (const width of [420, 800, 1280]) {
      const page = await browser.page(width, 600);
      await page.open(article);
      const { answer, sum, first } = await exported(page);
      assert.deepEqual(answer.warnings, []);
      assert.equal(sum.blocks.exact, sum.blocks.all, JSON.stringify(first.slice(0, 3)));
      assert.equal(sum.texts.exact, sum.texts.all, JSON.stringify(first.slice(0, 3)));
      assert.ok(sum.blocks.all > 20 && sum.texts.all > 20);
      await page.close();
    }
  } finally { await browser.close(); }
});
test('Chromium: plain texts stay readable', { skip: !installed(chromium) }, async () => {
  const browser = await Chromium.start();
  try {
    const page = await browser.page();
    await page.open(article);
    const { run } = await page.evaluate(exporting({ mode: 'plain' }));
    assert.ok(run.nodes.some(node => node.text === 'Where boxes stand'));
    assert.match(layOut(run), /^publish 0\n/);
  } finally { await browser.close(); }
});
test('the bookmarklet is one address', () => {
  const answer = spawnSync(process.execPath, [new URL('../bookmarklet.mjs', import.meta.url).pathname], { timeout: 20000 });
  const text = answer.stdout.toString();
  assert.match(text, /^javascript:[^\s]+$/);
  assert.doesNotThrow(() => new Function(decodeURIComponent(text.slice('javascript:'.length))));
});
test('Firefox: nearly all of the article is within 1 px', { skip: !installed(firefox) }, async () => {
  const browser = await Firefox.start();
  try {
    for (const width of [500, 800, 1280]) {                                     // it makes no window of 420 px
      await browser.resize(width, 700);
      await browser.open(article);
      const { answer, sum, first } = await exported(browser);
      const all = sum.blocks.all + sum.texts.all, near = sum.blocks.near + sum.texts.near;
      assert.equal(answer.run.viewport[0], width);
      assert.ok(near >= 0.95 * all, `${near} of ${all} ${JSON.stringify(first.slice(0, 3))}`);
    }
  } finally { await browser.close(); }
});
