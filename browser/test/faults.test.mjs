// What exporters get wrong, each with a page: what `lay` makes of its document stands where the browser has it, and the warnings say where.
import { test } from 'node:test';
import assert from 'node:assert/strict';
import { Chromium } from './chromium.mjs';
import { Firefox } from './firefox.mjs';
import { installed } from './installed.mjs';
import { compare, joined, sums } from './compare.mjs';
import { exporting, layOut } from './lay.mjs';

const chromium = process.env.CHROMIUM || 'chromium', firefox = process.env.FIREFOX || 'firefox-esr';
const FROZEN_TABLE = 'automatic table (column widths frozen)', STILL = 'absolute box at its static position (frozen)';
// [page, { warning: how often }]
const PAGES = [
  ['columns', { [FROZEN_TABLE]: 3 }],
  ['justified', { 'text-align: justify (read as left)': 3 }],
  ['beside_float', { 'narrowed beside a float (width frozen)': 3 }],
  ['fieldset', { 'fieldset has layout of its own (its legend frozen)': 4, 'fieldset has layout of its own': 1 }],
  ['static_position', { [STILL]: 6 }],
  ['negative_lengths', {}],
  ['inline_parts', {}],
  ['tabs', {}],
  ['full_lines', { [FROZEN_TABLE]: 1 }],
  ['kept_spaces', {}],
  ['unbroken_boxes', {}],
];
const url = name => new URL(`pages/${name}.html`, import.meta.url).href;

async function exported(page, name) {
  await page.open(url(name));
  const was = await page.evaluate('document.documentElement.outerHTML'), answer = await page.evaluate(exporting({ rects: true }));
  assert.equal(await page.evaluate('document.documentElement.outerHTML'), was);
  const { counts, off } = compare(answer, layOut(answer.run));
  return { answer, sum: sums(counts), off, counts };
}
const told = answer => Object.fromEntries(answer.warnings.map(({ what, count }) => [what, count]));

test('Chromium: each page is whole at four widths', { skip: !installed(chromium) }, async () => {
  const browser = await Chromium.start();
  try {
    for (const width of [320, 420, 800, 1280]) {
      const page = await browser.page(width, 600);
      for (const [name, warnings] of PAGES) {
        const { answer, sum, off } = await exported(page, name), where = `${name} at ${width} px: ${JSON.stringify(off.slice(0, 3))}`;
        assert.deepEqual(told(answer), warnings, where);
        for (const kind of ['blocks', 'texts', 'inlines']) assert.equal(sum[kind].exact, sum[kind].all, where);
        assert.ok(sum.blocks.all >= 4 && sum.texts.all >= 3, where);
      }
      await page.close();
    }
  } finally { await browser.close(); }
});
test('Chromium: warnings have places', { skip: !installed(chromium) }, async () => {
  const browser = await Chromium.start();
  try {
    const page = await browser.page(800, 600), { answer } = await exported(page, 'static_position');
    for (const { places, count, first } of answer.warnings) {
      assert.equal(places.length, count);
      assert.equal(places[0].selector, first);
      for (const { selector, node } of places) {
        assert.ok(answer.run.nodes.some(({ id, style }) => id === node && style.position === 'absolute'), selector);
        assert.equal(await page.evaluate(`document.querySelectorAll(${JSON.stringify(selector)}).length`), 1, selector);
      }
    }
  } finally { await browser.close(); }
});
test('Firefox: each page is within 1 px from the corner of the parent', { skip: !installed(firefox) }, async () => {
  const browser = await Firefox.start();
  try {
    await browser.resize(800, 700);
    for (const [name, warnings] of PAGES) {
      const { answer, sum, off } = await exported(browser, name),
        where = `${name}: ${JSON.stringify(off.filter(({ near }) => !near).slice(0, 3))}`;
      assert.deepEqual(told(answer), warnings, where);
      assert.equal(sum.blocks.near, sum.blocks.all, where);
    }
  } finally { await browser.close(); }
});
test('rectangles side by side on one line are one', () => {
  assert.deepEqual(joined([[0, 0, 64, 64], [65, 1, 10, 64], [80, 0, 10, 64], [0, 70, 5, 64]]),
    [[0, 0, 75, 64], [80, 0, 10, 64], [0, 70, 5, 64]]);
});
