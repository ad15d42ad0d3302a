// Pages with one unknown thing each: in both browsers each gives its warning and no other, is the same afterwards, and is laid out.
import { after, before, describe, test } from 'node:test';
import assert from 'node:assert/strict';
import { mkdtempSync, rmSync, writeFileSync } from 'node:fs';
import { tmpdir } from 'node:os';
import { join } from 'node:path';
import { pathToFileURL } from 'node:url';
import { Chromium } from './chromium.mjs';
import { Firefox } from './firefox.mjs';
import { installed } from './installed.mjs';
import { exporting, layOut } from './lay.mjs';

const standards = '<!doctype html><meta charset=utf-8><title>page</title>';
// [what it says, the page]
const PAGES = [
  ['', '<p>Only words <b>and</b> <code>words</code>.</p>'],
  ['quirks mode', '<p>words</p>', '<title>page</title>'],
  ['limited quirks mode (lines without text of their own have no strut)', '<p>words</p>',
    '<!DOCTYPE html PUBLIC "-//W3C//DTD XHTML 1.0 Transitional//EN" "http://www.w3.org/TR/xhtml1/DTD/xhtml1-transitional.dtd"><title>page</title>'],
  ['display: flex (its items frozen)', '<div style="display:flex"><p>one</p>two</div>'],
  ['display: inline-flex (its items frozen)', '<p>a <span style="display:inline-flex"><i>one</i></span></p>'],
  ['display: grid (its items frozen)', '<div style="display:grid;grid-template-columns:1fr 2fr"><p>one</p><p>two</p></div>'],
  ['display: contents (children exported in its place)', '<div style="display:contents"><p>one</p></div>'],
  ['automatic table (column widths frozen)', '<table><tr><td>one<td>two three</table>'],
  ['cell that spans rows (row heights frozen)',
    '<table style="table-layout:fixed;width:200px"><tr><td rowspan=2>one two three four five six seven<td>one<tr><td>two</table>'],
  ['columns (contents left out)', '<div style="column-count:2"><p>one</p><p>two</p></div>'],
  ['position: sticky (frozen where it is)', '<p style="position:sticky;top:0">one</p>'],
  ['width: calc(..% - ..px) (used value taken)', '<p style="width:calc(50% - 10px)">one</p>'],
  ['margin: calc (used value taken)', '<p style="margin-left:calc(5% + 1px)">one</p>'],
  ['padding: calc (used value taken)', '<p style="padding-left:calc(5% + 1px)">one</p>'],
  ['offset: calc (used value taken)', '<p style="position:relative;left:calc(5% + 1px)">one</p>'],
  ['max-width: calc(..% - ..px) (left out)', '<p style="max-width:calc(90% - 1px)">one</p>'],
  ['text-indent: calc (left out)', '<p style="text-indent:calc(5% + 1px)">one</p>'],
  ['width in percent with box-sizing: border-box (used value taken)', '<p style="box-sizing:border-box;width:50%;padding:5px">one</p>'],
  ['direction: rtl', '<p style="direction:rtl">one</p>'],
  ['vertical writing mode', '<p style="writing-mode:vertical-rl">one</p>'],
  ['transform (not applied)', '<p style="transform:rotate(3deg)">one</p>'],
  ['contain: layout', '<p style="contain:layout">one</p>'],
  ['shape-outside', '<p style="float:left;shape-outside:circle(50%);width:50px;height:50px"></p>'],
  ['zoom', '<p style="zoom:2">one</p>'],
  ['filter (may be a containing block)', '<p style="filter:blur(1px)">one</p>'],
  ['text-wrap: balance', '<p style="text-wrap:balance">one</p>'],
  ['text-align: justify (read as left)', '<p style="text-align:justify">one</p>'],
  ['overflow: clip (read as visible)', '<p style="overflow:clip">one</p>'],
  ['button as a replaced element of its used size', '<p><button>one</button></p>'],
  ['svg as a replaced element of its used size', '<p><svg width=10 height=10></svg></p>'],
  ['fieldset has layout of its own', '<fieldset>one</fieldset>'],
  ['fieldset has layout of its own (its legend frozen)', '<fieldset><legend>one</legend>two</fieldset>'],
  ['narrowed beside a float (width frozen)', '<p style="float:left;width:9px;height:9px"></p><div style="overflow:hidden">one</div>'],
  ['ruby has layout of its own', '<p><ruby>one</ruby></p>'],
  ['generated content (its widths are sums of advances)', '<style>p::before{content:"> "}</style><p>one</p>'],
  ['generated content that is no text', '<style>ol{counter-reset:a}li{display:block}li::before{content:counter(a)}</style><ol><li>one</ol>'],
  ['::first-letter', '<style>p::first-letter{font-size:3em}</style><p>one</p>'],
  ['::first-line', '<style>p::first-line{font-weight:bold}</style><p>one</p>'],
  ['list marker inside (an empty box of its width)', '<ul style="list-style-position:inside"><li>one</ul>'],
  ['empty list item with a marker', '<ul><li></ul>'],
  ['align=center of a block (frozen as a margin)', '<div align=center><p style="width:100px">one</p></div>'],
  ['soft hyphen (dropped)', '<p>one\u00adtwo</p>'],
  ['word broken inside', '<p style="width:30px;overflow-wrap:anywhere">oneoneoneoneone</p>'],
  ['right to left text', '<p>\u05d0\u05d1</p>'],
  ['CJK text', '<p>\u65e5\u672c</p>'],
  ['br with clear (clear left out)', '<p>one<br style="clear:both">two</p>'],
  ['absolute box at its static position (frozen)', '<p>one</p><p style="position:absolute;top:0">two</p>'],
  ['aspect-ratio', '<p style="width:100px;aspect-ratio:2">one</p>'],
  ['shadow tree (flattened)', '<div><template shadowrootmode=open><p>one</p></template></div>'],
];

const BROWSERS = [['Chromium', process.env.CHROMIUM || 'chromium', Chromium], ['Firefox', process.env.FIREFOX || 'firefox-esr', Firefox]];

for (const [name, program, Browser] of BROWSERS) describe(name, { skip: !installed(program) }, () => {
  let browser, page, folder;
  before(async () => {
    folder = mkdtempSync(join(tmpdir(), 'lay-warnings-'));
    browser = await Browser.start();
    page = browser.page ? await browser.page() : browser;
  });
  after(async () => { await browser.close(); rmSync(folder, { recursive: true, force: true }); });

  for (const [what, body, head = standards] of PAGES) test(what || 'nothing', async () => {
    const file = join(folder, 'page.html');
    writeFileSync(file, head + body);
    await page.open(pathToFileURL(file).href);
    const was = await page.evaluate('document.documentElement.outerHTML'), answer = await page.evaluate(exporting({}));
    assert.deepEqual(answer.warnings.map(warning => warning.what), what ? [what] : []);
    assert.equal(await page.evaluate('document.documentElement.outerHTML'), was);
    assert.match(layOut(answer.run), /^publish 0\n/);
  });
});
