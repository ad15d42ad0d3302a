// Opens pages in a browser: quirks mode isn't CSS 2.2, so such a page is loaded again in standards mode.
import { mkdtempSync, readFileSync, rmSync, writeFileSync } from 'node:fs';
import { tmpdir } from 'node:os';
import { join, resolve } from 'node:path';
import { pathToFileURL } from 'node:url';
import { Chromium, pause } from '../test/chromium.mjs';
import { Firefox } from '../test/firefox.mjs';
import { isAddress } from './tasks.mjs';

// These run in the page.
const QUIRKS = `document.compatMode !== 'CSS1Compat' || /(Transitional|Frameset)/.test(document.doctype && document.doctype.publicId)`;
const SETTLED = `document.fonts && document.fonts.ready ? document.fonts.ready.then(() => 0) : 0`;
// A sum of where all elements are.
const PLACES = `[...document.querySelectorAll('*')].reduce((sum, element) => { const rect = element.getBoundingClientRect();
  return (sum * 31 + Math.round((rect.left + scrollX) * 64) + Math.round((rect.top + scrollY) * 64) * 7 + Math.round(rect.width * 64)) % 2147483647; }, 0)`;
// Tests whose scripts go on after loading say so by a class of the root.
const WAITS = `document.documentElement.classList.contains('reftest-wait')`, MOST_WAITS = 100;
const TALLEST = 16000, MOST_TILES = 40;

async function readiness(tab) {
  for (let tries = 0; await tab.evaluate(WAITS); tries++) {
    if (tries === MOST_WAITS) throw new Error('after 10 s the page still has the class reftest-wait');
    await pause(100);
  }
}

// Chromium with a tab a page, or Firefox with one window.
export class Opener {
  static async start(name, network) {
    const opener = new Opener();
    opener.folder = mkdtempSync(join(tmpdir(), 'lay-judge-'));
    opener.browser = name === 'firefox' ? await Firefox.start() : await Chromium.start(network ? ['--host-resolver-rules='] : []);
    opener.isFirefox = name === 'firefox';
    opener.copies = 0;
    return opener;
  }
  get version() { return this.browser.version; }
  get isGone() { return this.browser.process.exitCode !== null || this.browser.process.signalCode !== null; }
  // { tab, mode }: a tab with the page, and how it was loaded.
  async open({ file, width, height }) {
    const tab = this.isFirefox ? this.browser : await this.browser.page(width, height);
    if (this.isFirefox) await tab.resize(width, height + 100);
    try {
      await tab.open(isAddress(file) ? file : pathToFileURL(resolve(file)).href);
      const again = !isAddress(file) && await tab.evaluate(QUIRKS);
      if (again) await tab.open(this.inStandardsMode(file));
      if (!this.isFirefox) await tab.evaluate(SETTLED);
      await readiness(tab);
      return { tab, mode: again ? 'loaded in standards mode' : '' };
    } catch (error) { await this.shut(tab); throw error; }
  }
  inStandardsMode(file) {
    const text = readFileSync(file, 'latin1').replace(/<\?xml[^>]*>|<!doctype[^>]*>/gi, ''),
      copy = join(this.folder, `page${++this.copies}.html`);
    writeFileSync(copy, `<!doctype html><base href="${pathToFileURL(resolve(file)).href}">` + text, 'latin1');
    return pathToFileURL(copy).href;
  }
  // The page as PNGs, [{ top, data }], up to a height that browsers paint: as one, where it looks the same in a window as high as it is,
  // else by windows, to which it is scrolled.
  async pictures(tab, width, height, bottom) {
    if (this.isFirefox) return [{ top: 0, data: Buffer.from((await tab.send('WebDriver:TakeScreenshot', { full: true })).value,
      'base64') }];
    const whole = Math.min(TALLEST, Math.max(height, Math.ceil(bottom))), before = await tab.evaluate(PLACES);
    await tab.resize(width, whole);
    if (before === await tab.evaluate(PLACES)) return [{ top: 0, data: await tab.picture() }];
    await tab.resize(width, height);
    const tiles = [];
    for (let top = 0; top < whole && tiles.length < MOST_TILES; top += height) {
      const reached = await tab.evaluate(`(scrollTo({ top: ${top}, behavior: 'instant' }), scrollY)`);
      tiles.push({ top: reached, data: await tab.picture() });
    }
    return tiles;
  }
  async shut(tab) { if (!this.isFirefox) await tab.close().catch(() => {}); }
  async close() { await this.browser.close(); rmSync(this.folder, { recursive: true, force: true }); }
}
