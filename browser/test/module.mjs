// The module in a page of Chromium or Firefox: what the tests of it share.
import { readFileSync } from 'node:fs';
import { Chromium, pause } from './chromium.mjs';
import { Firefox } from './firefox.mjs';

const here = path => new URL(path, import.meta.url);
export const packed = process.env.LAY_MODULE || here('../wasm/lay_unproved.wasm.gz').pathname;
const library = readFileSync(here('../wasm/lay.js'), 'utf8');

// These run in the page.
const PARTS = `${library}
const bytesOf = text => Uint8Array.from(atob(text), c => c.charCodeAt(0));
function textOf(bytes) {
  let text = '';
  for (let i = 0; i < bytes.length; i += 8192) text += String.fromCharCode(...bytes.subarray(i, i + 8192));
  return btoa(text);
}
function callOf([words, input, memory]) {
  const answer = Lay.call(window.layModule, words, bytesOf(input), memory ? { memory } : {});
  return { ...answer, out: textOf(answer.out) };
}`;

// A page that has the module: `calls` takes [words, input, memory] each, and gives { status, out, said, memory }.
export class ModulePage {
  static async start(name = 'chromium') {
    const it = new ModulePage();
    it.browser = await (name === 'firefox' ? Firefox : Chromium).start();
    it.page = name === 'firefox' ? it.browser : await it.browser.page();
    if (name === 'firefox') await it.page.open('about:blank');
    await it.page.evaluate(`(() => { ${PARTS}; Object.assign(window, { Lay, bytesOf, callOf }); return 0; })()`);
    const text = readFileSync(packed).toString('base64');
    await it.page.evaluate(`(Lay.open(bytesOf('${text}')).then(
      module => { window.layModule = module; }, error => { window.layFault = String(error); }), 0)`);
    while (!await it.page.evaluate('Boolean(window.layModule)')) {
      const fault = await it.page.evaluate(`window.layFault || ''`);
      if (fault) { await it.close(); throw new Error(fault); }
      await pause(30);
    }
    return it;
  }
  async calls(list) {
    const given = list.map(([words, input, memory]) => [words, Buffer.from(input).toString('base64'), memory || 0]);
    const answers = await this.page.evaluate(`${JSON.stringify(given)}.map(callOf)`);
    return answers.map(answer => ({ ...answer, out: Buffer.from(answer.out, 'base64') }));
  }
  async call(words, input, memory) { return (await this.calls([[words, input, memory]]))[0]; }
  close() { return this.browser.close(); }
}
