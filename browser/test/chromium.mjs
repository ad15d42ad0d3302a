// Headless Chromium over its debugging pipe. No name is resolved, each command has a time limit, and `close` ends it.
import { spawn } from 'node:child_process';
import { mkdtempSync, rmSync } from 'node:fs';
import { tmpdir } from 'node:os';
import { join } from 'node:path';

const FLAGS = ['--headless', '--no-sandbox', '--disable-gpu', '--remote-debugging-pipe', '--font-render-hinting=none',
  '--force-device-scale-factor=1', '--hide-scrollbars', '--no-first-run', '--disable-background-networking',
  '--disable-component-update', '--disable-sync', '--disable-extensions', '--mute-audio', '--disable-dev-shm-usage',
  '--allow-file-access-from-files', '--disable-renderer-backgrounding',
  '--disable-backgrounding-occluded-windows', '--disable-background-timer-throttling', '--host-resolver-rules=MAP * ~NOTFOUND',
    '--window-size=800,600'];
// How long a command may take, in milliseconds.
export const LIMIT = Number(process.env.LAY_SECONDS || 60) * 1000;

export const pause = milliseconds => new Promise(done => setTimeout(done, milliseconds));
// Waits for `work`, but not longer.
export async function within(milliseconds, work) {
  let timer;
  const late = new Promise(done => { timer = setTimeout(done, milliseconds); });
  try { return await Promise.race([work, late]); } finally { clearTimeout(timer); }
}

export class Chromium {
  static async start(more = []) {
    const browser = new Chromium();
    browser.folder = mkdtempSync(join(tmpdir(), 'lay-chromium-'));
    browser.process = spawn(process.env.CHROMIUM || 'chromium', [...FLAGS, ...more, `--user-data-dir=${browser.folder}`, 'about:blank'],
      { stdio: ['ignore', 'ignore', 'ignore', 'pipe', 'pipe'] });
    browser.gone = new Promise(done => { browser.process.on('exit', done); browser.process.on('error', done); });
    Object.assign(browser, { last: 0, waiting: new Map(), listeners: new Map() });
    browser.gone.then(() => { for (const entry of browser.waiting.values()) entry.fail(new Error('chromium ended')); });
    browser.process.stdio[3].on('error', () => {});
    browser.listen();
    browser.version = (await browser.send('Browser.getVersion')).product;
    return browser;
  }
  // Messages are JSON texts, each ended by a zero byte.
  listen() {
    let parts = [];
    this.process.stdio[4].on('data', data => {
      let from = 0;
      for (let end = data.indexOf(0); end >= 0; end = data.indexOf(0, from)) {
        parts.push(data.subarray(from, end));
        this.take(JSON.parse(Buffer.concat(parts).toString('utf8')));
        parts = []; from = end + 1;
      }
      parts.push(data.subarray(from));
    });
  }
  take(message) {
    if (!message.id) {
      for (const listener of this.listeners.get(message.sessionId + ' ' + message.method) || []) listener(message.params);
      return;
    }
    const entry = this.waiting.get(message.id);
    this.waiting.delete(message.id);
    if (entry) message.error ? entry.fail(new Error(entry.method + ': ' + message.error.message)) : entry.done(message.result);
  }
  send(method, params = {}, sessionId) {
    const id = ++this.last;
    return new Promise((done, fail) => {
      const timer = setTimeout(() => { this.waiting.delete(id); fail(new Error(method + ' took too long')); }, LIMIT);
      const ended = work => value => { clearTimeout(timer); work(value); };
      this.waiting.set(id, { done: ended(done), fail: ended(fail), method });
      this.process.stdio[3].write(JSON.stringify({ id, method, params, sessionId }) + '\0');
    });
  }
  async page(width = 800, height = 600) {
    const { targetId } = await this.send('Target.createTarget', { url: 'about:blank' });
    const { sessionId } = await this.send('Target.attachToTarget', { targetId, flatten: true });
    const page = new Page(this, targetId, sessionId);
    await page.send('Page.enable');
    await page.resize(width, height);
    return page;
  }
  async close() {
    await within(3000, this.send('Browser.close').catch(() => {}));
    await within(3000, this.gone);
    if (this.process.exitCode === null) this.process.kill('SIGKILL');
    await pause(200);
    rmSync(this.folder, { recursive: true, force: true, maxRetries: 5, retryDelay: 200 });
  }
}

class Page {
  constructor(browser, targetId, sessionId) { Object.assign(this, { browser, targetId, sessionId }); }
  send(method, params) { return this.browser.send(method, params, this.sessionId); }
  resize(width, height) {
    return this.send('Emulation.setDeviceMetricsOverride', { width, height, deviceScaleFactor: 1, mobile: false });
  }
  once(method) {
    const key = this.sessionId + ' ' + method, known = this.browser.listeners;
    return new Promise(done => {
      const listener = params => { known.get(key).delete(listener); done(params); };
      if (!known.has(key)) known.set(key, new Set());
      known.get(key).add(listener);
    });
  }
  async open(url) {
    const loaded = this.once('Page.loadEventFired');
    await this.send('Page.navigate', { url });
    await within(20000, loaded);
  }
  async evaluate(expression) {
    const answer = await this.send('Runtime.evaluate', { expression, returnByValue: true, awaitPromise: true });
    const { exceptionDetails: fault } = answer;
    if (fault) throw new Error('in page: ' + (fault.exception?.description || fault.text));
    return answer.result.value;
  }
  async picture() { return Buffer.from((await this.send('Page.captureScreenshot', { format: 'png' })).data, 'base64'); }
  close() { return this.browser.send('Target.closeTarget', { targetId: this.targetId }); }
}
