// Headless Firefox over Marionette on the loopback. Each command has a time limit, and `close` ends it.
import { spawn } from 'node:child_process';
import { createServer, connect } from 'node:net';
import { mkdtempSync, rmSync, writeFileSync } from 'node:fs';
import { tmpdir } from 'node:os';
import { join } from 'node:path';
import { LIMIT, pause, within } from './chromium.mjs';

// No requests of the browser's own, and scroll bars that take no room.
const SETTINGS = { 'network.proxy.type': 1, 'network.proxy.http': '127.0.0.1', 'network.proxy.http_port': 9,
  'network.proxy.ssl': '127.0.0.1', 'network.proxy.ssl_port': 9, 'app.update.enabled': false, 'datareporting.policy.dataSubmissionEnabled': false,
  'toolkit.telemetry.enabled': false, 'network.captive-portal-service.enabled': false, 'network.connectivity-service.enabled': false,
  'browser.safebrowsing.update.enabled': false, 'services.settings.server': '', 'extensions.update.enabled': false,
  'ui.useOverlayScrollbars': 1, 'widget.gtk.overlay-scrollbars.enabled': true };

const freePort = () => new Promise(done => {
  const server = createServer().listen(0, '127.0.0.1', () => { const { port } = server.address(); server.close(() => done(port)); });
});
const joined = port => new Promise((done, fail) => {
  const socket = connect(port, '127.0.0.1', () => done(socket));
  socket.on('error', fail);
});

export class Firefox {
  static async start() {
    const browser = new Firefox(), port = await freePort();
    browser.folder = mkdtempSync(join(tmpdir(), 'lay-firefox-'));
    const settings = { 'marionette.port': port, ...SETTINGS };
    const lines = Object.entries(settings).map(([name, value]) => `user_pref(${JSON.stringify(name)}, ${JSON.stringify(value)});\n`);
    writeFileSync(join(browser.folder, 'user.js'), lines.join(''));
    const words = ['--headless', '--marionette', '--no-remote', '--profile', browser.folder];
    browser.process = spawn(process.env.FIREFOX || 'firefox-esr', words,
      { stdio: 'ignore', env: { ...process.env, MOZ_HEADLESS: '1', HOME: browser.folder } });
    browser.gone = new Promise(done => { browser.process.on('exit', done); browser.process.on('error', done); });
    for (let tries = 0; !browser.socket; tries++) {
      try { browser.socket = await joined(port); } catch (error) {
        if (tries > LIMIT / 200) { await browser.close(); throw error; }
        await pause(200);
      }
    }
    browser.listen();
    const timeouts = { script: LIMIT, pageLoad: 20000 };
    const session = await browser.send('WebDriver:NewSession', { capabilities: { alwaysMatch: { timeouts } } });
    browser.version = 'Firefox/' + session.capabilities.browserVersion;
    return browser;
  }
  // A message is its length in bytes, a colon, and a JSON text.
  listen() {
    let buffer = Buffer.alloc(0);
    Object.assign(this, { last: 0, waiting: new Map() });
    this.socket.on('data', data => {
      buffer = Buffer.concat([buffer, data]);
      for (;;) {
        const colon = buffer.indexOf(0x3a), end = colon + 1 + Number(buffer.subarray(0, Math.max(colon, 0)).toString());
        if (colon < 0 || buffer.length < end) return;
        this.take(JSON.parse(buffer.subarray(colon + 1, end).toString('utf8')));
        buffer = buffer.subarray(end);
      }
    });
  }
  take(message) {
    if (!Array.isArray(message)) return;
    const [, id, error, result] = message, entry = this.waiting.get(id);
    this.waiting.delete(id);
    if (entry) error ? entry.fail(new Error(JSON.stringify(error).slice(0, 1000))) : entry.done(result);
  }
  send(name, params = {}) {
    const id = ++this.last, bytes = Buffer.from(JSON.stringify([0, id, name, params]));
    return new Promise((done, fail) => {
      const timer = setTimeout(() => fail(new Error(name + ' took too long')), LIMIT);
      const ended = work => value => { clearTimeout(timer); work(value); };
      this.waiting.set(id, { done: ended(done), fail: ended(fail) });
      this.socket.write(bytes.length + ':'); this.socket.write(bytes);
    });
  }
  resize(width, height) { return this.send('WebDriver:SetWindowRect', { width, height }); }
  open(url) { return this.send('WebDriver:Navigate', { url }); }
  // Evaluates in the page itself: a script of Marionette's has a view of its own.
  async evaluate(expression) {
    const script = `const node = document.createElement('script'); node.textContent = arguments[0];
      document.documentElement.append(node); node.remove(); return (window.wrappedJSObject || window).layAnswer;`;
    const text = `try { window.layAnswer = JSON.stringify({ value: ${expression} }); } catch (error) {
      window.layAnswer = JSON.stringify({ error: String(error) + error.stack }); }`;
    const answer = JSON.parse((await this.send('WebDriver:ExecuteScript', { script, args: [text] })).value);
    if (answer.error) throw new Error('in page: ' + answer.error);
    return answer.value;
  }
  async close() {
    if (this.socket) await within(5000, this.send('Marionette:Quit', { flags: ['eForceQuit'] }).catch(() => {}));
    await within(5000, this.gone);
    if (this.process.exitCode === null) this.process.kill('SIGKILL');
    if (this.socket) this.socket.destroy();
    await pause(300);
    rmSync(this.folder, { recursive: true, force: true, maxRetries: 5, retryDelay: 300 });
  }
}
