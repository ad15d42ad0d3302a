// The frame in which the browser lays the page out itself. The frame that is shown stays until the next one is measured.
const Stage = (() => {
  'use strict';
  const POLICY = nonce => `default-src 'none'; style-src 'unsafe-inline'; img-src data: blob:; font-src data:; script-src 'nonce-${nonce}'`;
  const REFRESH = /<meta\b[^>]*http-equiv\s*=\s*["']?\s*refresh[^>]*>/gi;
  const SHOWN_AFTER = 700, LIMIT = 60000, TICK = 25;                            // milliseconds
  const HIGHEST = 4e6;                                                          // px

  // The page with the exporter before all else. Its own scripts don't run, and nothing is fetched for it.
  function withExporter(html, { exporter, frame }, token) {
    const doctype = /^\s*(?:<!--[^]*?-->\s*)*<!doctype[^>]*>/i.exec(html)?.[0] ?? '', attributes = `nonce="${token}"`;
    const head = `<meta http-equiv="Content-Security-Policy" content="${POLICY(token)}">` +
      `<script ${attributes}>window.layExportSettings = { manual: true }; ${exporter}\ndocument.currentScript.remove();</script>` +
      `<script ${attributes} data-token="${token}">${frame}</script>`;
    return (doctype || '<!doctype html>') + head + html.slice(doctype.length).replace(REFRESH, '');
  }
  // Whether the measuring kept this page from its own work: in some browsers the frame is no process of its own.
  const isBlocked = ({ ticks }, { milliseconds }) => milliseconds > 10 * TICK && ticks < milliseconds / TICK / 4;

  class Stage {
    // place: the element that holds the frames; texts: { exporter, frame }
    constructor(place, texts) {
      Object.assign(this, { place, texts, shown: null, coming: null });
      addEventListener('message', event => this.told(event));
    }
    show(frame) {
      if (this.shown !== frame) this.shown?.remove();
      this.shown = frame;
      frame.classList.add('shown');
    }
    end(answer) {
      const { coming } = this;
      this.coming = null;
      for (const timer of coming.timers) clearTimeout(timer);
      coming.done(answer);
    }
    // Gives up the page that is being measured.
    drop(answer = null) {
      if (!this.coming) return;
      const { frame } = this.coming;
      if (frame === this.shown) this.shown = null;
      frame.remove();
      this.end(answer);
    }
    clear() { this.drop(); this.shown?.remove(); this.shown = null; }

    // Lays a page out in a frame and measures it: { run, told, milliseconds, nodes, height }, { fault }, or null where a later page came.
    measure(html, width, height, onLoaded) {
      this.drop();
      const token = crypto.randomUUID(), frame = document.createElement('iframe');
      frame.setAttribute('sandbox', 'allow-scripts');
      frame.title = 'the page as this browser lays it out';
      Object.assign(frame.style, { width: width + 'px', height: height + 'px' });
      frame.srcdoc = withExporter(html, this.texts, token);
      return new Promise(done => {
        const timers = [setTimeout(() => this.show(frame), SHOWN_AFTER),
          setTimeout(() => this.drop({ fault: `the browser took longer than ${LIMIT / 1000} s to measure the page` }), LIMIT)];
        this.coming = { frame, token, height, onLoaded, done, timers, nodes: 0, ticks: 0 };
        this.place.append(frame);
      });
    }
    told({ source, data }) {
      const { coming } = this;
      if (!coming || source !== coming.frame.contentWindow || data.token !== coming.token) return;
      if (data.loaded) { this.loaded(coming, data.loaded); return; }
      this.show(coming.frame);
      const { nodes, height } = coming, { fault, measured } = data;
      this.end(fault ? { fault } : { ...measured, nodes, height, blocked: isBlocked(coming, measured) });
    }
    // The frame is made as high as its page, so that it needs no scroll bar.
    loaded(coming, { height, nodes }) {
      coming.nodes = nodes;
      coming.height = Math.max(coming.height, Math.min(height, HIGHEST));
      coming.frame.style.height = coming.height + 'px';
      coming.onLoaded(nodes);
      coming.timers.push(setInterval(() => { coming.ticks++; }, TICK));
      coming.frame.contentWindow.postMessage({ measure: coming.token, height: coming.height }, '*');
    }
  }
  return Stage;
})();
