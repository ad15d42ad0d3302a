// Runs in the frame that shows the page which is judged, behind the exporter: it measures the page when asked, and tells what it measured.
// The frame has no origin of its own, so that it can be a process of its own, and speaks with the page around it by messages alone.
(() => {
  'use strict';
  const script = document.currentScript, { token } = script.dataset;
  script.previousElementSibling.remove();                                       // the policy stays in force
  script.remove();
  const tell = message => parent.postMessage({ token, ...message }, '*');
  const sized = height => new Promise(done => {
    if (innerHeight === height) { done(); return; }
    const ended = () => { removeEventListener('resize', ended); done(); };
    addEventListener('resize', ended);
    setTimeout(ended, 500);
  });
  function measured() {
    if (getComputedStyle(document.documentElement).display === 'none') throw new Error('The page has no box: its root isn\'t displayed.');
    const start = performance.now(), { run, ...told } = layExport({ mode: 'measured', rects: true });
    tell({ measured: { run: JSON.stringify(run), told: JSON.stringify(told), milliseconds: performance.now() - start } });
  }
  addEventListener('load', () => {
    tell({ loaded: { height: document.documentElement.scrollHeight, nodes: document.getElementsByTagName('*').length } });
  });
  addEventListener('message', async event => {
    if (event.source !== parent || event.data.measure !== token) return;
    try { await sized(event.data.height); measured(); } catch (error) { tell({ fault: String(error && error.message || error) }); }
  });
})();
