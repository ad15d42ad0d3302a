// The worker: it opens the module once, and answers each request by a call of the program, and by a comparison where rectangles of a
// browser came with it. Before this text stand wasm/lay.js and the comparison.
'use strict';
let layModule = null;

async function open({ packed, module }) {
  if (module) { layModule = module; return; }
  layModule = await Lay.open(Uint8Array.from(atob(packed), c => c.charCodeAt(0)));
}
// What the browser has elsewhere, and where that begins.
function comparedWith(run, told, report) {
  const compared = Comparison.compare({ run, ...told }, report);
  return { ...compared, causes: Causes.of(run.nodes, compared.off) };
}
function answer({ id, words, text, told }) {
  const start = performance.now(), { status, out, said, memory } = Lay.call(layModule, words, new TextEncoder().encode(text));
  const report = new TextDecoder().decode(out), milliseconds = performance.now() - start;
  const compared = told && status === 0 ? comparedWith(JSON.parse(text), JSON.parse(told), report) : null;
  return { id, status, said, memory, milliseconds, report, compared };
}
addEventListener('message', async ({ data }) => {
  try {
    if (data.open) { await open(data.open); postMessage({ opened: { module: layModule, about: Lay.about(layModule) } }); return; }
    postMessage(answer(data.call));
  } catch (error) { postMessage({ id: data.call && data.call.id, fault: String(error && error.message || error) }); }
});
