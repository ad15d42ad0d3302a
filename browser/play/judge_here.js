// The bookmark: judges the page that one looks at, and draws the verdict over it. Before this text stand the exporter, wasm/lay.js, the
// comparison and causes.js, and two texts: PACKED, the module in base64, and RULES, judge_here.css.
const SVG = 'http://www.w3.org/2000/svg', SHOWN = 30, WARNINGS = 12;
const IS_FORBIDDEN = /Content Security Policy|WebAssembly|wasm/i;
const sheet = document.createElement('lay-verdict'), shadow = sheet.attachShadow({ mode: 'closed' });

function make(name, text, place) {
  const node = document.createElement(name);
  node.textContent = text;
  place.append(node);
  return node;
}
function startBox() {
  document.querySelector('lay-verdict')?.remove();
  make('style', RULES, shadow);
  document.documentElement.append(sheet);
  const box = make('aside', '', shadow);
  box.setAttribute('role', 'status');
  return box;
}
const px = rect => rect.map(units => Math.round(units / 64 * 1000) / 1000).join(' ');

function putRect(svg, kind, [x, y, width, height]) {
  const node = document.createElementNS(SVG, 'rect');
  const values = { class: kind, x: x / 64, y: y / 64, width: Math.max(0, width / 64), height: Math.max(0, height / 64) };
  for (const [name, value] of Object.entries(values)) node.setAttribute(name, value);
  svg.append(node);
}
// The boxes that stand alike, and both rectangles of those with which differences begin.
function draw(causes, off, report) {
  const svg = document.createElementNS(SVG, 'svg'), bad = new Set(off.map(({ id }) => id));
  for (const [name, value] of [['class', 'layer'], ['width', 1], ['height', 1]]) svg.setAttribute(name, value);
  for (const line of report.split('\n')) {
    const [word, node, , ...place] = line.split(' ');
    if (word === 'box' && place.length === 4 && !bad.has(+node)) putRect(svg, 'same', place.map(Number));
  }
  for (const { browser, lay } of causes) {
    for (const rect of browser) putRect(svg, 'browsers', rect);
    for (const rect of lay) putRect(svg, 'ours', rect);
  }
  shadow.prepend(svg);
  return svg;
}
function list(box, counts, causes, answer) {
  const { blocks, texts } = Comparison.sums(counts), nodes = new Map(answer.run.nodes.map(node => [node.id, node]));
  make('p', `${blocks.exact} of ${blocks.all} blocks and ${texts.exact} of ${texts.all} texts stand where lay has them.`, box);
  for (const { id, kind, browser, lay } of causes.slice(0, SHOWN)) {
    const node = nodes.get(id), row = make('p', `${kind} ${node.tag || (node.as || '').trim().slice(0, 30)}`, box);
    make('code', `browser ${browser.slice(0, 2).map(px).join('; ') || 'none'}`, row);
    make('code', `lay ${lay.slice(0, 2).map(px).join('; ') || 'none'}`, row);
  }
  for (const { what, count } of answer.warnings.slice(0, WARNINGS)) make('small', `${what}${count > 1 ? ` (${count})` : ''}; `, box);
}
// Where the page forbids WebAssembly its document is offered as a file, for play.html.
function offerFile(box, run, why) {
  make('p', `This page doesn't let lay run (${why}). Save its document and drop it into play.html.`, box);
  const link = make('a', 'page.run.json', box);
  link.href = URL.createObjectURL(new Blob([JSON.stringify(run)], { type: 'application/json' }));
  link.download = 'page.run.json';
}
function putControls(box, svg) {
  const row = make('p', '', box), hide = make('button', 'Hide boxes', row), close = make('button', 'Close', row);
  hide.onclick = () => { svg.style.display = svg.style.display ? '' : 'none'; };
  close.onclick = () => sheet.remove();
  make('small', 'An unproved build of lay.', row);
}
async function layOut(run) {
  const module = await Lay.open(Uint8Array.from(atob(PACKED), c => c.charCodeAt(0)));
  return Lay.call(module, ['scratch'], new TextEncoder().encode(JSON.stringify(run)));
}
function tell(box, answer, { status, out, said }) {
  const report = new TextDecoder().decode(out);
  if (status !== 0) {
    make('p', status === 1 ? `lay refuses the document of this page: ${report}` : `lay ended with status ${status} ${said}`, box);
    return;
  }
  const { off, counts } = Comparison.compare(answer, report), causes = Causes.of(answer.run.nodes, off);
  putControls(box, draw(causes, off, report));
  list(box, counts, causes, answer);
}
// The page is measured without the box, which would be measured too.
function measured() {
  sheet.remove();
  try { return window.layExport({ rects: true }); } finally { document.documentElement.append(sheet); }
}
async function judge() {
  const box = startBox();
  make('p', 'lay: measuring the page …', box);
  await new Promise(done => setTimeout(done, 30));
  const answer = measured();
  box.textContent = '';
  try { tell(box, answer, await layOut(answer.run)); } catch (error) {
    if (!IS_FORBIDDEN.test(String(error))) throw error;
    offerFile(box, answer.run, String(error.message || error).slice(0, 120));
  }
}
judge();
