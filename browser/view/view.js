// The page view.html: what is dropped, opened or pasted is shown, and what is pointed at is told.
'use strict';
const element = id => document.getElementById(id);
// `before` is the report that the shown one is compared with.
const state = { run: null, shown: [], edits: [], at: 0, before: null, pieces: [], hidden: new Set(), pinned: null, nodes: new Map(),
  world: null, changes: null, shot: null, refusal: '', found: [], foundAt: -1 };

// ---- Drawing ------------------------------------------------------------------------------------------------------------------

// The tree that the shown one is compared with: of a report before, the one with its title and version, else its last; or the tree
// before it in one report.
function treeBefore() {
  const tree = state.shown[state.at];
  if (!state.before) return state.shown[state.at - 1];
  return state.before.find(other => other.title === tree.title && other.version === tree.version) || state.before[state.before.length - 1];
}
function draw() {
  const tree = state.shown[state.at];
  if (!tree) return;
  state.nodes = state.run ? Reading.nodesAt(state.run, state.edits, tree.version) : new Map();
  state.pieces = tree.pieces;
  for (const piece of tree.pieces) piece.kind = Kinds.of(state.nodes, piece);
  Texts.give(state.nodes, tree.pieces, state.run?.face);
  state.world = BoxModel.worldOf(state.nodes, tree.pieces, state.run?.viewport);
  const before = treeBefore();
  state.changes = before ? Changes.between(before.pieces, tree.pieces) : null;
  element('picture').innerHTML = Picture.svg({ pieces: state.pieces, face: state.run?.face, viewport: state.run?.viewport,
    hidden: state.hidden,
    labels: element('labels').checked, zoom: 2 ** +element('zoom').value, room: element('picture').clientWidth - 26, changes: state.changes,
    shot: state.shot && { ...state.shot, strength: element('strength').value } });
  drawControls(tree);
  element('tree').innerHTML = Info.ofTree(state.nodes);
  tell(state.pinned);
}
function drawControls(tree) {
  element('versions').hidden = state.shown.length < 2;
  element('slider').max = state.shown.length - 1;
  element('slider').value = state.at;
  element('shown').textContent = `${tree.version}, ${tree.title}` + (state.changes && !state.before ?
    `: ${Changes.inWords(state.changes)}` : '');
  element('compared').hidden = !state.before;
  element('differences').textContent = state.before ? Changes.inWords(state.changes) : '';
  element('shots').hidden = !state.shot;
  element('legend').innerHTML = Info.ofLegend(state.pieces, state.hidden);
}
function drawRefusal() {
  element('picture').innerHTML = Info.ofRefusal(Refusals.explain(state.refusal, state.run));
  state.nodes = state.run?.nodes?.every?.(node => node && typeof node === 'object') ? Reading.nodesAt(state.run, [], 0) : new Map();
  try { element('tree').innerHTML = Info.ofTree(state.nodes); } catch { element('tree').innerHTML = ''; }       // a faulty tree may have no picture
}

// ---- What is pointed at -------------------------------------------------------------------------------------------------------

function summary() {
  if (!state.shown.length) return '';
  const hint = `<p>${state.pieces.length} pieces. Point at one, or click to keep it.</p>`;
  return state.changes ? hint + Info.ofChanges(state.changes) : hint;
}
function tell(node, piece) {
  for (const on of document.querySelectorAll('.on')) on.classList.remove('on');
  const layer = document.querySelector('svg .model');
  if (layer) layer.innerHTML = '';
  if (node === null) { element('info').innerHTML = summary(); return; }
  const pieces = state.pieces.map((other, i) => [other, i]).filter(([other]) => other.node === node);
  const chosen = piece || pieces[0]?.[0], model = state.world && chosen ? BoxModel.of(state.world, chosen) : null;
  for (const [other, i] of pieces) if (!piece || other === piece) document.querySelector(`g[data-i="${i}"]`)?.classList.add('on');
  element('tree').querySelector(`[data-node="${node}"]`)?.classList.add('on');
  if (layer) layer.innerHTML = Picture.modelText(model);
  element('info').innerHTML = Info.ofPiece(node, state.nodes.get(node), chosen, pieces.length, model);
}
// Keeps a node and brings it into view, in the picture and in the tree.
function pin(node, piece) {
  state.pinned = node;
  tell(node, piece);
  if (node === null) return;
  element('tree').querySelector(`[data-node="${node}"]`)?.scrollIntoView({ block: 'nearest' });
  document.querySelector('g.on')?.scrollIntoView({ block: 'nearest', inline: 'nearest' });
  history.replaceState(null, '', '#node=' + node);
}
function pointed(event) {
  const group = event.target.closest?.('g[data-i]'), row = event.target.closest?.('[data-node]');
  if (group) { const piece = state.pieces[+group.dataset.i]; return [piece.node, piece]; }
  return row ? [+row.dataset.node, null] : [null, null];
}
addEventListener('mouseover', event => { if (state.pinned === null) tell(...pointed(event)); });
addEventListener('click', event => {
  const [node, piece] = pointed(event);
  if (event.target.closest('main, #tree') || node !== null) pin(node, piece);
});
// Arrow keys go through the tree.
element('tree').addEventListener('keydown', event => {
  const step = { ArrowDown: 1, ArrowUp: -1 }[event.key], rows = [...element('tree').children];
  if (!step || !rows.length) return;
  event.preventDefault();
  const at = rows.findIndex(row => row.classList.contains('on')), row = rows[Math.min(rows.length - 1, Math.max(0, at + step))];
  pin(+row.dataset.node, null);
});

// ---- Finding ------------------------------------------------------------------------------------------------------------------

function find() {
  state.found = Find.find(state.nodes, element('query').value);
  state.foundAt = -1;
  step(1);
}
function step(by) {
  const { found } = state, query = element('query').value.trim();
  if (found.length) state.foundAt = (state.foundAt + by + found.length) % found.length;
  element('hits').textContent = found.length ? `${state.foundAt + 1} of ${found.length}` : query ? 'none' : '';
  if (found.length) pin(found[state.foundAt], null);
}
function pinAddressed() {
  const match = /^#node=(\d+)$/.exec(location.hash);
  if (match && state.nodes.has(+match[1])) pin(+match[1], null);
}
element('query').oninput = find;
element('query').onkeydown = event => { if (event.key === 'Enter') step(event.shiftKey ? -1 : 1); };
addEventListener('hashchange', pinAddressed);

// ---- What is dropped, opened or pasted ----------------------------------------------------------------------------------------

const isDocument = text => /^\s*\{/.test(text);
function takeDocument(text) {
  const value = JSON.parse(text);
  Object.assign(state, { run: value.run || value, shown: [], edits: [], before: null, refusal: '', shot: null });
  if (value.report) takeReport(value.report);
}
function takeReport(text) {
  const { shown, edits, refusal } = Reading.readReport(text);
  if (shown.length) Object.assign(state, { before: state.shown.length ? state.shown : null, shown, edits, at: shown.length - 1,
    refusal: '' });
  else if (refusal) Object.assign(state, { refusal, shown: [], before: null });
  else throw new Error('this is neither a document nor a report');
}
function takeAll(texts) {
  try {
    for (const text of texts.filter(isDocument)) takeDocument(text);
    for (const text of texts.filter(text => !isDocument(text))) takeReport(text);
  } catch (error) { element('info').textContent = 'Not read: ' + error.message; return; }
  state.pinned = null;
  if (state.refusal) drawRefusal();
  else if (state.shown.length) { draw(); pinAddressed(); } else element('picture').innerHTML = '<p class="hint">Now its report.</p>';
}
// A picture goes behind the boxes, as wide as the page of the document.
async function takePicture(file) {
  const image = new Image(), href = URL.createObjectURL(file);
  image.src = href;
  await image.decode();
  const width = state.run?.viewport?.[0] ?? image.naturalWidth;
  state.shot = { href, width, height: image.naturalHeight * width / image.naturalWidth };
  draw();
}
async function takeFiles(files) {
  const pictures = [...files].filter(file => file.type.startsWith('image/')), others = [...files].filter(file =>
    !file.type.startsWith('image/'));
  if (others.length) takeAll(await Promise.all(others.map(file => file.text())));
  for (const picture of pictures) await takePicture(picture);
}
addEventListener('dragover', event => { event.preventDefault(); element('picture').classList.add('over'); });
addEventListener('dragleave', () => element('picture').classList.remove('over'));
addEventListener('drop', event =>
  { event.preventDefault(); element('picture').classList.remove('over'); takeFiles(event.dataTransfer.files); });
addEventListener('paste', event => {
  if (event.clipboardData.files.length) takeFiles(event.clipboardData.files);
  else if (event.target !== element('query')) takeAll([event.clipboardData.getData('text')]);
});
element('open').onclick = () => element('files').click();
element('files').onchange = event => takeFiles(event.target.files);
element('slider').oninput = event => { state.at = +event.target.value; state.pinned = null; draw(); };
element('alone').onclick = () => { state.before = null; draw(); };
element('zoom').oninput = element('labels').onchange = element('strength').oninput = draw;
element('legend').onchange = event => { const { kind } = event.target.dataset; state.hidden[event.target.checked ? 'delete' :
  'add'](kind); draw(); };
element('mode').onchange = event => { document.documentElement.dataset.mode = event.target.value; };
