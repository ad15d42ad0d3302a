// The page: what is written on the left is laid out by the browser and by `lay`, while one types.
'use strict';
(() => {
  const element = id => document.getElementById(id), textIn = id => element(id).textContent;
  const PAUSE = 150, LONGEST_PAUSE = 1500;                                      // milliseconds after a key; longer where measuring blocks
  const LIMIT = 20000;                                                          // milliseconds that `lay` may take
  const LEAST_HEIGHT = 300, WIDEST = 10000;                                     // px
  // `told` and `compared` are what the browser told of its page, and what differs; `turn` counts what was asked for, `took` is how long the
  // last answer took, and `blocked` whether this page stood still meanwhile.
  const state = { run: null, shown: [], edits: [], at: -1, pieces: [], nodes: new Map(), world: null, changes: null, compared: null,
    told: null, refusal: '', pinned: null, hidden: new Set(['line', 'text']), turn: 0, took: 0, blocked: false };
  const runner = new Runner({ source: textIn('worker'), packed: textIn('packed') }, LIMIT);
  const stage = new Stage(element('frames'), { exporter: textIn('exporter'), frame: textIn('frame') });
  const drawing = new Drawing(element('picture'), element('layer'), element('frames'));
  const editor = new Editor(element('editor'), () => { element('examples').value = ''; later(); });
  const { examples } = JSON.parse(textIn('given'));

  const isDocument = text => /^\s*\{/.test(text);
  // Lets the browser answer keys and draw between two pieces of work.
  const breath = () => new Promise(done => setTimeout(done));
  function say(text, kind = '') {
    element('status').textContent = text;
    element('status').className = kind;
  }

  // ---- Laying out -----------------------------------------------------------------------------------------------------------------

  function widthOfPage() {
    const given = Math.floor(+element('width').value);
    return given >= 1 ? Math.min(given, WIDEST) : Math.max(100, drawing.room - 2 * Drawing.MARGIN);
  }
  function measured(text) {
    const height = Math.max(LEAST_HEIGHT, element('picture').clientHeight - 30);
    say('the browser lays the page out', 'busy');
    return stage.measure(text, widthOfPage(), height, nodes => say(`measuring ${Told.counted(nodes, 'element')}`, 'busy'));
  }
  async function pageOf(text) {
    if (!isDocument(text)) return measured(text);
    stage.clear();
    return { run: text, told: null, isAlone: true };
  }
  async function laidOut() {
    const text = editor.value, turn = ++state.turn, page = await pageOf(text);
    if (turn !== state.turn || !page) return;
    if (page.fault) { say(page.fault, 'bad'); return; }
    say('lay lays it out', 'busy');
    const words = page.isAlone && /"editors"\s*:/.test(text) ? ['run', '--workers', '1'] : ['scratch'];
    const answer = await runner.call(words, page.run, page.told);
    if (turn !== state.turn || answer.dropped) return;
    state.took = answer.milliseconds + (page.milliseconds || 0);
    state.blocked = page.blocked;
    if (await take(page, answer, turn)) await show(turn);
  }
  const NO_MODULE = /WebAssembly|wasm|DecompressionStream|CompileError/i;
  function layOut() {
    laidOut().catch(error => say(NO_MODULE.test(error.message)
      ? `This browser doesn't compile the module, which needs WebAssembly with 64-bit memory: ${error.message}` : error.message, 'bad'));
  }
  function later() {
    clearTimeout(later.timer);
    later.timer = setTimeout(layOut, state.blocked ? LONGEST_PAUSE + state.took : Math.min(LONGEST_PAUSE, PAUSE + state.took / 4));
  }
  // Why there is no report, or ''.
  function faultOf({ late, status, said }) {
    if (late) return `lay took longer than ${late / 1000} s and was ended`;
    if (status === 5) return 'lay ran out of memory';
    return status === 'trap' ? `lay was stopped: a check of this unproved build failed (${said})` : '';
  }
  function parsed(text) { try { return JSON.parse(text); } catch { return null; } }
  // Reads an answer; whether there is a tree to show. What is no JSON text `lay` refuses itself.
  async function take(page, answer, turn) {
    const fault = faultOf(answer);
    if (fault) { say(fault, 'bad'); return false; }
    const { shown, edits, refusal } = Reading.readReport(answer.report);
    await breath();
    const run = parsed(page.run), told = page.told && JSON.parse(page.told);
    await breath();
    if (turn !== state.turn) return false;
    Object.assign(state, { run, shown, edits, refusal, at: shown.length - 1, compared: answer.compared, pinned: null, told });
    if (refusal) { showRefusal(); return false; }
    say(Told.timesText(page.isAlone ? null : page, answer, run.nodes.length));
    return true;
  }

  // ---- Showing --------------------------------------------------------------------------------------------------------------------

  // The tree that is shown, with all that is told of it.
  async function show(turn = state.turn) {
    const tree = state.shown[state.at], before = state.shown[state.at - 1], nodes = Reading.nodesAt(state.run, state.edits, tree.version);
    await breath();
    for (const piece of tree.pieces) piece.kind = Kinds.of(nodes, piece);
    await breath();
    if (turn !== state.turn) return;
    Object.assign(state, { nodes, pieces: tree.pieces, world: BoxModel.worldOf(nodes, tree.pieces, state.run.viewport),
      changes: before ? Changes.between(before.pieces, tree.pieces) : null });
    draw();
    showVersion(tree);
    showVerdict();
    element('legend').innerHTML = Info.ofLegend(state.pieces, state.hidden);
    tell(null);
  }
  function draw() {
    const { run, nodes, pieces, changes, compared, hidden } = state, view = element('shown').value;
    const over = Boolean(compared) && view !== 'lay';
    if (!run || !pieces.length) { drawing.clear(); return; }
    document.body.classList.toggle('over', over);
    document.body.classList.toggle('only-browser', over && view === 'browser');
    drawing.show({ run, nodes, pieces, changes, compared, hidden, over, labels: element('labels').checked });
    if (state.pinned) tell(...state.pinned);
  }
  function showVersion(tree) {
    element('versions').hidden = state.shown.length < 2;
    element('slider').max = state.shown.length - 1;
    element('slider').value = state.at;
    element('version').textContent = `${tree.version}, ${tree.title}${state.changes ? ': ' + Changes.inWords(state.changes) : ''}`;
  }
  function showVerdict() {
    const { compared, told, nodes } = state, verdict = element('verdict');
    element('shown').disabled = verdict.hidden = !compared;
    verdict.className = compared?.off.length ? 'differs' : '';
    verdict.textContent = compared ? Told.verdictText(compared) : '';
    element('differences').innerHTML = compared ? Told.differencesText(nodes, compared) : '';
    element('warnings').innerHTML = compared ? Told.warningsText(told.warnings) : '';
  }
  function showRefusal() {
    say('lay refuses this document', 'bad');
    state.pieces = [];
    drawing.clear();
    element('versions').hidden = true;
    showVerdict();
    element('legend').innerHTML = element('info').innerHTML = '';
    element('layer').innerHTML = Info.ofRefusal(Refusals.explain(state.refusal, state.run));
  }
  function summary() {
    const count = state.pieces.length ? `<p>${Told.counted(state.pieces.length, 'piece')}. Point at one, or click to keep it.</p>` : '';
    const left = drawing.left ? `<p>${Told.counted(drawing.left, 'piece')} of what is seen here aren't drawn: there are too many.</p>` : '';
    return count + left + (state.changes ? Info.ofChanges(state.changes) : '');
  }
  const pieceOf = node => state.pieces.find(piece => piece.node === node && piece.word !== 'line');
  // Tells of a node, or of one of its pieces; null tells of the whole.
  function tell(node, piece) {
    for (const on of document.querySelectorAll('.difference.on')) on.classList.remove('on');
    const chosen = node && (piece || pieceOf(node)) || null, model = chosen ? BoxModel.of(state.world, chosen) : null;
    drawing.mark(chosen, model);
    if (!node) { element('info').innerHTML = summary(); return; }
    element('differences').querySelector(`[data-node="${node}"]`)?.classList.add('on');
    const count = state.pieces.filter(other => other.node === node).length;
    element('info').innerHTML = Info.ofPiece(node, state.nodes.get(node), chosen, count, model);
  }
  function pin(node, piece) {
    state.pinned = node ? [node, piece] : null;
    tell(node, piece);
  }
  function bring(node) {
    const piece = pieceOf(node);
    if (piece) drawing.bring(piece);
    pin(node, piece);
  }

  // ---- What one does --------------------------------------------------------------------------------------------------------------

  function put(text) {
    editor.value = text;
    layOut();
  }
  async function copyLink() {
    const address = await Address.of(editor.value);
    history.replaceState(null, '', address);
    try {
      await navigator.clipboard.writeText(address);
      say(`the address is copied, ${Told.counted(address.length, 'character')}`);
    } catch { say('the address of this page holds the document now'); }
  }
  function makeBookmark() {
    const settings = `window.layExportSettings = { manual: true }; const PACKED = '${textIn('packed')}';`;
    const text = `void (() => { ${settings}\n${textIn('exporter')}\n;${textIn('judge')}\n})()`;
    element('bookmark').href = 'javascript:' + encodeURIComponent(text);
  }
  function listenToControls() {
    const select = element('examples'), options = examples.map((example, i) => new Option(example[0], i)), own = new Option('your own', '');
    own.hidden = true;
    select.replaceChildren(...options, own);
    select.onchange = () => put(examples[+select.value][1]);
    element('width').oninput = later;
    element('shown').onchange = element('labels').onchange = draw;
    element('slider').oninput = () => { state.at = +element('slider').value; state.pinned = null; show(); };
    element('legend').onchange = ({ target }) => { state.hidden[target.checked ? 'delete' : 'add'](target.dataset.kind); draw(); };
    element('mode').onchange = ({ target }) => { document.documentElement.dataset.mode = target.value; };
    element('link').onclick = copyLink;
    element('about').ontoggle = makeBookmark;
    element('bookmark').onclick = event => { event.preventDefault(); say('drag this link to the bookmarks bar'); };
    element('unproved').onclick = () => { element('about').open = true; element('about').scrollIntoView(); };
  }
  function listenToPicture() {
    const layer = element('layer'), pane = element('picture');
    const point = (event, to) => { const piece = drawing.at(event); to(piece && piece.node, piece); };
    layer.onmousemove = event => { if (!state.pinned) point(event, tell); };
    layer.onmouseleave = () => { if (!state.pinned) tell(null); };
    layer.onclick = event => point(event, pin);
    pane.onscroll = () => requestAnimationFrame(() => { if (drawing.follow() && state.pinned) tell(...state.pinned); });
    let width = drawing.room;
    new ResizeObserver(() => {
      if (Math.abs(drawing.room - width) <= 1) return;
      width = drawing.room;
      if (isDocument(editor.value)) draw(); else later();
    }).observe(pane);
  }
  function listenToLists() {
    const go = ({ target }) => { const row = target.closest('[data-node]'); if (row && !target.closest('a')) bring(+row.dataset.node); };
    for (const id of ['differences', 'warnings', 'info']) element(id).onclick = go;
    element('differences').onkeydown = event => { if (event.key === 'Enter') go(event); };
  }
  function listenToFiles() {
    addEventListener('dragover', event => event.preventDefault());
    addEventListener('drop', async event => {
      event.preventDefault();
      const [file] = event.dataTransfer.files;
      if (file) { element('examples').value = ''; put(await file.text()); }
    });
  }
  async function start() {
    let given = null;
    try { given = await Address.read(); } catch { say('the document in the address could not be read', 'bad'); return; }
    if (given !== null) element('examples').value = '';
    put(given ?? examples[0][1]);
  }
  for (const listen of [listenToControls, listenToPicture, listenToLists, listenToFiles]) listen();
  addEventListener('hashchange', start);
  runner.opened.then(() => {
    element('sources').textContent = runner.about.sources;
    element('kit').textContent = runner.about.kit;
  }, () => {});
  start();
  window.layPlay = { state, runner, stage, editor, drawing, put };              // for tests
})();
