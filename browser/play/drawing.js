// The picture: the pieces near what is seen, over the frame of the browser or alone.
class Drawing {
  static MARGIN = 10;                                                           // px round the page in the pictures of view/picture.js
  static COMPARED = 1000;                                                       // differences that are drawn

  // pane: what scrolls; layer: what the picture stands in; frames: what stands under it
  constructor(pane, layer, frames) {
    Object.assign(this, { pane, layer, frames, tree: null, scale: 1, drawn: [], from: 0, to: 0, left: 0, origin: [0, 0] });
  }
  get room() { return Math.max(100, this.pane.clientWidth - 8); }

  // Shows a tree: { run, nodes, pieces, changes, compared, hidden, labels, over }; `over` says whether it stands over the browser's page.
  show(tree) {
    this.tree = tree;
    this.extent = Window.extentOf(tree.pieces);
    this.draw();
  }
  clear() {
    Object.assign(this, { tree: null, left: 0 });
    this.layer.innerHTML = '';
  }
  // A page that is wider than the room for it is drawn smaller.
  fitting() {
    const { tree: { run: { viewport: [width] } }, extent } = this, margins = 2 * Drawing.MARGIN;
    const whole = Math.max(width, extent.x + extent.width) - Math.min(0, extent.x) + margins;
    return Math.min(1, this.room / Math.max(width + margins, Math.min(whole, 1.5 * width)));
  }
  seen(scale) {
    const top = this.pane.scrollTop / scale;
    return [top, top + this.pane.clientHeight / scale];
  }
  draw() {
    const { tree } = this, scale = this.scale = this.fitting();
    Object.assign(this, Window.near(tree.pieces, this.extent, ...this.seen(scale)));
    if (!tree.over) this.giveTexts();
    const hidden = new Set([...tree.hidden, 'extent']);
    if (!tree.over) hidden.delete('text');
    const { face, viewport } = tree.run, shot = tree.over ? { href: 'data:,', width: 0, height: 0, strength: 0 } : null;
    this.layer.innerHTML = Picture.svg({ pieces: this.drawn, face, viewport, hidden, labels: tree.labels, zoom: scale / 2, room: Infinity,
      changes: tree.changes, shot });
    const svg = this.layer.firstElementChild;
    this.origin = svg.getAttribute('viewBox').split(' ').slice(0, 2).map(Number);
    if (tree.compared) svg.insertAdjacentHTML('beforeend', `<g>${this.comparedText()}</g>`);
    const [x, y] = this.origin;
    Object.assign(this.frames.style, { left: -x * scale + 'px', top: -y * scale + 'px', transform: `scale(${scale})` });
  }
  // The characters of the texts that are drawn; a text is parted among all of its pieces.
  giveTexts() {
    const { nodes, pieces, run } = this.tree, drawn = new Set(this.drawn.map(piece => piece.node));
    Texts.give(nodes, pieces.filter(piece => piece.word === 'text' && drawn.has(piece.node)), run.face);
  }
  // Both rectangles of what differs.
  comparedText() {
    const parts = [], put = (kind, [x, y, width, height]) => {
      if (y / 64 > this.to || (y + height) / 64 < this.from) return;
      parts.push(`<rect class="${kind}" x="${x / 64}" y="${y / 64}" width="${width / 64}" height="${height / 64}"/>`);
    };
    for (const { browser, lay } of this.tree.compared.causes.slice(0, Drawing.COMPARED)) {
      for (const rect of browser) put('browsers', rect);
      for (const rect of lay) put('ours', rect);
    }
    return parts.join('');
  }
  // Draws anew where the pane was scrolled to what isn't drawn; whether it did.
  follow() {
    const [top, bottom] = this.seen(this.scale), follows = Boolean(this.tree) && (top < this.from || bottom > this.to);
    if (follows) this.draw();
    return follows;
  }
  // The piece at a place of the window, or null.
  at({ clientX, clientY }) {
    const svg = this.layer.firstElementChild, { tree } = this;
    if (!svg || !tree) return null;
    const rect = svg.getBoundingClientRect(), [left, top] = this.origin, hidden = new Set(tree.hidden);
    if (!tree.over) hidden.delete('text');
    return Window.at(tree.pieces, (clientX - rect.left) / this.scale + left, (clientY - rect.top) / this.scale + top, hidden);
  }
  // Marks a piece, with its box model.
  mark(piece, model) {
    for (const on of this.layer.querySelectorAll('.on')) on.classList.remove('on');
    const place = this.layer.querySelector('.model');
    if (place) place.innerHTML = Picture.modelText(model);
    if (piece) this.layer.querySelector(`g[data-i="${this.drawn.indexOf(piece)}"]`)?.classList.add('on');
  }
  bring(piece) {
    this.pane.scrollTo({ top: Math.max(0, (piece.y - this.origin[1]) * this.scale - this.pane.clientHeight / 3) });
    this.follow();
  }
}
