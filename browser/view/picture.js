// The pieces of a tree as SVG: boxes by kind, texts with their characters, what changed, and a screenshot behind.
const Picture = (() => {
  'use strict';
  const escaped = text => String(text).replace(/[&<>"]/g, c => ({ '&': '&amp;', '<': '&lt;', '>': '&gt;', '"': '&quot;' }[c]));
  const ORDER = { line: 0, box: 1, text: 2 };
  const LABEL = { high: 9, digit: 5.5 };

  function bounds(pieces, viewport) {
    const [width, height] = viewport || [0, 0];
    let left = 0, top = 0, right = width, bottom = Math.min(height, 100000);
    for (const piece of pieces) {
      left = Math.min(left, piece.x); top = Math.min(top, piece.y);
      right = Math.max(right, piece.x + piece.width); bottom = Math.max(bottom, piece.y + piece.height);
    }
    return { left, top, width: right - left, height: bottom - top };
  }
  // Rectangles by rows of 12 px, so that those near one are found at once.
  function rowsOf() {
    const rows = new Map(), span = r => [Math.floor(r.y / 12), Math.floor((r.y + r.height) / 12)];
    const meets = (a, b) => a.x < b.x + b.width && b.x < a.x + a.width && a.y < b.y + b.height && b.y < a.y + a.height;
    return {
      add(r) { const [first, last] = span(r); for (let k = first; k <= last; k++) { if (!rows.has(k)) rows.set(k,
        []); rows.get(k).push(r); } },
      free(r) { const [first, last] = span(r); for (let k = first; k <= last; k++) if (rows.get(k)?.some(other =>
        meets(r, other))) return false; return true; },
    };
  }
  // What a label may not stand on: characters, and the edges of boxes.
  function takenBy(pieces, hidden) {
    const taken = rowsOf();
    for (const { kind, word, glyphs, x, y, width, height } of pieces) {
      if (word === 'text' && glyphs?.trim()) taken.add({ x, y: y + height * 0.1, width, height: height * 0.8 });
      if (word !== 'box' || hidden.has(kind)) continue;
      for (const edge of [y, y + height]) taken.add({ x, y: edge - 0.4, width, height: 0.8 });
      for (const edge of [x, x + width]) taken.add({ x: edge - 0.4, y, width: 0.8, height });
    }
    return taken;
  }
  // One label a corner, with all nodes of it, in the box or above it; over no text, no edge and no other label. Where there is no room
  // there is none: the pointer tells the number of such a box.
  function labelsOf(pieces, hidden) {
    const corners = new Map(), taken = takenBy(pieces, hidden), out = [];
    for (const piece of pieces) {
      if (piece.word !== 'box' || piece.width < 6 || piece.height < 6 || hidden.has(piece.kind)) continue;
      const key = Math.round(piece.x * 2) + ' ' + Math.round(piece.y * 2);
      if (!corners.has(key)) corners.set(key, { x: piece.x, y: piece.y, nodes: new Set() });
      corners.get(key).nodes.add(piece.node);
    }
    for (const { x, y, nodes } of corners.values()) {
      const ids = [...nodes], text = ids.slice(0, 4).join(' ') + (ids.length > 4 ? ' …' : ''), width = LABEL.digit * text.length + 2;
      const places = [[1, 1], [1, -LABEL.high - 1], [width + 2, 1]].map(([dx, dy]) =>
        ({ x: x + dx, y: y + dy, width, height: LABEL.high }));
      const place = places.find(taken.free);
      if (!place) continue;
      taken.add(place);
      out.push(`<text class="label" x="${place.x + 1}" y="${place.y + 7.5}">${text}</text>`);
    }
    return out.join('');
  }
  const rectText = (kind, { x, y, width, height }) =>
    `<rect class="${kind}" x="${x}" y="${y}" width="${Math.max(0, width)}" height="${Math.max(0, height)}"/>`;
  function glyphsText(piece, face) {
    const ascent = face?.ascent ?? 750, whole = ascent + (face?.descent ?? 250), { x, y, width, height, glyphs } = piece;
    if (piece.word !== 'text' || width <= 0 || !glyphs?.trim()) return '';
    return `<text x="${x}" y="${y + height * ascent / (whole || 1)}" font-size="${height * 920 / (whole || 1000)}" textLength="${width}" ` +
      `lengthAdjust="spacingAndGlyphs">${escaped(glyphs)}</text>`;
  }
  function pieceText(piece, index, word, face) {
    const changed = word && word !== 'same' ? ` class="changed ${word}"` : '';
    return `<g data-i="${index}"${changed}>${rectText(piece.kind, piece)}${glyphsText(piece, face)}</g>`;
  }
  // A ring between two rectangles.
  const path = (outer, inner, kind) => {
    const way = ({ x, y, width, height }) => `M${x} ${y}h${width}v${height}h${-width}z`;
    return `<path class="${kind}" fill-rule="evenodd" d="${way(outer)}${way(inner)}"/>`;
  };
  // Margin, border, padding, content and containing block of what is pointed at.
  function modelText(model) {
    if (!model) return '';
    return rectText('containing', model.containing) + path(model.marginBox, model.borderBox, 'margin') +
      path(model.borderBox, model.paddingBox, 'border') + path(model.paddingBox, model.contentBox, 'padding') +
      rectText('content', model.contentBox);
  }
  // scene: { pieces (each with `kind`), face, viewport, hidden: a Set of kinds, labels, zoom, room, changes?, shot?: { href, width, height,
  // strength } }
  function svg(scene) {
    const { pieces, hidden, changes, shot, viewport = [0, 0] } = scene, { left, top, width, height } = bounds(pieces, viewport);
    const zoom = Math.min(2, scene.room / (width + 20)) * scene.zoom;
    const order = pieces.map((piece, index) => [ORDER[piece.word], index]).sort((a, b) => a[0] - b[0] || a[1] - b[1]).map(([, index]) =>
      index);
    const drawn = order.filter(index => !hidden.has(pieces[index].kind))
      .map(index => pieceText(pieces[index], index, changes?.words.get(pieces[index]), scene.face));
    const old = changes ? changes.former.map(piece => rectText('former', piece)).concat(changes.gone.map(piece =>
      rectText('gone', piece))) : [];
    const behind = shot ?
      `<image href="${shot.href}" x="0" y="0" width="${shot.width}" height="${shot.height}" opacity="${shot.strength}"/>` : '';
    return `<svg viewBox="${left - 10} ${top - 10} ${width + 20} ${height + 20}" width="${(width + 20) * zoom}" height="${(height + 20) * zoom}"` +
      `${shot ? ' class="shot"' : ''}>${behind}${rectText('viewport', { x: 0, y: 0, width: viewport[0], height: viewport[1] })}` +
      `${old.join('')}${drawn.join('')}${scene.labels ? labelsOf(pieces, hidden) : ''}<g class="model"></g></svg>`;
  }
  return { svg, modelText, escaped };
})();
