// The pieces that are drawn: of a great tree those near what is seen alone, so that drawing takes no longer than for a small one.
const Window = (() => {
  'use strict';
  const ALL = 1500, MOST = 8000;                                                // so many pieces are drawn in any case, and at most
  const ORDER = { text: 0, box: 1, line: 2 };
  const meets = (piece, top, bottom) => piece.y <= bottom && piece.y + piece.height >= top;

  function extentOf(pieces) {
    const extent = { word: 'box', kind: 'extent', node: 0, part: 0, x: 0, y: 0, width: 0, height: 0 };
    let right = 0, bottom = 0;
    for (const { x, y, width, height } of pieces) {
      extent.x = Math.min(extent.x, x); extent.y = Math.min(extent.y, y);
      right = Math.max(right, x + width); bottom = Math.max(bottom, y + height);
    }
    return Object.assign(extent, { width: right - extent.x, height: bottom - extent.y });
  }
  // The pieces to draw where the part of the page from `top` to `bottom` is seen, from where to where they are, and how many are left out.
  // The last one is as large as the whole tree and of the kind `extent`, which is hidden: so a picture of them is as large as one of all.
  function near(pieces, extent, top, bottom) {
    if (pieces.length <= ALL) return { drawn: pieces.concat(extent), from: -Infinity, to: Infinity, left: 0 };
    const more = bottom - top, from = top - more, to = bottom + more, found = pieces.filter(piece => meets(piece, from, to));
    return { drawn: found.slice(0, MOST).concat(extent), from, to, left: Math.max(0, found.length - MOST) };
  }
  // The innermost piece at a point: the smallest of those that hold it, texts before boxes and lines last.
  function at(pieces, x, y, hidden) {
    const holds = piece => x >= piece.x && y >= piece.y && x < piece.x + piece.width && y < piece.y + piece.height;
    let found = null;
    for (const piece of pieces) {
      if (hidden.has(piece.kind) || !holds(piece)) continue;
      const order = ORDER[piece.word], size = piece.width * piece.height;
      if (!found || order < found.order || order === found.order && size <= found.size) found = { piece, order, size };
    }
    return found && found.piece;
  }
  return { extentOf, near, at };
})();
