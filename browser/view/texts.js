// Which characters of a text stand on which of its lines. A report has no characters: they are parted by their widths.
const Texts = (() => {
  'use strict';
  function advances(face) {
    const known = new Map(face?.advance || []), rest = face?.default ?? 500;
    return character => known.get(character.codePointAt(0)) ?? rest;
  }
  // The characters of a text with what they are wide. An exported text has other characters, and those of the page in `as`.
  function charactersOf(node, advance, pre) {
    const given = [...node.text].filter(c => c !== '\u200b');
    let shown = [...(node.as ?? node.text)].filter(c => c !== '\u200b' && c !== '\u00ad');
    if (shown.length !== given.length) return shown.map(c => ({ c, width: 500 }));
    const list = shown.map((c, i) => ({ c, width: advance(given[i]) }));
    return pre ? list : list.filter(({ c }, i) => !/[ \t\r\n]/.test(c) || i === 0 || !/[ \t\r\n]/.test(list[i - 1].c));
  }
  const pixels = value => /px$/.test(value) ? parseFloat(value) : 0;
  // The nearest end of a line to a place: behind a hyphen, or before or behind white space. Widths are rounded, so it may be some
  // characters off.
  function lineEnd(list, from, at) {
    const white = k => k >= list.length || /\s/.test(list[k].c);
    for (const step of [0, 1, -1, 2, -2, 3, -3, -4, -5]) {
      const end = at + step;
      if (end > from && end <= list.length && (white(end) || white(end - 1) || /[-\u2010-\u2014/]/.test(list[end - 1].c))) return end;
    }
    return at;
  }
  // Parts a text among its pieces, one on each line, by their widths.
  function spread(nodes, node, pieces, advance, unit) {
    const up = nodes.get(node.parent), space = Kinds.inherited(nodes, up, 'white-space'), pre = /^pre(-wrap)?$/.test(space);
    const letter = pixels(Kinds.inherited(nodes, up, 'letter-spacing')), word = pixels(Kinds.inherited(nodes, up, 'word-spacing'));
    const list = charactersOf(node, advance, pre);
    let at = 0;
    pieces.forEach((piece, i) => {
      const last = i === pieces.length - 1, wide = ({ c, width }) => width * piece.height / unit + letter +
        (/[ \u00a0]/.test(c) ? word : 0);
      const skipped = pre ? /\n/ : /\s/, kept = pre && piece.width === 0;           // a line without characters has no width
      while (!kept && (pre || i > 0) && at < list.length && skipped.test(list[at].c)) at++;
      const from = at;
      let reached = 0;
      const goesOn = () => at < list.length && !(/^pre/.test(space) && list[at].c === '\n') &&
        (last || space === 'pre' || reached + wide(list[at]) / 2 <= piece.width);
      while (goesOn()) reached += wide(list[at++]);
      if (!last && !/^pre/.test(space)) at = lineEnd(list, from, at);
      let end = at;
      const drops = () => /\s/.test(list[end - 1].c) && !pre && (!last || reached > piece.width + wide(list[end - 1]) / 2);
      while (end > from && drops()) reached -= wide(list[--end]);
      if (/^pre/.test(space) && list[at]?.c === '\n') at++;
      piece.glyphs = list.slice(from, end).map(({ c }) => c).join('').replace(/[\r\n]/g, ' ');
    });
  }
  // Gives each piece of a text its characters, `glyphs`.
  function give(nodes, pieces, face) {
    const texts = new Map(), advance = advances(face), unit = (face?.ascent ?? 750) + (face?.descent ?? 250) || 1000;
    for (const piece of pieces) if (piece.word === 'text') {
      if (!texts.has(piece.node)) texts.set(piece.node, []);
      texts.get(piece.node).push(piece);
    }
    for (const [id, list] of texts) {
      const node = nodes.get(id);
      if (node?.text !== undefined) spread(nodes, node, list.sort((a, b) => a.part - b.part), advance, unit);
    }
  }
  return { give };
})();
