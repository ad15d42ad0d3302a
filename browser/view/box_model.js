// Margin, border, padding and content of a box, its containing block and its formatting context: from what is declared, and from the
// rectangles of a report. All lengths in px.
const BoxModel = (() => {
  'use strict';
  const SIDES = ['top', 'right', 'bottom', 'left'];
  const UNITS = { px: 1, in: 96, cm: 96 / 2.54, mm: 96 / 25.4, pt: 96 / 72, pc: 16 };
  const SIZES = { 'xx-small': 9, 'x-small': 10, small: 13, medium: 16, large: 18, 'x-large': 24, 'xx-large': 32 };
  const WIDTHS = { thin: 1, medium: 3, thick: 5 };

  // A length or a percentage in px; null for auto and what is none.
  function lengthOf(text, fontSize, whole) {
    const match = /^([+-]?(?:\d+\.?\d*|\.\d+))(px|in|cm|mm|pt|pc|em|%)?$/.exec(text || '');
    if (!match) return null;
    const number = parseFloat(match[1]), unit = match[2];
    return unit === '%' ? number * whole / 100 : unit === 'em' ? number * fontSize : number * (UNITS[unit] ?? (number === 0 ? 1 : NaN));
  }
  function fontSizeOf(nodes, node) {
    if (!node) return SIZES.medium;
    const above = fontSizeOf(nodes, nodes.get(node.parent)), text = node.style?.['font-size']?.trim().toLowerCase();
    if (!text || text === 'inherit') return above;
    if (SIZES[text]) return SIZES[text];
    return text === 'larger' ? above * 1.2 : text === 'smaller' ? above / 1.2 : lengthOf(text, above, above) ?? above;
  }
  const displayOf = (nodes, node) => Kinds.valueOf(nodes, node, 'display', 'inline');
  const isInternal = display => /^table-(row|cell|column|caption|row-group|header-group|footer-group|column-group)$/.test(display);
  const holdsBlocks = display => /^(block|list-item|inline-block|table-cell|table-caption|table|inline-table)$/.test(display);
  const isInline = (nodes, node) => displayOf(nodes, node) === 'inline' && node.parent !== 0 && !Kinds.isAbsolute(nodes, node) &&
    !Kinds.isFloat(nodes, node);

  // The border box of a node: of a table its table box, and not the wrapper with the captions.
  function borderBox(world, node) {
    const parts = world.boxes.get(node.id) || [];
    return Kinds.isTable(displayOf(world.nodes, node)) && parts.length > 1 ? parts[1] : parts[0];
  }
  function bordersOf(world, node) {
    const font = fontSizeOf(world.nodes, node);
    return SIDES.map(side => {
      if (/^(none|hidden)$/.test(Kinds.valueOf(world.nodes, node, `border-${side}-style`, 'none'))) return 0;
      const value = Kinds.valueOf(world.nodes, node, `border-${side}-width`, 'medium');
      return WIDTHS[value] ?? lengthOf(value, font, 0) ?? 0;
    });
  }
  const paddingsOf = (world, node, whole) => SIDES.map(side =>
    lengthOf(Kinds.valueOf(world.nodes, node, 'padding-' + side, '0'), fontSizeOf(world.nodes, node), whole) ?? 0);
  const marginsOf = (world, node, whole) => SIDES.map(side =>
    lengthOf(Kinds.valueOf(world.nodes, node, 'margin-' + side, '0'), fontSizeOf(world.nodes, node), whole));
  const inside = (rect, [top, right, bottom, left]) =>
    ({ x: rect.x + left, y: rect.y + top, width: rect.width - left - right, height: rect.height - top - bottom });
  const outside = (rect, edges) => inside(rect, edges.map(edge => -(edge ?? 0)));

  // 10.1: the node that gives the containing block, or null for the page; absolute boxes have a padding box.
  function containerOf(world, node) {
    const { nodes } = world, absolute = Kinds.isAbsolute(nodes, node);
    if (Kinds.valueOf(nodes, node, 'position', 'static') === 'fixed') return null;
    for (let up = nodes.get(node.parent); up; up = nodes.get(up.parent)) {
      const display = displayOf(nodes, up), positioned = Kinds.valueOf(nodes, up, 'position', 'static') !== 'static';
      if (absolute ? positioned && !isInternal(display) && !isInline(nodes, up) : holdsBlocks(display) || !isInline(nodes, up)) return up;
    }
    return null;
  }
  function containingBlock(world, node) {
    const up = containerOf(world, node), [width, height] = world.viewport;
    const page = { node: 0, what: 'the page', x: 0, y: 0, width, height }, rect = up && borderBox(world, up);
    if (!rect) return page;
    const borders = bordersOf(world, up), padding = inside(rect, borders);
    if (Kinds.isAbsolute(world.nodes, node)) return { node: up.id, what: 'padding box', ...padding };
    const whole = containingBlock(world, up).width;
    return { node: up.id, what: 'content box', ...inside(padding, paddingsOf(world, up, whole)) };
  }
  // The box whose formatting context a node is in.
  function contextOf(world, node) {
    const { nodes } = world;
    for (let up = nodes.get(node.parent); up; up = nodes.get(up.parent)) {
      const display = displayOf(nodes, up), clipped = Kinds.valueOf(nodes, up, 'overflow', 'visible') !== 'visible';
      if (up.parent === 0 || Kinds.isAbsolute(nodes, up) || Kinds.isFloat(nodes, up) ||
        /^(inline-block|table-cell|table-caption)$/.test(display) ||
        clipped && /^(block|list-item)$/.test(display)) return up.id;
    }
    return null;
  }
  // What is known of all boxes of a tree.
  function worldOf(nodes, pieces, viewport) {
    const boxes = new Map();
    for (const piece of pieces) if (piece.word === 'box') {
      if (!boxes.has(piece.node)) boxes.set(piece.node, []);
      boxes.get(piece.node)[piece.part] = piece;
    }
    return { nodes, boxes, viewport: viewport || [0, 0] };
  }
  // The edges of one piece of a node, or null of an anonymous box, a line or a text. An auto margin is null.
  function of(world, piece) {
    const node = piece && world.nodes.get(piece.node);
    if (!node || piece.word !== 'box' || piece.kind === 'anonymous') return null;
    const containing = containingBlock(world, node), parts = world.boxes.get(node.id) || [];
    let edges = [marginsOf(world, node, containing.width), bordersOf(world, node), paddingsOf(world, node, containing.width)];
    if (isInline(world.nodes,
      node)) {                       // an inline box has its left edges on its first part, and its right ones on its last
      const first = piece === parts[0], last = piece === parts[parts.length - 1];
      edges = edges.map(([top, right, bottom, left]) => [top, last ? right : 0, bottom, first ? left : 0]);
    }
    const [margin, border, padding] = edges, paddingBox = inside(piece, border);
    return { margin, border, padding, marginBox: outside(piece, margin), borderBox: piece, paddingBox,
      contentBox: inside(paddingBox, padding),
      containing, context: contextOf(world, node) };
  }
  return { worldOf, of, lengthOf, SIDES };
})();
