// What kind of box a piece is, and the values of a node that aren't declared there.
const Kinds = (() => {
  'use strict';
  const NAMES = { block: 'block', anonymous: 'anonymous', inline: 'inline box', 'inline-block': 'inline-block', float: 'float',
    absolute: 'absolute', table: 'table, row', cell: 'cell', replaced: 'replaced', line: 'line', text: 'text' };
  const declared = (node, property) => node?.style?.[property]?.trim().toLowerCase();

  // The declared value of a property that isn't inherited, or its initial one.
  function valueOf(nodes, node, property, initial) {
    let value = declared(node, property);
    for (let up = node; value === 'inherit' && up; value = declared(up, property)) up = nodes.get(up.parent);
    return value ?? initial;
  }
  // What is declared of an inherited property here or above.
  function inherited(nodes, node, property) {
    for (let up = node; up; up = nodes.get(up.parent)) {
      const value = declared(up, property);
      if (value && value !== 'inherit') return value;
    }
    return '';
  }
  const isTable = display => /^(inline-)?table$/.test(display);
  const isAbsolute = (nodes, node) => /^(absolute|fixed)$/.test(valueOf(nodes, node, 'position', 'static'));
  const isFloat = (nodes, node) => node.parent !== 0 && !isAbsolute(nodes, node) &&
    /^(left|right)$/.test(valueOf(nodes, node, 'float', 'none'));
  function of(nodes, piece) {
    if (piece.word !== 'box') return piece.word;
    const node = nodes.get(piece.node);
    if (!node) return 'block';
    const display = valueOf(nodes, node, 'display', 'inline');
    if (piece.part > (isTable(display) ? 1 : 0) && (display !== 'inline' || node.parent === 0)) return 'anonymous';
    if (node.kind === 'replaced') return 'replaced';
    if (isAbsolute(nodes, node)) return 'absolute';
    if (isFloat(nodes, node)) return 'float';
    if (display === 'table-cell') return 'cell';
    if (/table/.test(display)) return 'table';
    if (display === 'inline-block') return 'inline-block';
    return display === 'inline' && node.parent !== 0 ? 'inline' : 'block';
  }
  return { NAMES, of, valueOf, inherited, isTable, isAbsolute, isFloat };
})();
