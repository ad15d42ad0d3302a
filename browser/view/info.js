// What the page says beside the picture: of a node, of what changed, of a refusal, and the tree.
const Info = (() => {
  'use strict';
  const { escaped } = Picture, SHOWN = 200;
  const number = value => value === null ? 'auto' : String(Math.round(value * 1000) / 1000);

  // Rings as in the browsers' tools: margin round border round padding round content.
  function modelTable(model) {
    const { contentBox } = model;
    const ring = (name, [top, right, bottom, left], inner) => `<div class="ring ${name}"><div><small>${name}</small>${number(top)}</div>` +
      `<div>${number(left)}</div>${inner}<div>${number(right)}</div><div>${number(bottom)}</div></div>`;
    const content = `<div class="content">${number(contentBox.width)} × ${number(contentBox.height)}</div>`;
    return `<div class="model-table">${ring('margin', model.margin, ring('border', model.border, ring('padding', model.padding, content)))}</div>`;
  }
  const containingWords = ({ containing: { node, what, width, height }, context }) =>
    `<p class="dim">containing block: ${node ? `${what} of node ${node}` : what}, ${number(width)} × ${number(height)} px` +
    `${context ? `; formatting context of node ${context}` : ''}</p>`;
  // An anonymous box has none of the declarations of its node.
  function ofPiece(node, known, piece, count, model) {
    const declared = piece?.kind === 'anonymous' ? {} : known?.style || {};
    const style = Object.entries(declared).map(([name, value]) => `<code>${escaped(name)}: ${escaped(value)}</code>`).join('');
    const place = piece ? `<p>x ${piece.x}, y ${piece.y}, ${piece.width} × ${piece.height} px</p>` +
      `<p class="dim">${piece.word} ${node}, part ${piece.part}; pieces of this node: ${count}</p>` : '<p>no piece</p>';
    const names = [known?.tag, known?.label && '#' + known.label, ...(known?.classes || []).map(name => '.' +
      name)].filter(Boolean).join(' ');
    return `<b>${piece ? Kinds.NAMES[piece.kind] : 'node'} ${node}</b> ${escaped(names)}${place}` +
      (known?.text !== undefined ? `<p>“${escaped((known.as ?? known.text).slice(0, 300))}”</p>` : '') +
      (model ? modelTable(model) + containingWords(model) : '') + style;
  }
  // The pieces that two trees differ in, each a place to click.
  function ofChanges(changes) {
    if (Changes.isSame(changes)) return '<p>Both trees are the same.</p>';
    const lists = ['moved', 'resized', 'new'].map(word => [word, [...changes.words].filter(([, its]) => its === word).map(([piece]) =>
      piece)]);
    lists.push(['gone', changes.gone]);
    return lists.filter(([, pieces]) => pieces.length).map(([word, pieces]) => {
      const nodes = [...new Set(pieces.map(piece => piece.node))];
      const links = nodes.slice(0, SHOWN).map(node => `<span data-node="${node}">${node}</span>`).join('');
      return `<p class="list"><b>${pieces.length} ${word}</b> at nodes ${links}${nodes.length > SHOWN ? '…' : ''}</p>`;
    }).join('');
  }
  function ofRefusal({ line, words, field, place, what }) {
    const at = place.node !== undefined ? `node at place ${place.node}${what?.id !== undefined ? `, id ${what.id}` : ''}`
      : place.command ? `command ${place.command[1]} of editor ${place.command[0]}` : 'the document itself';
    const shown = what ? `<pre>${escaped(JSON.stringify(what, (key, value) => typeof value === 'string' ? value.slice(0, 200) : value, 1))}</pre>` : '';
    return `<div class="refusal"><p><code>${escaped(line)}</code></p><p>${escaped(words)}</p>` +
      `<p>Where: ${at}${field ? `, the field <code>${escaped(field)}</code>` : ''}.</p>${shown}` +
      '<p>tools/check_document names the value, and every other fault of the document.</p></div>';
  }
  function ofTree(nodes) {
    const out = [], root = [...nodes.values()].find(node => node.parent === 0);
    const visit = (node, depth) => {
      const words = node.kind === 'text' ? `<span>“${escaped((node.as ?? node.text).replace(/\s+/g, ' ').slice(0, 60))}”</span>`
        : `${escaped(node.tag || node.kind)} <span>${escaped(node.kind === 'replaced' ? node.natural.join(' × ') : Kinds.valueOf(nodes, node, 'display', 'inline'))}</span>`;
      out.push(`<div data-node="${node.id}" style="padding-left:${8 + 12 * depth}px"><span>${node.id}</span> ${words}</div>`);
      for (const kid of node.kids) visit(kid, depth + 1);
    };
    if (root) visit(root, 0);
    return out.join('');
  }
  function ofLegend(pieces, hidden) {
    const used = new Set(pieces.map(piece => piece.kind));
    return Object.entries(Kinds.NAMES).filter(([kind]) => used.has(kind)).map(([kind, name]) =>
      `<label><input type="checkbox" data-kind="${kind}"${hidden.has(kind) ? '' : ' checked'}><i style="border-color:var(--${kind})"></i>${name}</label>`).join('');
  }
  return { ofPiece, ofChanges, ofRefusal, ofTree, ofLegend };
})();
