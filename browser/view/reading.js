// Reads reports, and the nodes that a document has at one of its versions.
const Reading = (() => {
  'use strict';
  // The trees that a report shows: those of `latest`, `sync` and `final`; the edits that were accepted, in their order; and the line of
  // a refusal, where there is no report.
  function readReport(text) {
    const shown = [], edits = [];
    let tree = null, refusal = '';
    for (const line of text.split('\n')) {
      const fields = line.trim().split(/\s+/), [word] = fields;
      if (word === 'edit' && fields[3] === 'accepted') edits.push({ editor: +fields[1], index: +fields[2], version: +fields[4] });
      else if (word === 'refused' || word === 'usage') refusal = refusal || line.trim();
      else if (word === 'final') shown.push(tree = { title: 'final', version: +fields[1], pieces: [] });
      else if ((word === 'latest' || word === 'sync') && fields[3] !== 'nomemory') {
        shown.push(tree = { title: `${word} of editor ${fields[1]}`, version: +fields[3], pieces: [] });
      } else if (['box', 'line', 'text'].includes(word) && fields.length === 7 && tree) tree.pieces.push(pieceOf(word, fields));
    }
    return { shown, edits, refusal };
  }
  function pieceOf(word, fields) {
    const [node, part, x, y, width, height] = fields.slice(1).map(Number);
    return { word, node, part, x: x / 64, y: y / 64, width: width / 64, height: height / 64 };
  }
  // The nodes of a version by their numbers, each with its declarations and its children: those of the document, with the accepted edits
  // up to that version.
  function nodesAt(run, edits, version) {
    const styles = Sheet.stylesOf(run), nodes = new Map(run.nodes.map(node => [node.id,
      { ...node, style: styles.get(node.id), kids: [] }]));
    for (const node of nodes.values()) nodes.get(node.parent)?.kids.push(node);
    for (const edit of edits) if (edit.version <= version) applyEdit(nodes, run.editors?.[edit.editor - 1]?.[edit.index]);
    return nodes;
  }
  function insert(nodes, command) {
    const added = { ...command, style: { ...command.style }, kids: [] };
    nodes.set(added.id, added);
    nodes.get(added.parent)?.kids.splice(command.index, 0, added);
  }
  function remove(nodes, node) {
    const up = nodes.get(node.parent), drop = gone => { nodes.delete(gone.id); gone.kids.forEach(drop); };
    if (up) up.kids = up.kids.filter(kid => kid !== node);
    drop(node);
  }
  // Makes an edit that was accepted; of a batch all of its edits were.
  function applyEdit(nodes, command) {
    const node = command && nodes.get(command.node);
    if (command?.do === 'batch') for (const edit of command.edits) applyEdit(nodes, edit);
    else if (command?.do === 'insert') insert(nodes, command);
    else if (node && command.do === 'set') node.style[command.property] = command.value;
    else if (node && command.do === 'clear') delete node.style[command.property];
    else if (node && command.do === 'text') { node.text = command.text; delete node.as; }
    else if (node && command.do === 'remove') remove(nodes, node);
  }
  return { readReport, nodesAt };
})();
