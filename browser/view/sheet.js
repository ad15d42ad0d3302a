// What a document's style sheet gives its nodes: rule sets with tags, classes and labels, joined by white space, > and +. Values aren't
// judged here as `lay` judges them; unknown properties do no harm in a picture.
//
// The files of this folder are plain scripts, so that a page takes them from the disk without a server. Each makes one object, and
// view.html has the order in which they are needed.
const Sheet = (() => {
  'use strict';
  const NAME = String.raw`-?[_a-zA-Z\u0080-\uffff][-_a-zA-Z0-9\u0080-\uffff]*`;
  const COMPOUND = new RegExp(`^(\\*|${NAME})?((?:[.#]${NAME.replace('-?[', '[-')})*)$`);

  // [head, body] of each rule set, in their order; what begins with @ is left out.
  function ruleSets(text) {
    const plain = text.replace(/\/\*[^]*?(\*\/|$)/g, ' '), found = [];
    const part = /("(?:[^"\\]|\\[^])*"?|'(?:[^'\\]|\\[^])*'?|\\[^]|[{};]|[^"'\\{};]+)/g;
    let head = '', body = null, depth = 0;
    for (const [piece] of plain.matchAll(part)) {
      if (piece === '{') { if (depth++ === 0) body = ''; else body += piece; }
      else if (piece === '}') {
        if (depth === 0) { head += piece; continue; }
        if (--depth === 0) { if (!/^\s*@/.test(head)) found.push([head.trim(), body]); head = ''; body = null; } else body += piece;
      } else if (depth) body += piece;
      else if (piece === ';' && /^\s*@/.test(head)) head = '';
      else head += piece;
    }
    if (body !== null && !/^\s*@/.test(head)) found.push([head.trim(), body]);
    return found;
  }
  function compoundOf(text) {
    const match = COMPOUND.exec(text);
    if (!match || text === '') return null;
    const marks = match[2].match(/[.#][^.#]+/g) || [];
    return { tag: match[1] && match[1] !== '*' ? match[1] : '', classes: marks.filter(mark => mark[0] === '.').map(mark => mark.slice(1)),
      labels: marks.filter(mark => mark[0] === '#').map(mark => mark.slice(1)) };
  }
  // A selector as [combinator, compound] from its end to its start, or null where it isn't of this form.
  function selectorOf(text) {
    const words = text.trim().replace(/\s*([>+])\s*/g, ' $1 ').split(/\s+/), steps = [];
    let joint = '';
    for (const word of words) {
      if (word === '>' || word === '+') { if (joint === '>' || joint === '+' || !steps.length) return null; joint = word; continue; }
      const compound = compoundOf(word);
      if (!compound) return null;
      steps.push([steps.length ? joint || ' ' : '', compound]);
      joint = '';
    }
    return joint || !steps.length ? null : steps.reverse();
  }
  const weightOf = steps => steps.reduce((sum, [, compound]) =>
    sum + compound.labels.length * 1e6 + compound.classes.length * 1e3 + (compound.tag ? 1 : 0), 0);
  function declarationsOf(body) {
    return body.split(';').map(part => /^\s*([-a-zA-Z]+)\s*:\s*([^]*?)\s*(!\s*important)?\s*$/.exec(part)).filter(Boolean)
      .map(([, name, value, important]) => [name.toLowerCase(), value, Boolean(important)]);
  }
  const isOne = (node, compound) => (!compound.tag || node.tag === compound.tag) &&
    compound.classes.every(name => (node.classes || []).includes(name)) && compound.labels.every(name => node.label === name);
  // Whether a node is what a selector asks for. `tree` has each node's parent and the element before it.
  function matches(tree, node, steps, at = 0) {
    if (!node || !isOne(node, steps[at][1])) return false;
    if (at + 1 === steps.length) return true;
    const joint = steps[at][0];
    if (joint === '+') return matches(tree, tree.before.get(node), steps, at + 1);
    for (let up = tree.parent.get(node); up; up = tree.parent.get(up)) {
      if (matches(tree, up, steps, at + 1)) return true;
      if (joint === '>') return false;
    }
    return false;
  }
  function treeOf(nodes) {
    const byId = new Map(nodes.map(node => [node.id, node])), parent = new Map(), before = new Map(), last = new Map();
    for (const node of nodes) if (node.kind !== 'text') {
      parent.set(node, byId.get(node.parent));
      before.set(node, last.get(node.parent));
      last.set(node.parent, node);
    }
    return { parent, before };
  }
  // A copy of each node's declarations with what the sheet gives it: by importance, by the weight of the selector, and by order.
  function stylesOf(run) {
    const styles = new Map(run.nodes.map(node => [node.id, { ...node.style }]));
    if (typeof run.sheet !== 'string') return styles;
    const tree = treeOf(run.nodes), rules = [];
    ruleSets(run.sheet).forEach(([head, body], order) => {
      const selectors = head.split(',').map(selectorOf);
      if (selectors.every(Boolean)) for (const steps of selectors) rules.push({ steps, weight: weightOf(steps), order,
        list: declarationsOf(body) });
    });
    rules.sort((a, b) => a.weight - b.weight || a.order - b.order);
    for (const node of run.nodes) if (node.kind !== 'text') {
      const plain = {}, important = {};
      for (const rule of rules) if (matches(tree, node, rule.steps)) {
        for (const [name, value, first] of rule.list) (first ? important : plain)[name] = value;
      }
      styles.set(node.id, { ...plain, ...node.style, ...important });
    }
    return styles;
  }
  return { stylesOf, ruleSets, selectorOf };
})();
