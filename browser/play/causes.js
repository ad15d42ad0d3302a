// Where a difference begins: a box that stands elsewhere moves all that is in it and behind it, and makes those round it larger.
const Causes = (() => {
  'use strict';
  const CLOSE = 2;                                                              // units
  const shiftOf = ({ browser, lay }) => browser.length && lay.length ? [lay[0][0] - browser[0][0], lay[0][1] - browser[0][1]] : null;
  const isSame = (one, other) => one && other && Math.abs(one[0] - other[0]) <= CLOSE && Math.abs(one[1] - other[1]) <= CLOSE;
  const isResized = ({ browser, lay }) => browser.length !== lay.length ||
    browser.some((rect, i) => Math.abs(rect[2] - lay[i][2]) > CLOSE || Math.abs(rect[3] - lay[i][3]) > CLOSE);

  // By how much the bottom edge of a box is elsewhere.
  const bottomShiftOf = ({ browser, lay }) => lay[0][1] + lay[0][3] - browser[0][1] - browser[0][3];

  // The nodes round those that are moved in their parents or resized.
  function changedInside(parents, off) {
    const changed = new Set();
    for (const entry of off) if (!entry.inParent || isResized(entry)) {
      for (let up = parents.get(entry.id); up; up = parents.get(up)) changed.add(up);
    }
    return changed;
  }
  // The differences of `off` that no other one explains: boxes that aren't moved as the node above, as the one before, or as the bottom
  // edge of that; and boxes of another size in which nothing is moved or resized.
  function of(nodes, off) {
    const NONE = [0, 0], shifts = new Map(), before = new Map(), entries = new Map(off.map(entry => [entry.id, entry])), causes = [];
    const changed = changedInside(new Map(nodes.map(node => [node.id, node.parent])), off);
    for (const node of nodes) {
      const entry = entries.get(node.id), shift = entry ? shiftOf(entry) : NONE, above = shifts.get(node.parent) || NONE;
      shifts.set(node.id, shift || above);
      const follows = isSame(shift, above) || (before.get(node.parent) || []).some(one => isSame(shift, one));
      if (entry && (!shift || !follows || isResized(entry) && !changed.has(node.id))) causes.push(entry);
      if (!shift || !entry && node.kind === 'text') continue;                   // a text without pieces is nowhere
      before.set(node.parent, entry ? [shift, [0, bottomShiftOf(entry)]] : [shift]);
    }
    return causes;
  }
  return { of };
})();
