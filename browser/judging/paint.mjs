// What of a page can be seen, without painting it: coloured rectangles by the order of Appendix E, and texts, from a report of `lay`.
import { views } from './views.mjs';

const SIDES = ['top', 'right', 'bottom', 'left'];
const PX = 64, TOLERANCE = 2;
const isClear = color => !color || color === 'transparent' || /^rgba\(.*, 0\)$/.test(color);
const styleOf = (node, name, initial) => node.style?.[name] ?? initial;
const isOut = node => /^(absolute|fixed)$/.test(styleOf(node, 'position', 'static'));
const pixels = text => Math.round((parseFloat(text) || 0) * PX);
function inheritedOf(nodes, node, name, initial) {
  for (let up = node; up; up = nodes.get(up.parent)) if (up.style?.[name] !== undefined) return up.style[name];
  return initial;
}

// The nodes with their children, and the pieces of each.
function sceneOf(answer, report) {
  const tree = views.Reading.readReport(report).shown.at(-1), nodes = views.Reading.nodesAt(answer.run, [], 0), boxes = new Map(),
    texts = new Map();
  views.Texts.give(nodes, tree.pieces, answer.run.face);
  for (const piece of tree.pieces) {
    const list = piece.word === 'box' ? boxes : piece.word === 'text' ? texts : null, rect = [piece.x, piece.y, piece.width,
      piece.height].map(value => value * PX);
    if (list) list.set(piece.node, [...(list.get(piece.node) || []), { part: piece.part, rect, glyphs: piece.glyphs }]);
  }
  return { nodes, boxes, texts, paint: answer.paint, viewport: answer.run.viewport.map(side => side * PX), items: [] };
}
const bordersOf = node => SIDES.map(side => /^(none|hidden)$/.test(styleOf(node, `border-${side}-style`, 'none')) ? 0 :
  pixels(styleOf(node, `border-${side}-width`, '3px')));
const meet = ([x, y, width, height], other) => {
  if (!other) return [x, y, width, height];
  const left = Math.max(x, other[0]), top = Math.max(y, other[1]);
  return [left, top, Math.min(x + width, other[0] + other[2]) - left, Math.min(y + height, other[1] + other[3]) - top];
};
// What clips a node: the padding boxes of those around it with another overflow than visible, as far as they hold its containing block.
function clipOf(scene, node) {
  let clip = null, skips = isOut(node);
  for (let up = scene.nodes.get(node.parent); up; up = scene.nodes.get(up.parent)) {
    const holds = !skips || styleOf(up, 'position', 'static') !== 'static', box = scene.boxes.get(up.id)?.[0];
    if (holds && box && styleOf(up, 'overflow', 'visible') !== 'visible') {
      const [top, right, bottom, left] = bordersOf(up), [x, y, width, height] = box.rect;
      clip = meet([x + left, y + top, width - left - right, height - top - bottom], clip);
    }
    if (holds) skips = isOut(up);
  }
  return clip;
}
function push(scene, node, rect, token, glyphs) {
  const [x, y, width, height] = meet(rect, clipOf(scene, node));
  if (width > 0 && height > 0) scene.items.push({ rect: [x, y, width, height], token, glyphs });
}
const isHidden = (scene, node) => inheritedOf(scene.nodes, node, 'visibility', 'visible') !== 'visible' ||
  scene.paint[node.id]?.opacity === '0';

// Background and borders of a box; of an inline box the sides where it is broken have none.
function paintBox(scene, node) {
  const paint = scene.paint[node.id], parts = scene.boxes.get(node.id) || [];
  if (!paint || isHidden(scene, node)) return;
  const inline = styleOf(node, 'display', 'inline') === 'inline' && node.parent !== 0;
  parts.forEach(({ rect }, i) => {
    if (!inline && i > 0) return;
    const [x, y, width, height] = rect, [top, right, bottom, left] = bordersOf(node).map((edge, side) =>
      inline && (side === 3 && i > 0 || side === 1 && i < parts.length - 1) ? 0 : edge);
    if (!isClear(paint.background)) push(scene, node, rect, paint.background);
    if (paint.image !== 'none') push(scene, node, rect, paint.image);
    const sides = [[x, y, width, top], [x + width - right, y, right, height], [x, y + height - bottom, width, bottom],
      [x, y, left, height]];
    sides.forEach((side, k) => { if (!isClear(paint.borders[k])) push(scene, node, side, paint.borders[k]); });
    if (paint.source) push(scene, node, [x + left, y + top, width - left - right, height - top - bottom], paint.source);
  });
}
function paintText(scene, node) {
  const up = scene.nodes.get(node.parent), color = scene.paint[up.id]?.color;
  if (isHidden(scene, up) || isClear(color)) return;
  for (const { rect, glyphs } of scene.texts.get(node.id) || []) if (glyphs) push(scene, node, rect, color, glyphs);
}
// The descendants of a box by the layers in which they are painted.
function layersOf(node) {
  const layers = { below: [], blocks: [], floats: [], inlines: [], same: [], above: [] };
  const visit = kid => {
    const display = styleOf(kid, 'display', 'inline'), z = parseInt(styleOf(kid, 'z-index', '0'), 10) || 0;
    if (kid.kind === 'text') layers.inlines.push(kid);
    else if (styleOf(kid, 'position', 'static') !== 'static') layers[z < 0 ? 'below' : z > 0 ? 'above' : 'same'].push([z, kid]);
    else if (styleOf(kid, 'float', 'none') !== 'none') layers.floats.push(kid);
    else if (/^inline-/.test(display) || kid.kind === 'replaced' && display === 'inline') layers.inlines.push(kid);
    else { layers[display === 'inline' ? 'inlines' : 'blocks'].push(kid); kid.kids.forEach(visit); }
  };
  node.kids.forEach(visit);
  for (const name of ['below', 'above']) layers[name].sort((a, b) => a[0] - b[0]);
  return layers;
}
function paintContext(scene, node) {
  paintBox(scene, node);
  const { below, blocks, floats, inlines, same, above } = layersOf(node);
  for (const [, kid] of below) paintContext(scene, kid);
  for (const kid of blocks) paintBox(scene, kid);
  for (const kid of floats) paintContext(scene, kid);
  for (const kid of inlines) {
    const display = styleOf(kid, 'display', 'inline');
    if (kid.kind === 'text') paintText(scene, kid); else if (display === 'inline' && kid.kind === 'element') paintBox(scene,
      kid); else paintContext(scene, kid);
  }
  for (const [, kid] of [...same, ...above]) paintContext(scene, kid);
}
// { items, viewport }: what is painted, in its order; the canvas has the background of the root, or of its body.
export function painted(answer, report) {
  const scene = sceneOf(answer, report), root = [...scene.nodes.values()].find(node => node.parent === 0);
  const body = root.kids.find(kid => kid.tag === 'body' || /^body\./.test(kid.tag || ''));
  const canvas = [root, body].map(node => node && scene.paint[node.id]?.background).find(color => !isClear(color));
  scene.items.push({ rect: [0, 0, ...scene.viewport], token: canvas || 'rgb(255, 255, 255)' });
  paintContext(scene, root);
  return { items: scene.items, viewport: scene.viewport };
}

const holds = (outer, inner) => outer[0] <= inner[0] && outer[1] <= inner[1] && outer[0] + outer[2] >= inner[0] + inner[2] && outer[1] +
  outer[3] >= inner[1] + inner[3];
// The texts that can be seen, those side by side on one line as one. Which spaces a text keeps isn't told: they count by their width.
function runsOf({ items, viewport }) {
  const seen = items.filter(({ rect, glyphs }, i) => glyphs && rect[0] < viewport[0] && rect[1] < viewport[1] && rect[0] + rect[2] > 0 &&
    rect[1] + rect[3] > 0 &&
    !items.slice(i + 1).some(later => !later.glyphs && holds(later.rect, rect)));
  const runs = seen.map(({ rect, token, glyphs }) => ({ rect: [...rect], token, glyphs }))
    .sort((a, b) => a.rect[1] - b.rect[1] || a.rect[0] - b.rect[0]);
  const joined = [];
  for (const run of runs) {
    const last = joined[joined.length - 1], gap = last && run.rect[0] - last.rect[0] - last.rect[2];
    const meets = last && last.token === run.token && Math.abs(last.rect[1] - run.rect[1]) <= TOLERANCE &&
      Math.abs(last.rect[3] - run.rect[3]) <= TOLERANCE && Math.abs(gap) <= TOLERANCE;
    if (meets) { last.rect[2] += run.rect[2] + gap; last.glyphs += run.glyphs; } else joined.push(run);
  }
  return joined.map(run => ({ ...run, letters: run.glyphs.replace(/\s+/g, '') })).filter(({ letters }) => letters);
}
function differentTexts(one, other) {
  const rest = runsOf(other), found = [];
  for (const run of runsOf(one)) {
    const at = rest.findIndex(({ letters, token, rect }) => letters === run.letters && token === run.token &&
      rect.every((side, k) => Math.abs(side - run.rect[k]) <= TOLERANCE));
    if (at >= 0) rest.splice(at, 1); else found.push({ rect: run.rect, one: `“${run.glyphs.trim()}”`, other: 'no such text' });
  }
  return found.concat(rest.map(run => ({ rect: run.rect, one: 'no such text', other: `“${run.glyphs.trim()}”` })));
}
// Edges of all rectangles on one axis, those within the tolerance as one.
function edgesOf(rects, axis, most) {
  const all = rects.flatMap(rect => [rect[axis], rect[axis] + rect[axis + 2]]).concat(0, most).filter(edge => edge >= 0 &&
    edge <= most).sort((a, b) => a - b);
  return all.filter((edge, i) => i === 0 || edge - all[i - 1] > 0);
}
function topmost(items, x, y) {
  for (let i = items.length - 1; i >= 0; i--) {
    const [left, top, width, height] = items[i].rect;
    if (x >= left && x < left + width && y >= top && y < top + height) return items[i].token;
  }
  return '';
}
function differentFills(one, other) {
  const [first, second] = [one, other].map(({ items }) => items.filter(({ glyphs }) => !glyphs)),
    rects = [...first, ...second].map(({ rect }) => rect), found = [];
  const xs = edgesOf(rects, 0, one.viewport[0]), ys = edgesOf(rects, 1, one.viewport[1]);
  for (let j = 0; j + 1 < ys.length; j++) for (let i = 0; i + 1 < xs.length; i++) {
    const width = xs[i + 1] - xs[i], height = ys[j + 1] - ys[j], x = xs[i] + width / 2, y = ys[j] + height / 2;
    if (width <= TOLERANCE || height <= TOLERANCE) continue;
    const mine = topmost(first, x, y), theirs = topmost(second, x, y);
    if (mine !== theirs) found.push({ rect: [xs[i], ys[j], width, height], one: mine, other: theirs });
  }
  return found;
}
// What two pages differ in, in what can be seen of the window.
export const differences = (one, other) => [...differentFills(one, other), ...differentTexts(one, other)];
