// play/causes.js: which differences are told first.
import assert from 'node:assert/strict';
import { readFileSync } from 'node:fs';
import { test } from 'node:test';

const source = readFileSync(new URL('../play/causes.js', import.meta.url), 'utf8'), Causes = new Function(`${source}; return Causes;`)();
// A root with two boxes, each with a box in it.
const nodes = [[1, 0], [2, 1], [3, 2], [4, 1], [5, 4]].map(([id, parent]) => ({ id, parent, kind: 'element' }));
const at = (id, browser, lay, inParent = false) => ({ id, browser: [browser], lay: [lay], inParent });
const told = off => Causes.of(nodes, off).map(({ id }) => id);

test('a box that is moved, what is in it, and what is moved as far behind it', () => {
  assert.deepEqual(told([at(2, [0, 0, 64, 64], [0, 640, 64, 64]), at(3, [0, 0, 64, 64], [0, 640, 64, 64], true),
    at(4, [0, 64, 64, 64], [0, 704, 64, 64]), at(5, [0, 64, 64, 64], [0, 704, 64, 64], true)]), [2]);
});
test('what is moved further behind it begins anew', () => {
  assert.deepEqual(told([at(2, [0, 0, 64, 64], [0, 640, 64, 64]), at(4, [0, 64, 64, 64], [0, 1280, 64, 64])]), [2, 4]);
});
test('a box that is larger, those round it, and the one below', () => {
  assert.deepEqual(told([at(1, [0, 0, 640, 640], [0, 0, 640, 704], true), at(2, [0, 0, 640, 320], [0, 0, 640, 384], true),
    at(3, [0, 0, 640, 320], [0, 0, 640, 384], true), at(4, [0, 320, 640, 320], [0, 384, 640, 320])]), [3]);
});
test('a box that one of both has not', () => {
  assert.deepEqual(told([{ id: 3, browser: [[0, 0, 64, 64]], lay: [], inParent: false }]), [3]);
});
