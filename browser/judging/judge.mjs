// Judges one page: exports it, lays it out and compares.
import { compare, sums } from '../test/compare.mjs';
import { exporting, layingOut } from '../test/lay.mjs';
import { rulesOf } from './rules.mjs';
import { views } from './views.mjs';

const HTML = 'document.documentElement.outerHTML';
const SELECTORS = ids => `layExport.selectorsOf(${JSON.stringify(ids)})`;
const SHOWN = 2000;

export const shortly = warning => warning.what.replace(/ \(.*\)$/, '');
// How many of what `lay` doesn't know are given by their used lengths.
export const frozenOf = warnings => warnings.filter(({ what }) => /frozen|used value/.test(what));

// The differences with what helps to find them, those first that no other one explains: a selector, the element's name, and the rules of
// docs/BROWSERS.md that may be their cause.
async function told(tab, answer, { off, first }) {
  const innermost = new Set(first), begins = new Set(views.Causes.of(answer.run.nodes, off));
  const list = [...begins, ...off.filter(entry => !begins.has(entry))].slice(0, SHOWN);
  const nodes = new Map(answer.run.nodes.map(node => [node.id, node]));
  const selectors = list.length ? await tab.evaluate(SELECTORS(list.map(({ id }) => id))) : [];
  return list.map((entry, i) => {
    const { id, kind, near, inParent, browser, lay } = entry, node = nodes.get(id);
    return { node: id, kind, selector: selectors[i], tag: node.tag || '', begins: begins.has(entry), innermost: innermost.has(entry), near,
      inParent, browser, lay, rules: begins.has(entry) ? rulesOf(nodes, node).map(rule => rule.anchor) : [] };
  });
}
function verdictOf(sum, refused) {
  if (refused) return 'refused';
  return ['blocks', 'texts'].every(kind => sum[kind].all === sum[kind].exact) ? 'whole' : 'differs';
}
// { result, answer, report, pictures }: `result` is what is written as JSON.
export async function judge(opener, task, wantsPicture) {
  const { tab, mode } = await opener.open(task);
  try {
    const before = await tab.evaluate(HTML), start = Date.now(), answer = await tab.evaluate(exporting({ rects: true }));
    const milliseconds = Date.now() - start, unchanged = before === await tab.evaluate(HTML), report = await layingOut(answer.run);
    const refused = !report.startsWith('publish'), compared = refused ? { counts: {}, off: [], first: [] } : compare(answer, report);
    const sum = sums(compared.counts), differences = await told(tab, answer, compared);
    const result = { page: task.page, name: task.name, width: task.width, height: task.height, browser: opener.version, mode,
      verdict: verdictOf(sum, refused), fault: refused ? report.trim() : '', nodes: answer.info.nodes, fonts: answer.info.fonts,
        milliseconds, unchanged,
      ...sum, differing: compared.off.length, differences, warnings: answer.warnings };
    const bottom = Math.max(0, ...Object.values(answer.rects).map(rects => Math.max(...rects.map(rect => rect[1] + rect[3])))) / 64;
    const pictures = wantsPicture(result) ? await opener.pictures(tab, task.width, task.height, bottom + 20) : [];
    return { result, answer, report, pictures };
  } finally { await opener.shut(tab); }
}
