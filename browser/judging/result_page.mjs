// A page of one result: the screenshot, `lay`'s boxes over it, what differs in red with both rectangles, and the warnings.
import { readFileSync } from 'node:fs';
import { readReport } from '../test/compare.mjs';
import { frozenOf } from './judge.mjs';
import { titleOf } from './rules.mjs';

const [style, script] = ['result.css', 'result.js'].map(name => readFileSync(new URL(name, import.meta.url), 'utf8'));
const BROWSERS = new URL('../../docs/BROWSERS.md', import.meta.url).href;
export const escaped = text => String(text).replace(/[&<>"]/g, c => ({ '&': '&amp;', '<': '&lt;', '>': '&gt;', '"': '&quot;' }[c]));
const px = units => String(Math.round(units / 64 * 1000) / 1000);
const place = rects => rects.length ? rects.slice(0, 4).map(([x, y, width, height]) =>
  `${px(x)},&nbsp;${px(y)}, ${px(width)}&nbsp;×&nbsp;${px(height)}`).join('<br>') +
  (rects.length > 4 ? '<br>…' : '') : 'none';

// What the page's script draws: each box and text of the report, and the rectangles of both for those that differ.
function dataOf(result, answer, report) {
  const pieces = [];
  for (const [key, rects] of readReport(report)) {
    const [word, node] = key.split(' ');
    for (const rect of rects) pieces.push([word === 'text' ? 't' : 'b', +node, ...rect]);
  }
  const differences = result.differences.map(({ node, kind, browser, lay, near, begins }) => ({ node, kind, browser, lay, near, begins }));
  return JSON.stringify({ pieces, differences, width: result.width }).replace(/</g, '\\u003c');
}
function differenceRow({ node, kind, selector, tag, browser, lay, near, inParent, begins, rules }) {
  const links = rules.map(anchor => `<a href="${escaped(BROWSERS)}#${anchor}">${escaped(titleOf(anchor))}</a>`).join(', ');
  const words = [near ? 'within 1 px' : '', inParent ? 'right in its parent' : ''].filter(Boolean).join(', ');
  return `<tr data-node="${node}"${begins ? ' class="begins"' : ''}><td>${node}</td><td title="${escaped(selector)}">${escaped(tag || kind)}` +
    `${words ? `<br><small>${escaped(words)}</small>` : ''}${links ? `<br><small>see ${links}</small>` : ''}</td><td>${place(lay)}</td><td>${place(browser)}</td></tr>`;
}
// The differences, first those that no other one explains.
function differenceTable(differences) {
  if (!differences.length) return '<p>None.</p>';
  const [first, rest] = [true, false].map(begins => differences.filter(one => one.begins === begins).map(differenceRow).join('\n'));
  const part = (title, rows) => rows ? `<tr><th colspan="4">${title}</th></tr>${rows}` : '';
  return '<table class="differences"><tr><th>node</th><th></th><th>lay: x, y, size</th><th>browser</th></tr>' +
    `${part('where they begin', first)}${part('what follows', rest)}</table>`;
}
function warningRow({ what, count, places }) {
  const links = places.map(({ node, selector }) =>
    `<span${node ? ` data-node="${node}"` : ''} title="${escaped(selector)}">${escaped(node || selector)}</span>`);
  return `<li>${escaped(what)}: ${count}<div class="places">${links.join(' ')}${count > places.length ? ' …' : ''}</div></li>`;
}
function counts({ blocks, texts, inlines }) {
  const line = (name, { all, exact, near, within }) =>
    `<tr><th>${name}</th><td>${exact}</td><td>${near}</td><td>${within}</td><td>${all}</td></tr>`;
  return '<table class="counts"><tr><th></th><th>1/32 px</th><th>1 px</th><th>in parent</th><th>all</th></tr>' +
    `${line('blocks', blocks)}${line('texts', texts)}${line('inline boxes', inlines)}</table>`;
}
function sentence({ verdict, fault, differing, differences, warnings }) {
  if (verdict === 'refused') return `lay refuses the document: ${escaped(fault)}`;
  const frozen = frozenOf(warnings).length ? ' What was frozen agrees by itself.' : '';
  if (!differing) return `Everything stands where the browser has it, to 1/32 px.${frozen}`;
  const begin = differences.filter(({ begins }) => begins).length;
  return `${differing} ${differing === 1 ? 'piece differs' : 'pieces differ'}, which ${begin === 1 ? 'begins at one' : `begins at ${begin}`} of them.${frozen}`;
}
// `pictures` are the files of the screenshot, each with where it begins.
export function resultPage(result, answer, report, pictures) {
  const { name, page, width, browser, mode, verdict, differences, warnings } = result;
  return `<!doctype html>
<html lang="en"><meta charset="utf-8"><meta name="viewport" content="width=device-width"><title>${escaped(name)}: ${verdict}</title>
<style>${style}</style>
<body class="result">
<header><h1>${escaped(name)}</h1> <span class="verdict ${verdict}">${verdict}</span>
<span class="show"><label><input type="radio" name="show" value="both" checked> both</label><label><input type="radio" name="show" value="browser"> browser</label>
<label><input type="radio" name="show" value="lay"> lay</label></span>
<label><input type="checkbox" id="all" checked> all boxes</label>
<label>colours <select id="mode"><option value="">as the system</option><option>light</option><option>dark</option></select></label></header>
<main><div id="stage">${pictures.map(picture => `<img src="${escaped(picture.name)}" style="top:${picture.top}px" alt="the page in the browser">`).join('')}</div></main>
<aside><p>${sentence(result)}</p>${counts(result)}
<p><small>${escaped(page)}<br>${width} px, ${escaped(browser)}${mode ? ', ' + mode : ''}. Lengths in px. Red is lay's, orange the browser's.
<a href="${escaped(name)}.run.json">document</a>, <a href="${escaped(name)}.report.txt">report</a>, <a href="${escaped(name)}.json">JSON</a>; drop the first two into browser/view.html.</small></p>
<h2>Differences</h2>${differenceTable(differences)}
<h2>Warnings</h2>${warnings.length ? `<ul>${warnings.map(warningRow).join('')}</ul>` : '<p>None.</p>'}</aside>
<script type="application/json" id="data">${dataOf(result, answer, report)}</script>
<script>${script}</script>
</body></html>
`;
}
