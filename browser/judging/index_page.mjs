// A page of all results: totals, and a row a page, those that differ first.
import { readFileSync } from 'node:fs';
import { share, totalOf } from './totals.mjs';

const style = readFileSync(new URL('result.css', import.meta.url), 'utf8');
const escaped = text => String(text).replace(/[&<>"]/g, c => ({ '&': '&amp;', '<': '&lt;', '>': '&gt;', '"': '&quot;' }[c]));
const ORDER = { failed: 0, refused: 1, differs: 2, whole: 3 };

const counts = ({ all, exact, near, within }) => `<td>${exact}</td><td>${near}</td><td>${within}</td><td>${all}</td>`;
function row(result) {
  const { name, width, verdict, fault, blocks, texts, warnings } = result;
  return `<tr class="${verdict}"><td><a href="${escaped(name)}.html">${escaped(name)}</a></td><td>${width}</td><td>${verdict}</td>${counts(blocks)}` +
    `<td>${texts.exact} of ${texts.all}</td><td>${escaped(fault || Object.keys(warnings).join('; '))}</td></tr>`;
}
export function indexPage(results) {
  const sorted = [...results].sort((a, b) => ORDER[a.verdict] - ORDER[b.verdict] || (a.name < b.name ? -1 : 1)), total = totalOf(results);
  const { blocks, texts } = total;
  return `<!doctype html><html lang="en"><meta charset="utf-8"><meta name="viewport" content="width=device-width"><title>lay: ${total.pages} pages</title>
<style>${style}</style><body class="index"><h1>${total.pages} pages: ${total.whole} whole, ${total.differs} differ, ${total.refused} refused, ${total.failed} failed</h1>
<p>Blocks: ${blocks.exact} of ${blocks.all}${share(blocks.exact, blocks.all)} stand where the browser has them to 1/32 px, ${blocks.near}${share(blocks.near, blocks.all)}
to 1 px, ${blocks.within}${share(blocks.within, blocks.all)} to 1/32 px from the corner of their parent. Texts: ${texts.exact} of ${texts.all}.</p>
<table><thead><tr><th>page</th><th>px</th><th></th><th>1/32 px</th><th>1 px</th><th>in parent</th><th>blocks</th><th>texts</th><th>warnings</th></tr></thead>
<tbody>${sorted.map(row).join('\n')}</tbody></table></body></html>
`;
}
