// What the page says beside the picture: the verdict, where differences begin, and what was taken from the browser.
const Told = (() => {
  'use strict';
  const { escaped } = Picture, SHOWN = 100, RULED = 25, PLACES = 5, BROWSERS = '../docs/BROWSERS.md';
  const counted = (count, noun) => `${count.toLocaleString('en')} ${noun}${count === 1 ? '' : 's'}`;
  const px = ([x, y, width, height]) => {
    const numbers = [x, y, width, height].map(units => Math.round(units / 64 * 1000) / 1000);
    return `${numbers[0]}, ${numbers[1]}  ${numbers[2]} × ${numbers[3]}`;
  };
  const placesOf = rects => rects.slice(0, 3).map(px).join('; ') + (rects.length > 3 ? '; …' : '') || 'none';

  function nameOf(node, kind) {
    return kind === 'text' ? `text “${(node.as ?? node.text).trim().slice(0, 30)}”` : `box ${node.tag || node.kind}`;
  }
  function rulesText(nodes, node) {
    const links = Rules.rulesOf(nodes, node).map(({ anchor, title }) => `<a href="${BROWSERS}#${anchor}">${escaped(title)}</a>`);
    return links.length ? `<span class="dim">may be: ${links.join(', ')}</span>` : '';
  }
  // One difference; `isRuled` says whether the rules are told that may be its cause, for which all nodes are looked at.
  function differenceText(nodes, { id, kind, browser, lay, near }, isRuled) {
    const node = nodes.get(id);
    return `<div class="difference" data-node="${id}" tabindex="0" role="button"><b>${escaped(nameOf(node, kind))}</b> ` +
      `<span class="dim">${id}${near ? ', within 1 px' : ''}</span>` +
      `<code>browser ${placesOf(browser)}</code><code>lay ${placesOf(lay)}</code>${isRuled ? rulesText(nodes, node) : ''}</div>`;
  }
  function listText(nodes, entries, ruled) {
    const more = entries.length - SHOWN, parts = entries.slice(0, SHOWN).map((entry, i) => differenceText(nodes, entry, i < ruled));
    return parts.join('') + (more > 0 ? `<p>and ${more} more</p>` : '');
  }
  function differencesText(nodes, { off, causes }) {
    if (!off.length) return '';
    const known = new Set(causes), others = off.filter(entry => !known.has(entry));
    const heading = `Where ${counted(causes.length, 'difference')} begin${causes.length === 1 ? 's' : ''}`;
    return `<h2>${heading}: x, y, width × height in px</h2>${listText(nodes, causes, RULED)}` +
      (others.length ? `<details><summary>${others.length} that follow</summary>${listText(nodes, others, 0)}</details>` : '');
  }
  const placeText = ({ node, selector }) =>
    `<span class="place"${node ? ` data-node="${node}"` : ''}>${escaped(selector.replace(/.* > /, ''))}</span>`;
  function warningText({ what, count, places }) {
    return `<li>${escaped(what)}${count > 1 ? ` (${count})` : ''} ${places.slice(0, PLACES).map(placeText).join(' ')}` +
      `${count > PLACES ? ' …' : ''}</li>`;
  }
  function warningsText(warnings) {
    return warnings.length ? `<h2>Taken from the browser, or not judged</h2><ul>${warnings.map(warningText).join('')}</ul>` : '';
  }
  function verdictText({ counts }) {
    const { blocks, texts } = Comparison.sums(counts);
    const within = blocks.within > blocks.exact ? `; ${blocks.within} blocks do within their parents` : '';
    const whole = `${blocks.exact} of ${counted(blocks.all, 'block')} and ${texts.exact} of ${counted(texts.all, 'text')}`;
    return `${whole} stand where lay has them${within}.`;
  }
  function timesText(page, answer, nodes) {
    const measured = page ? `${counted(page.nodes, 'element')} measured in ${Math.round(page.milliseconds)} ms; ` : '';
    return `${measured}lay: ${counted(nodes, 'node')} in ${answer.milliseconds.toFixed(answer.milliseconds < 10 ? 1 : 0)} ms`;
  }
  return { counted, differencesText, warningsText, verdictText, timesText };
})();
