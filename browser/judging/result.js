'use strict';
const data = JSON.parse(document.getElementById('data').textContent), stage = document.getElementById('stage');
const rectText = (kind, node, [x, y, width, height]) =>
  `<rect class="${kind}" data-node="${node}" x="${x / 64}" y="${y / 64}" width="${Math.max(0, width) / 64}" height="${Math.max(0, height) / 64}"/>`;

function draw() {
  const bad = new Set(data.differences.map(({ node }) => node));
  const parts = data.pieces.filter(([, node]) => !bad.has(node)).map(([kind, node, ...rect]) => rectText(kind, node, rect));
  for (const { node, browser, lay, begins } of data.differences) {
    parts.push(...browser.map(rect => rectText('browser', node, rect)), ...lay.map(rect =>
      rectText(begins ? 'lay begins' : 'lay', node, rect)));
  }
  const bottom = Math.max(1, ...data.pieces.map(piece => piece[3] + piece[5])) / 64;
  stage.insertAdjacentHTML('beforeend', `<svg width="${data.width}" height="${bottom}">${parts.join('')}</svg>`);
  stage.style.cssText = `width: ${data.width}px; height: ${bottom}px`;
}
function mark(node, scrolls) {
  for (const on of document.querySelectorAll('.on')) on.classList.remove('on');
  const found = document.querySelectorAll(`[data-node="${node}"]`);
  for (const one of found) one.classList.add('on');
  if (scrolls) stage.querySelector(`svg [data-node="${node}"]`)?.scrollIntoView({ block: 'center', inline: 'nearest' });
}
draw();
addEventListener('click', event => {
  const at = event.target.closest('[data-node]');
  if (!at) return;
  mark(at.dataset.node, !at.closest('svg'));
  if (at.closest('svg')) document.querySelector(`tr[data-node="${at.dataset.node}"]`)?.scrollIntoView({ block: 'nearest' });
});
for (const radio of document.querySelectorAll('[name=show]')) radio.onchange = () =>
  { stage.classList.remove('browser', 'lay'); stage.classList.add(radio.value); };
document.getElementById('all').onchange = event => stage.classList.toggle('fewer', !event.target.checked);
document.getElementById('mode').onchange = event => { document.documentElement.dataset.mode = event.target.value; };
