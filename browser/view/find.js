// The nodes that somebody looks for: by number, by tag, label or class, or by a part of their text.
const Find = (() => {
  'use strict';
  const holds = (text, query) => typeof text === 'string' && text.toLowerCase().includes(query);
  function isFound(node, query) {
    if (node.kind === 'text') return holds((node.as ?? node.text).replace(/\s+/g, ' '), query);
    const tag = (node.tag || '').toLowerCase(), names = [tag, tag.split('.')[0], '#' + (node.label || '').toLowerCase(),
      ...(node.classes || []).map(name => '.' + name.toLowerCase()), ...tag.split('.').slice(1).map(name => '.' + name)];
    return names.includes(query);
  }
  // Numbers of nodes in the order of `nodes`, a Map.
  function find(nodes, text) {
    const query = text.trim().toLowerCase().replace(/\s+/g, ' ');
    if (!query) return [];
    if (/^\d+$/.test(query) && nodes.has(+query)) return [+query];
    return [...nodes.values()].filter(node => isFound(node, query)).map(node => node.id);
  }
  return { find };
})();
