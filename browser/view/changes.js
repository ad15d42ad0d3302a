// What two trees of one document differ in. A piece goes by its kind, node and part, as in the pictures of `lay_picture --between`.
const Changes = (() => {
  'use strict';
  const keyOf = piece => piece.word + piece.node + ' ' + piece.part;
  function wordOf(was, is) {
    if (!was) return 'new';
    if (was.width !== is.width || was.height !== is.height) return 'resized';
    return was.x !== is.x || was.y !== is.y ? 'moved' : 'same';
  }
  // { words: Map from each piece of `after` to new, resized, moved or same; gone: the pieces of `before` alone;
  //   former: where the moved and resized ones were; counts }
  function between(before, after) {
    const words = new Map(), former = [], counts = { moved: 0, resized: 0, new: 0, gone: 0, same: 0 };
    const known = new Map((before || []).map(piece => [keyOf(piece), piece]));
    for (const piece of after) {
      const was = known.get(keyOf(piece)), word = before ? wordOf(was, piece) : 'same';
      words.set(piece, word);
      counts[word]++;
      if (word === 'moved' || word === 'resized') former.push(was);
      known.delete(keyOf(piece));
    }
    const gone = [...known.values()];
    counts.gone = gone.length;
    return { words, former, gone, counts };
  }
  const isSame = ({ counts }) => counts.moved + counts.resized + counts.new + counts.gone === 0;
  const inWords = ({ counts }) => ['moved', 'resized', 'new', 'gone'].filter(word => counts[word]).map(word => `${counts[word]} ${word}`)
    .join(', ') || 'nothing differs';
  return { between, isSame, inWords };
})();
