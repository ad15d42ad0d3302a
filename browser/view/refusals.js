// What a line of refusal means, in the words of docs/REPORT.md, and which node or command it is about.
const Refusals = (() => {
  'use strict';
  const MEANINGS = {
    I1: 'The document has more than 16,777,216 bytes. Lay out a smaller one.',
    I2: 'The bytes are no JSON text, or nested deeper than 127 levels. Look for a comma at the end, a byte order mark, a second value behind the first.',
    I3: 'A field that is needed is missing. Add it.',
    I4: 'A field has another kind of value, as a number for a text, a list of another length, or an unknown `kind` or `do`.',
    I5: 'The node can\'t be put into the document.',
    I6: 'A style of the node is wrong. Meant is the first that is, by the order of bytes of the names.',
    I7: 'There are more than 16 editors.',
    I8: 'There are more than 8,192 commands, or more than 256 that read.',
    I9: 'A number isn\'t whole, or isn\'t in its range, or `advance` has more than 65,536 pairs. 1.0 and 1e2 aren\'t whole numbers here.',
    I10: 'The batch has more than 1,024 edits. Give them in several batches.',
    I11: 'The style sheet has more than 4,096 selectors. Those of one rule set count each.',
    E1: 'No such node: its parent isn\'t there, or stands behind its child; or the first node has a parent other than 0.',
    E2: 'Not an element: only elements have children, a text has no style of its own, and the first node is an element.',
    E3: 'Not a text.',
    E4: 'The id is taken, or is 0.',
    E5: 'The index is greater than the number of children.',
    E6: 'The root can\'t be removed.',
    E7: 'There are more than 65,536 nodes.',
    E8: 'It is deeper than 128 levels.',
    E9: 'A text has more than 65,536 bytes, or all texts more than 1,048,576.',
    E10: 'No such property. There are no shorthands, and none that moves no box.',
    E11: 'No value of the property.',
    V1: 'A property isn\'t known. There are no shorthands, and none that moves no box.',
    V2: 'The text is none of the property\'s values. A length has a unit; a border has a style and a width of its own.',
    usage: 'The words behind the program are none that it knows: scratch, run, gen, hit, check.',
  };
  // The place that a line names: a node by its place in `nodes`, or a command.
  function placeOf(fields) {
    const [, code] = fields, word = fields.findIndex(field => field === 'node' || field === 'command');
    if (code === 'I5' || code === 'I6') return { node: +fields[2] };
    if (code === 'I10') return { command: [+fields[2], +fields[3]] };
    if (word > 1 && fields[word] === 'node') return { node: +fields[word + 1] };
    return word > 1 ? { command: [+fields[word + 1], +fields[word + 2]] } : {};
  }
  // { line, words, field, place, what }: `what` is the node or the command itself, where the document is known.
  function explain(line, run) {
    const fields = line.split(/\s+/), codes = fields.filter(field => MEANINGS[field]), place = placeOf(fields);
    const field = ['I3', 'I4', 'I9'].includes(fields[1]) ? fields[2] : '';
    const words = codes.map(code => MEANINGS[code]).join(' ') || 'A line that docs/REPORT.md has no row of.';
    const what = place.node !== undefined ? run?.nodes?.[place.node] : place.command &&
      run?.editors?.[place.command[0] - 1]?.[place.command[1]];
    return { line, words, field, place, what };
  }
  return { explain, MEANINGS };
})();
