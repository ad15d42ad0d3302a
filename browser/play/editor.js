// A plain text editor that stays quick with megabytes: the text stands in blocks of lines, and typing lays one of them out again. (A
// `textarea` of two megabytes takes half a second a key.)
class Editor {
  static LINES = 100;
  static LARGE = 20000;                                                         // characters that are pasted as blocks

  constructor(place, onInput) {
    Object.assign(this, { place, onInput });
    place.addEventListener('input', () => onInput());
    place.addEventListener('paste', event => this.paste(event));
  }
  get value() { return [...this.place.childNodes].map(node => node.textContent).join('\n'); }
  set value(text) {
    const lines = text.split('\n'), blocks = document.createDocumentFragment();
    for (let i = 0; i < lines.length; i += Editor.LINES) {
      const block = document.createElement('div');
      block.textContent = lines.slice(i, i + Editor.LINES).join('\n');
      blocks.append(block);
    }
    this.place.replaceChildren(blocks);
  }
  // The text from the beginning up to a place in it.
  before(node, offset) {
    const range = document.createRange(), texts = [];
    for (const block of this.place.childNodes) {
      range.selectNodeContents(block);
      if (range.comparePoint(node, offset) <= 0) { range.setEnd(node, offset); return [...texts, range.toString()].join('\n'); }
      texts.push(block.textContent);
    }
    return texts.join('\n');
  }
  // A browser takes long to paste a great text as nodes of its own.
  paste(event) {
    const text = event.clipboardData.getData('text/plain'), selection = getSelection();
    if (text.length < Editor.LARGE || !selection.rangeCount) return;
    event.preventDefault();
    const { startContainer, startOffset, endContainer, endOffset } = selection.getRangeAt(0), whole = this.value;
    const isWhole = startContainer === this.place && startOffset === 0;
    const from = isWhole ? 0 : this.before(startContainer, startOffset).length;
    const to = isWhole && endContainer === this.place ? whole.length : this.before(endContainer, endOffset).length;
    this.value = whole.slice(0, from) + text.replace(/\r\n?/g, '\n') + whole.slice(to);
    this.onInput();
  }
}
