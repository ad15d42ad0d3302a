// A document as the part of an address behind #, and back.
const Address = (() => {
  'use strict';
  const MARK = '#document=';
  async function through(bytes, stream) {
    return new Uint8Array(await new Response(new Blob([bytes]).stream().pipeThrough(stream)).arrayBuffer());
  }
  function textOf(bytes) {
    let text = '';
    for (let i = 0; i < bytes.length; i += 8192) text += String.fromCharCode(...bytes.subarray(i, i + 8192));
    return btoa(text).replace(/\+/g, '-').replace(/\//g, '_').replace(/=+$/, '');
  }
  const bytesOf = text => Uint8Array.from(atob(text.replace(/-/g, '+').replace(/_/g, '/')), c => c.charCodeAt(0));

  async function of(document) {
    const packed = await through(new TextEncoder().encode(document), new CompressionStream('deflate-raw'));
    return location.href.replace(/#.*/, '') + MARK + textOf(packed);
  }
  // The document of the address, or null where it has none.
  async function read() {
    if (!location.hash.startsWith(MARK)) return null;
    return new TextDecoder().decode(await through(bytesOf(location.hash.slice(MARK.length)), new DecompressionStream('deflate-raw')));
  }
  return { of, read };
})();
