// Calls the program `lay` as a module of WebAssembly: words and bytes in, a status and bytes out. The module was compiled without a proof.
// A classic script for pages and workers, without dependencies. README.md beside it has an example.
'use strict';
const Lay = (() => {
  const MEMORY = 2 ** 31;                                                       // bytes that a call may take, where none is said
  const PAGE = 65536;

  class Exit { constructor(status) { this.status = status; } }

  // The module of the bytes of lay_unproved.wasm.gz. It throws where the browser has no WebAssembly with 64-bit memory.
  function open(packed) {
    const bytes = new Blob([packed]).stream().pipeThrough(new DecompressionStream('gzip'));
    return WebAssembly.compileStreaming(new Response(bytes, { headers: { 'Content-Type': 'application/wasm' } }));
  }
  // What a module says of itself: { program, proved, sources, kit }.
  function about(module) {
    return JSON.parse(new TextDecoder().decode(WebAssembly.Module.customSections(module, 'lay')[0]));
  }
  function give(host, place, bytes) {
    const at = Number(place(BigInt(bytes.length)));
    if (at > 0) new Uint8Array(host.memory.buffer, at, bytes.length).set(bytes);
  }
  function taken(host, place, length) {
    return new Uint8Array(host.memory.buffer, Number(place()), Number(length())).slice();
  }
  function statusOf(host) {
    try { return [host.host_run(), '']; } catch (error) {
      return error instanceof Exit ? [error.status, ''] : ['trap', String(error && error.message || error)];
    }
  }
  // Runs the program once, in an instance of its own: `words` as on a command line, `bytes` on standard input. The answer has
  //   status  0 laid out, 1 refused, 2 usage, 5 out of memory (docs/REPORT.md); 'trap' where the program was stopped: `said` has why
  //   out     the bytes of standard output; at status 5 and 'trap' a front of them
  //   memory  the bytes of the instance's memory at the end
  function call(module, words, bytes, options = {}) {
    const none = { status: 5, out: new Uint8Array(0), said: '', memory: 0 };
    let host;
    try {
      host = new WebAssembly.Instance(module, { host: { exit: status => { throw new Exit(status); } } }).exports;
    } catch (error) { if (error instanceof RangeError) return none; throw error; }
    host.host_limit(BigInt(Math.floor((options.memory || MEMORY) / PAGE)));
    give(host, host.host_words, new TextEncoder().encode(['lay', ...words].map(word => word + '\0').join('')));
    give(host, host.host_in, bytes);
    const [status, fault] = statusOf(host);
    const said = new TextDecoder().decode(taken(host, host.host_said, host.host_said_length));
    return { status, out: taken(host, host.host_out, host.host_out_length), said: [fault, said].filter(Boolean).join(': '),
      memory: host.memory.buffer.byteLength };
  }
  return { open, about, call };
})();
