// Calls of the program in a worker, one after the other. A call that takes longer than its limit is ended with its worker, and so is one
// that a later one makes needless.
const Runner = (() => {
  'use strict';
  // parts: { source: the worker's text, packed: the module in base64 }
  class Runner {
    constructor(parts, limit) {
      Object.assign(this, { parts, limit, module: null, calls: 0, waiting: null, worker: null });
      this.opened = this.start();
    }
    // Starts a worker. Only the first one unpacks and compiles the module.
    start() {
      const url = URL.createObjectURL(new Blob([this.parts.source], { type: 'text/javascript' }));
      const worker = this.worker = new Worker(url);
      return new Promise((done, fail) => {
        worker.onerror = event => fail(new Error(event.message || 'the worker could not be started'));
        worker.onmessage = ({ data }) => {
          URL.revokeObjectURL(url);
          if (data.opened) { Object.assign(this, data.opened); done(); }
          else if (data.id) this.take(data);
          else fail(new Error(data.fault));
        };
        worker.postMessage({ open: this.module ? { module: this.module } : { packed: this.parts.packed } });
      });
    }
    take(data) {
      const call = this.waiting;
      if (!call || call.id !== data.id) return;
      clearTimeout(call.timer);
      this.waiting = null;
      if (data.fault) call.fail(new Error(data.fault)); else call.done(data);
    }
    // Ends what runs, and starts a worker anew.
    drop(answer) {
      const call = this.waiting;
      if (!call) return;
      clearTimeout(call.timer);
      this.waiting = null;
      this.worker.terminate();
      this.opened = this.start();
      call.done(answer);
    }
    // { status, report, said, milliseconds, memory, compared }, or { late } or { dropped }.
    async call(words, text, told) {
      this.drop({ dropped: true });
      const id = ++this.calls;
      await this.opened;
      if (id !== this.calls) return { dropped: true };
      return new Promise((done, fail) => {
        const timer = setTimeout(() => this.drop({ late: this.limit }), this.limit);
        this.waiting = { id, done, fail, timer };
        this.worker.postMessage({ call: { id, words, text, told } });
      });
    }
  }
  return Runner;
})();
