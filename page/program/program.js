/* Asks a worker to run the program, one question at a time. A worker that is still at a question for which nobody waits
   ends, and a new one takes its place. */

const PATIENCE = 300;

/** @typedef {{ call: string, given: any, tell?: Function, resolve: Function, reject: Function,
 *    signal?: AbortSignal }} Question */

export class Program {
  /** @type {Worker | null} */ worker = null;
  /** @type {Uint8Array | null} */ input = null;
  /** @type {Question | null} */ asked = null;
  /** @type {Question[]} */ queue = [];

  /** @param {WebAssembly.Module} compiled */
  constructor(compiled, patience = PATIENCE) {
    this.compiled = compiled;
    this.patience = patience;
  }

  keep(bytes) {
    if (this.input) this.end(new DOMException("another log was opened", "AbortError"));
    this.input = bytes;
    if (this.worker) this.queue.push(this.first("keep", { bytes }));
    this.next();
  }

  first(call, given) { return { call, given, resolve() {}, reject: (error) => this.end(error) }; }

  /* The worker comes from a text: a page that was opened from a disk may load no script for it. */
  start() {
    const url = URL.createObjectURL(new Blob([RDSRT_WORKER], { type: "text/javascript" }));
    const worker = new Worker(url);
    this.worker = worker;
    URL.revokeObjectURL(url);
    worker.onmessage = ({ data }) => { if (worker === this.worker) this.hear(data); };
    worker.onerror = ({ message }) => this.end(new Error(`a worker of the page stopped: ${message}`));
    if (this.input) this.queue.unshift(this.first("keep", { bytes: this.input }));
    this.queue.unshift(this.first("begin", this.compiled));
  }

  /* Ends the worker, which frees its memory. The next question starts another one. */
  end(error) {
    const waiting = [this.asked, ...this.queue].filter(Boolean);
    this.stop();
    this.queue = [];
    for (const { reject } of waiting) reject(error);
  }

  stop() {
    this.worker?.terminate();
    Object.assign(this, { worker: null, asked: null });
  }

  /* Asks for one thing. `tell` hears how far it is. */
  /** @param {{ signal?: AbortSignal, tell?: Function }} how @returns {Promise<any>} */
  ask(call, given, how = {}) {
    const { signal, tell = () => {} } = how;
    return new Promise((resolve, reject) => {
      signal?.throwIfAborted();
      const question = { call, given, tell, resolve, reject, signal };
      this.queue.push(question);
      signal?.addEventListener("abort", () => {
        reject(signal.reason);
        setTimeout(() => this.tire(question), this.patience);
      });
      this.next();
    });
  }

  next() {
    if (!this.worker) this.start();
    while (!this.asked && this.queue.length) {
      const question = this.queue.shift();
      if (question.signal?.aborted) continue;
      this.asked = question;
      this.worker.postMessage({ call: question.call, given: question.given });
    }
  }

  tire(question) {
    if (this.asked !== question) return;
    this.stop();
    if (this.queue.length) this.next();
  }

  hear({ done, answer, error }) {
    const { asked } = this;
    if (done !== undefined) { asked.tell(done); return; }
    this.asked = null;
    if (error === undefined) asked.resolve(answer); else asked.reject(new Error(error));
    if (this.queue.length) this.next();
  }
}
