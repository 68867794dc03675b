// @ts-check
/** Calls to the worker, as promises. The worker is made of the text that the page carries. */

/** A call that failed; with `failure` where the engine read no plan. */
export class CallFailed extends Error {
  /** @param {string} message @param {import('../worker/session.mjs').Failure} [failure] */
  constructor(message, failure) {
    super(message);
    this.failure = failure;
  }
}

/** @param {string} id */
const textIn = (id) => document.getElementById(id)?.textContent ?? '';
/** @param {string} name of a meta element */
export const builtWith = (name) => document.querySelector(`meta[name=${name}]`)?.getAttribute('content') ?? '';

export class WorkerCalls {
  constructor() {
    /** @type {Map<number, {resolve: (value: any) => void, reject: (error: Error) => void}>} */
    this.waiting = new Map();
    this.last = 0;
    /** @type {(busy: boolean) => void} */
    this.onbusy = () => {};
    /** Called after the worker stopped; all calls of the time have failed. */
    this.onstopped = () => {};
    this.#make();
  }

  #make() {
    const url = URL.createObjectURL(new Blob([textIn('worker-source')], { type: 'text/javascript' }));
    this.worker = new Worker(url);
    this.worker.onmessage = ({ data }) => this.#answer(data);
    this.worker.onerror = (event) => this.#stopped(event.message);
  }

  /** @param {{id: number, value?: any, error?: string, failure?: any}} answer */
  #answer({ id, value, error, failure }) {
    const call = this.waiting.get(id);
    this.waiting.delete(id);
    if (this.waiting.size === 0) this.onbusy(false);
    if (error === undefined) call?.resolve(value);
    else call?.reject(new CallFailed(error, failure));
  }

  /** @param {string} why */
  #stopped(why) {
    const lost = [...this.waiting.values()];
    this.waiting.clear();
    this.onbusy(false);
    for (const { reject } of lost) reject(new CallFailed('The engine stopped: ' + why));
    this.onstopped();
  }

  /** Puts a new worker in place of one that stopped. */
  async restart() {
    this.worker?.terminate();
    this.#make();
    await this.start();
  }

  /** Starts the engine, and makes sure that it is the one that the page was built with. */
  async start() {
    const gzip = Uint8Array.from(atob(textIn('engine-gzip').trim()), (letter) => letter.charCodeAt(0));
    const found = await this.call('start', { gzip });
    if (found && found !== builtWith('engine-sha256')) throw new CallFailed('the engine in this file isn’t the one that it was built with');
  }

  /** @param {string} call @param {Record<string, any>} [message] @returns {Promise<any>} */
  call(call, message = {}) {
    this.last += 1;
    const id = this.last;
    this.onbusy(true);
    return new Promise((resolve, reject) => {
      this.waiting.set(id, { resolve, reject });
      this.worker?.postMessage({ ...message, id, call });
    });
  }
}
