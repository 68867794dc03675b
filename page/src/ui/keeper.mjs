// @ts-check
/** Keeps a copy of the session in the browser after each change: one write at a time, always the newest state. */
import { forget, holdLock, keepBase, keepSession } from './store.mjs';

export class Keeper {
  /**
   * @param {() => Omit<import('./store.mjs').Kept, 'id'|'when'>} state what is to be kept @param {() => void} changed
   */
  constructor(state, changed) {
    this.state = state;
    this.changed = changed;
    this.id = '';
    /** @type {''|'kept'|'failed'} */
    this.status = '';
    this.writing = false;
    /** @type {import('./store.mjs').Kept | null} the newest state that isn't written yet */ this.wanted = null;
    this.release = () => {};
  }

  /**
   * A new session, or one that is taken up again.
   * @param {Uint8Array} base @param {string} [id]
   */
  async begin(base, id = Date.now().toString(36) + Math.random().toString(36).slice(2, 8)) {
    this.release();
    this.id = id;
    this.release = holdLock(id);
    await this.#try(() => keepBase(id, base));
    this.keep();
  }

  /** Writes the state as it is now: at once, or when the write under way is done. */
  async keep() {
    if (this.id === '') return;
    this.wanted = { id: this.id, when: Date.now(), ...this.state() };
    if (this.writing) return;
    this.writing = true;
    while (this.wanted) {
      const kept = this.wanted;
      this.wanted = null;
      await this.#try(() => keepSession(kept));
    }
    this.writing = false;
  }

  /** @param {() => Promise<any>} write */
  async #try(write) {
    try {
      await write();
      this.status = 'kept';
    } catch {
      this.status = 'failed';
    }
    this.changed();
  }

  /**
   * Leaves the session before another one is opened: what was kept of it stays, unless it is safe in a file. Nothing that
   * comes after this call belongs to it.
   * @param {boolean} safe
   */
  async leave(safe) {
    const { id } = this;
    this.id = '';
    this.release();
    if (safe && id !== '') await forget(id).catch(() => {});
  }
}
