// @ts-check
/** The proved engine as four calls. No other module reads or writes its memory. */

/** The flags of a run, to be combined by |. */
export const FLAG = Object.freeze({ quiet: 1, stop: 2, journal: 4, json: 8 });

/** What a run answers: 0 to 2 are whole outputs, 29 to 32 are faults (docs/FORMATS.md, Exit statuses). */
export const STATUS = Object.freeze({
  accepted: 0, refused: 1, bad: 2, tooLong: 29, noMemory: 30, full: 32, usage: 64,
});

/** What facts are asked for: those of all edits that stand, or the tags of the plan. */
export const FACTS = Object.freeze({ edits: 0, tags: 2 });

/**
 * @typedef {object} Run
 * @property {number} status
 * @property {Uint8Array} output what was printed
 * @property {number} ms time of the run, with that of a new instance
 */

/** @param {number} length bytes of the input @param {number} flags */
function firstRoom(length, flags) {
  return (flags & FLAG.json ? length * 8 : length) + 65536;
}

/** One compiled engine. Each run has an instance and a memory of its own, so no run sees another one. */
export class Engine {
  /** @param {WebAssembly.Module} module */
  constructor(module) {
    this.module = module;
  }

  /** @param {BufferSource} bytes of the WebAssembly module */
  static async load(bytes) {
    return new Engine(await WebAssembly.compile(bytes));
  }

  /**
   * Does what `baliseplan FLAGS < input > output` does.
   * @param {Uint8Array} input @param {number} flags
   * @returns {Run}
   */
  run(input, flags) {
    return this.#withRoom('baliseplan_run', input, [flags], firstRoom(input.length, flags));
  }

  /**
   * Does what `balisefacts < input > output` does: of each edit that stands what depends on it, or with FACTS.tags what
   * `balisefacts --tags` does: where tags stand (docs/FORMATS.md, Facts).
   * @param {Uint8Array} input @param {number} [what] of FACTS
   */
  facts(input, what = FACTS.edits) {
    return this.#withRoom('baliseplan_facts', input, [what, 0], input.length * 4 + 65536);
  }

  /**
   * Does what `balisefields < input > output` does: the fields of digits (docs/FIELDS.md).
   * @param {Uint8Array} input
   */
  explain(input) {
    return this.#withRoom('baliseplan_explain', input, [], input.length * 16 + 65536);
  }

  /**
   * Does what `balisefields --spell < input > output` does: the digits of fields.
   * @param {Uint8Array} input
   */
  spell(input) {
    return this.#withRoom('baliseplan_spell', input, [], input.length + 65536);
  }

  /**
   * Calls again with more room until the output fits.
   * @param {string} name of the call @param {Uint8Array} input @param {number[]} flags words between input and output
   * @param {number} first bytes for the output @returns {Run}
   */
  #withRoom(name, input, flags, first) {
    const start = performance.now();
    for (let room = first; ; room *= 4) {
      const { status, output } = this.#once(name, input, flags, room);
      if (status !== STATUS.full) return { status, output, ms: performance.now() - start };
    }
  }

  /** @param {string} name @param {Uint8Array} input @param {number[]} flags @param {number} room bytes for the output */
  #once(name, input, flags, room) {
    const { exports } = new WebAssembly.Instance(this.module, {});
    const { malloc, memory, [name]: call } = /** @type {any} */ (exports);
    const places = [Math.max(input.length, 1), room, 8].map((bytes) => malloc(BigInt(bytes)));
    if (places.includes(0n)) return { status: STATUS.noMemory, output: new Uint8Array(0) };
    const [from, to, written] = places;
    new Uint8Array(memory.buffer, Number(from), input.length).set(input);
    const status = call(from, BigInt(input.length), ...flags, to, BigInt(room), written);
    // The memory may have grown, and then it has another buffer.
    const bytes = Number(new DataView(memory.buffer).getBigUint64(Number(written), true));
    return { status, output: new Uint8Array(memory.buffer).slice(Number(to), Number(to) + bytes) };
  }
}
