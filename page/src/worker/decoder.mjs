// @ts-check
/** Groups decoded by the engine: a run over a small plan of them, since a group's view depends on the group alone. */
import { FLAG, STATUS } from '../core/engine.mjs';
import { bytesOf, linesOf, planOf, textOf } from '../core/texts.mjs';

/**
 * @typedef {import('../core/bits.mjs').Group} Group
 * @typedef {import('../core/diff.mjs').Decoded} Decoded
 */

/** How many groups one run decodes, so that few views exist at once. */
export const CHUNK = 4000;

export class Decoder {
  /** @param {import('../core/engine.mjs').Engine} engine */
  constructor(engine) {
    this.engine = engine;
  }

  /**
   * The views of printed groups.
   * @param {string[]} texts @returns {Group[]}
   */
  views(texts) {
    /** @type {Group[]} */
    const groups = [];
    for (let from = 0; from < texts.length; from += CHUNK) groups.push(...this.#chunk(texts.slice(from, from + CHUNK)));
    return groups;
  }

  /** @param {string[]} texts @returns {Group[]} */
  #chunk(texts) {
    const { status, output } = this.engine.run(bytesOf(planOf(texts) + 'edits\n'), FLAG.json | FLAG.quiet);
    const text = textOf(output);
    if (status !== STATUS.accepted) throw new Error('a printed group was refused: ' + text.slice(0, 80));
    return JSON.parse(`[${text.slice(text.indexOf('\n{') + 1).trimEnd().replaceAll('\n', ',')}]`);
  }

  /**
   * The views with their digits.
   * @param {string[]} texts @returns {Decoded[]}
   */
  decoded(texts) {
    return this.views(texts).map((group, i) => ({ group, digits: linesOf(texts[i]) }));
  }
}

/**
 * The identity of a group: the engine's, or that of the digits of a printed telegram (NID_C and NID_BG are bits 25 to 48).
 * @param {string} text @param {Group} [view]
 */
export function idOf(text, view) {
  if (view) return `${view.country}.${view.number}`;
  const bits = parseInt(text.slice(6, 13), 16);
  return `${(bits >> 17) & 1023}.${(bits >> 3) & 16383}`;
}

/**
 * Number of balises of a printed group.
 * @param {string} text
 */
export const balisesOf = (text) => text.split('\n').length - 1;
