// @ts-check
/** What a file is, told by its bytes, and its parts. */
import { COMMANDS } from './commands.mjs';
import { clean, damageOf } from './damage.mjs';
import { bytesOf, countLines, textOf, withLineFeed } from './texts.mjs';

/**
 * @typedef {object} Kind
 * @property {'plan'|'journal'|'input'|'commands'|'output'|'unknown'} kind
 * @property {import('./damage.mjs').Damage[]} damage
 */

/** @param {Uint8Array} bytes @param {string} start */
function startsWith(bytes, start) {
  return bytesOf(start).every((byte, at) => bytes[at] === byte);
}

/**
 * Where a line that begins with `words` starts, or -1.
 * @param {Uint8Array} bytes @param {string} words
 */
export function findLine(bytes, words) {
  const wanted = bytesOf(words);
  /** @param {number} at */
  const here = (at) => wanted.every((byte, i) => bytes[at + i] === byte);
  if (here(0)) return 0;
  // Plans are long and keywords are rare: look for the first letter, and then for the line feed before it.
  for (let at = bytes.indexOf(wanted[0]); at >= 0; at = bytes.indexOf(wanted[0], at + 1))
    if (bytes[at - 1] === 10 && here(at)) return at;
  return -1;
}

/** @param {Uint8Array} bytes @returns {Kind} */
export function kindOf(bytes) {
  const damage = damageOf(bytes);
  const body = damage.some(({ cleanable }) => cleanable) ? clean(bytes) : bytes;
  return { kind: kindOfText(body), damage };
}

/** @param {Uint8Array} body @returns {Kind['kind']} */
function kindOfText(body) {
  if (startsWith(body, 'journal ')) return 'journal';
  if (startsWith(body, 'plan ')) return findLine(withLineFeed(body), 'edits\n') >= 0 ? 'input' : 'plan';
  if (findLine(body, 'plan 1\n') > 0) return 'output';
  const first = textOf(body.subarray(0, 40)).split(/\s/)[0];
  return Object.hasOwn(COMMANDS, first) ? 'commands' : 'unknown';
}

/**
 * A file taken apart: a plan may have its journal after it, and an input its commands.
 * @param {Uint8Array} file of kind plan or input
 */
export function partsOf(file) {
  const bytes = withLineFeed(file);
  const edits = findLine(bytes, 'edits\n');
  const end = edits < 0 ? bytes.length : edits;
  const found = findLine(bytes.subarray(0, end), 'journal ');
  const journal = found < 0 ? end : found;
  return {
    plan: bytes.slice(0, journal),
    journal: bytes.slice(journal, end),
    commands: edits < 0 ? new Uint8Array(0) : bytes.slice(edits + 6),
  };
}

/**
 * In which file a line of the whole input stands.
 * @param {number} line from 1 @param {Uint8Array} base @param {Uint8Array} journal
 * @returns {{file: 'base'|'journal'|'end', line: number}}
 */
export function placeOfLine(line, base, journal) {
  const first = countLines(base);
  if (line <= first) return { file: 'base', line };
  const second = countLines(journal);
  if (line - first <= second) return { file: 'journal', line: line - first };
  return { file: 'end', line: line - first - second };
}
