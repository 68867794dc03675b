// @ts-check
/** Inputs put together and outputs taken apart, as docs/FORMATS.md has them. */

const encoder = new TextEncoder();
const decoder = new TextDecoder(); // outputs are ASCII

/** @param {string} text */
export const bytesOf = (text) => encoder.encode(text);
/** @param {Uint8Array} bytes */
export const textOf = (bytes) => decoder.decode(bytes);

/** @param {Uint8Array[]} parts */
export function joinBytes(parts) {
  const all = new Uint8Array(parts.reduce((sum, part) => sum + part.length, 0));
  let at = 0;
  for (const part of parts) {
    all.set(part, at);
    at += part.length;
  }
  return all;
}

/**
 * The bytes with a line feed at their end, so that something can follow.
 * @param {Uint8Array} bytes
 */
export function withLineFeed(bytes) {
  return bytes.length === 0 || bytes[bytes.length - 1] === 10 ? bytes : joinBytes([bytes, new Uint8Array([10])]);
}

/** @param {Uint8Array} bytes number of lines, a last one without line feed included */
export function countLines(bytes) {
  let lines = 0;
  for (let at = bytes.indexOf(10); at >= 0; at = bytes.indexOf(10, at + 1)) lines += 1;
  return lines + (bytes.length > 0 && bytes[bytes.length - 1] !== 10 ? 1 : 0);
}

/**
 * One input: base plan, journal, `edits`, commands.
 * @param {Uint8Array} base @param {Uint8Array} journal @param {string[]} commands
 */
export function inputOf(base, journal, commands) {
  const tail = bytesOf(['edits', ...commands].join('\n') + '\n');
  return joinBytes([withLineFeed(base), withLineFeed(journal), tail]);
}

/**
 * @typedef {object} Output the parts of an output with a plan
 * @property {string[]} replies lines before the plan
 * @property {string} plan text from `plan 1` on, ready to be read again
 * @property {string} journal empty without --journal
 * @property {string[]} view the JSON lines
 */

/**
 * Where the first line that begins with `words` starts, from `from` on.
 * @param {string} text @param {string} words @param {number} from
 */
function lineStart(text, words, from) {
  if (text.startsWith(words, from)) return from;
  const at = text.indexOf('\n' + words, from);
  return at < 0 ? -1 : at + 1;
}

/** @param {string} text an output @returns {Output | null} null where there is no plan */
export function splitOutput(text) {
  const plan = lineStart(text, 'plan 1\n', 0);
  if (plan < 0) return null;
  const view = lineStart(text, '{', plan);
  const end = view < 0 ? text.length : view;
  const found = lineStart(text, 'journal ', plan);
  const journal = found < 0 ? end : found;
  return {
    replies: linesOf(text.slice(0, plan)),
    plan: text.slice(plan, journal),
    journal: text.slice(journal, end),
    view: linesOf(text.slice(end)),
  };
}

/** @param {string} text */
export function linesOf(text) {
  const lines = text.split('\n');
  if (lines[lines.length - 1] === '') lines.pop();
  return lines;
}

/**
 * @typedef {object} Reply
 * @property {'ok'|'undone'|'redone'|'struck'|'refused'} kind
 * @property {string} text the whole line
 * @property {number} serial the edit's serial, or 0 for a refusal
 * @property {number} number of a refusal, or 0
 * @property {string} name of a refusal, or ''
 * @property {number} first the first dependent edit of a refusal 26, or 0
 * @property {string[]} reviews
 * @property {import('./items.mjs').Explained} [explained] its digits up to the fault, where they are refused
 */

/** @param {string[]} lines @returns {Reply[]} */
export function repliesOf(lines) {
  /** @type {Reply[]} */
  const replies = [];
  for (const text of lines) {
    const words = text.split(' ');
    if (words[0] === 'review') replies.at(-1)?.reviews.push(text);
    else if (words[0] === 'refused')
      replies.push({
        kind: 'refused', text, serial: 0, number: Number(words[1]), name: words[2], first: Number(words[3] ?? 0),
        reviews: [],
      });
    else
      replies.push({
        kind: /** @type {any} */ (words[0]), text, serial: Number(words[1]), number: 0, name: '', first: 0, reviews: [],
      });
  }
  return replies;
}

/**
 * @typedef {object} Bad a refused plan or journal
 * @property {number} line of the whole input, from 1
 * @property {number} number @property {string} name
 */

/** @param {string} text @returns {Bad | null} */
export function badOf(text) {
  const found = /^bad (\d+) (\d+) (\w+)\n?$/.exec(text);
  return found && { line: Number(found[1]), number: Number(found[2]), name: found[3] };
}

/**
 * The texts of the groups of a printed plan, each with its telegrams a line.
 * @param {string} plan
 */
export function groupTexts(plan) {
  const texts = plan.split('group\n');
  texts.shift();
  return texts;
}

/**
 * A small plan of some groups: what the engine is asked to decode.
 * @param {string[]} texts
 */
export function planOf(texts) {
  return 'plan 1\n' + texts.map((text) => 'group\n' + text).join('');
}
