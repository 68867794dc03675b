// @ts-check
/** A journal read: which edits stand, and what they name by the tags of docs/FORMATS.md. No bit is looked at. */
import { linesOf } from './texts.mjs';

/**
 * @typedef {object} Entry
 * @property {number} s serial
 * @property {string} kind set, seth, insert, delete, move, turn, add, drop, renumber
 * @property {string[]} words all words after the kind
 * @property {boolean} stands
 * @property {string} line
 * @typedef {{next: number, entries: Entry[], stack: number[]}} Journal stack: the undone edits, the bottom first
 */

/** @param {string} text a printed journal @returns {Journal} */
export function readJournal(text) {
  const [first = '', ...lines] = linesOf(text);
  /** @type {Journal} */
  const journal = { next: Number(first.split(' ')[2] ?? 1), entries: [], stack: [] };
  for (const line of lines) {
    const words = line.split(' ');
    if (words[0] === 'undone') journal.stack.push(Number(words[1]));
    else journal.entries.push({ s: Number(words[0]), kind: words[1], words: words.slice(2), stands: true, line });
  }
  const undone = new Set(journal.stack);
  for (const entry of journal.entries) entry.stands = !undone.has(entry.s);
  return journal;
}

/**
 * The groups that a journal names by tag.
 * @param {Journal} journal
 */
export function groupsNamed(journal) {
  const tags = new Set();
  for (const { kind, words } of journal.entries) if (kind !== 'add') tags.add(words[0].split('/')[0]);
  return [.../** @type {Set<string>} */ (tags)];
}

/** @typedef {number[][]} Numbers NID_PACKET of the packets of each telegram, by the PIG at first */

/** @param {import('./bits.mjs').Group} group @returns {Numbers} */
export const numbersIn = (group) => group.telegrams.map(({ packets }) => packets.map(({ fields }) => fields[0][1]));

/**
 * NID_PACKET by paths of packets, also of those gone: no edit changes it.
 * @param {Journal} journal @param {Map<string, Numbers>} came what the groups had that it names, as they came into the plan
 */
export function packetNumbers(journal, came) {
  /** @type {Map<string, number>} */
  const numbers = new Map();
  for (const [tag, lists] of came)
    lists.forEach((list, t) => list.forEach((number, i) => numbers.set(`${tag}/${t}/b${i}`, number)));
  for (const { s, kind, words } of journal.entries)
    if (kind === 'insert') numbers.set(`${words[0]}/n${s}`, parseInt(words[2].slice(0, 2), 16));
  return numbers;
}

/**
 * The tags of the groups in the order of the plan. Only edits that add and drop groups count.
 * @param {number} baseGroups number of groups of the base plan @param {Journal} journal
 */
export function groupOrder(baseGroups, journal) {
  const order = Array.from({ length: baseGroups }, (_, i) => 'b' + i);
  for (const { s, kind, stands, words: [first] } of journal.entries) {
    if (stands && kind === 'add') order.splice(first === '^' ? 0 : order.indexOf(first) + 1, 0, 'n' + s);
    if (stands && kind === 'drop') order.splice(order.indexOf(first), 1);
  }
  return order;
}
