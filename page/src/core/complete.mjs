// @ts-check
/** Completion of commands: what may stand as the word at the end, with a hint for each. */
import { COMMANDS } from './commands.mjs';
import { HEADER_SET, VARIABLES, meaning, occurrences, packetName, scaleOf } from './variables.mjs';

/**
 * @typedef {{text: string, hint: string}} Choice
 * @typedef {object} Look what completion may look at
 * @property {(start: string, most: number) => string[]} identities identities that begin so
 * @property {(id: string) => import('./bits.mjs').Group | undefined} group the group, where it was decoded
 * @property {() => {s: number, what: string, where: string}[]} standing edits that stand
 * @property {(version: number) => {number: number, digits: string}[]} blanks packets with all values 0, by M_VERSION
 * @typedef {object} Line the line so far
 * @property {string[]} words @property {string} last the word at the end @property {Look} look @property {number} most
 * @property {import('./bits.mjs').Telegram | undefined} telegram that it names
 * @property {import('./bits.mjs').Packet | undefined} packet that it names
 */

/** @template T @param {T[]} list */
const unique = (list) => [...new Set(list)];
/** @param {Record<string, string>} names @returns {Choice[]} */
const named = (names) => Object.entries(names).map(([text, hint]) => ({ text, hint }));

/**
 * What may stand for each word of a command.
 * @type {Record<string, (line: Line) => Choice[]>}
 */
const CHOICES = {
  'C.N': ({ look, last, most }) => look.identities(last, most + 1).map((text) => ({ text, hint: '' })),
  PIG: ({ look, words }) => (look.group(words[1])?.telegrams ?? []).map(({ packets }, i) =>
    ({ text: String(i), hint: 'packets ' + (packets.map(({ fields }) => fields[0][1]).join(', ') || 'none') })),
  PKT: ({ telegram }) => (telegram?.packets ?? []).map(({ fields }, i) =>
    ({ text: String(i), hint: `${fields[0][1]} ${packetName(fields[0][1])}` })),
  VAR: ({ packet }) => unique((packet?.fields ?? []).map(([name]) => name))
    .filter((name) => !VARIABLES[name]?.steering)
    .map((text) => ({ text, hint: VARIABLES[text]?.what ?? '' })),
  HVAR: () => Object.keys(HEADER_SET).map((text) => ({ text, hint: VARIABLES[text].what })),
  K: ({ packet, words }) => occurrences(packet?.fields ?? []).filter(({ name }) => name === words[4]).map(({ k, value }) =>
    ({ text: String(k), hint: `now ${value} ${meaning(words[4], value, scaleOf(packet?.fields ?? []))}` })),
  VALUE: valueChoices,
  AT: ({ telegram, words }) => Array.from({ length: (telegram?.packets.length ?? 0) + (words[0] === 'insert' ? 1 : 0) },
    (_, i) => ({ text: String(i), hint: i === 0 ? 'first' : '' })),
  HEX: ({ look, telegram }) => (telegram ? look.blanks(telegram.m_version) : []).map(({ number, digits }) =>
    ({ text: digits, hint: `${number} ${packetName(number)}, all 0` })),
  S: ({ look }) => look.standing().map(({ s, what, where }) => ({ text: String(s), hint: `${where} ${what}` })),
};

/** @param {Line} line @returns {Choice[]} */
function valueChoices({ words, packet }) {
  const inPacket = words[0] === 'set';
  const name = inPacket ? words[4] : words[3];
  const { values, special } = VARIABLES[name] ?? {};
  const choices = named(values ?? special ?? {});
  const fields = packet?.fields ?? [];
  const now = inPacket ? occurrences(fields).find((field) => field.name === name && field.k === Number(words[5]))
    : undefined;
  if (!now) return choices;
  const first = { text: String(now.value), hint: `now ${meaning(name, now.value, scaleOf(fields))}` };
  return [first, ...choices.filter(({ text }) => text !== first.text)];
}

/**
 * @param {string} text up to the caret @param {Look} look @param {number} [most]
 * @returns {{choices: Choice[], from: number}} from: where the word at the end begins
 */
export function complete(text, look, most = 12) {
  const words = text.split(' ');
  const last = words[words.length - 1];
  const telegram = look.group(words[1])?.telegrams[Number(words[2])];
  const line = { words, last, look, most, telegram, packet: telegram?.packets[Number(words[3])] };
  const all = words.length === 1
    ? Object.entries(COMMANDS).map(([name, { words: takes, what }]) => ({ text: name, hint: [...takes, '·', what].join(' ') }))
    : CHOICES[COMMANDS[words[0]]?.words[words.length - 2]]?.(line) ?? [];
  const start = last.toLowerCase();
  const choices = all.filter((choice) => choice.text.toLowerCase().startsWith(start) && choice.text !== last);
  return { choices: choices.slice(0, most), from: text.length - last.length };
}
