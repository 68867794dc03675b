// @ts-check
/**
 * Items of docs/FIELDS.md: the lines that the engine makes digits of, and what it answered, taken apart. No digit is made
 * here.
 */
import { linesOf } from './texts.mjs';

/**
 * @typedef {[name: string, value: number]} Field a line NAME VALUE
 * @typedef {{line: number, name: string, due: string}} Bad why no digits were made: `line` is one of the item, from 1
 * @typedef {{digits: string, bad?: undefined} | {digits?: undefined, bad: Bad}} Spelt
 * @typedef {{at: number, width: number, name: string, k: number, value: number}} Shown a field that the engine read
 * @typedef {{number: number, name: string, packet: number | null, bit: number, due: string}} Fault where digits are refused
 * @typedef {{fields: Shown[], rest: string}} Part a packet; `rest` is BITS HEX, or empty
 * @typedef {object} Explained
 * @property {boolean} alone a packet by itself
 * @property {number} digits how many there are
 * @property {Shown[]} header @property {Part[]} packets @property {Fault | null} fault
 * @property {number} [balise] where the command has several telegrams
 */

/** @param {Field[]} fields */
const linesFor = (fields) => fields.map(([name, value]) => `${name} ${value}`);

/**
 * A packet by itself. The engine works out L_PACKET.
 * @param {number} version of its telegram @param {Field[]} fields @param {string} [rest] BITS HEX
 */
export const packetItem = (version, fields, rest = '') =>
  [`packet ${version}`, ...linesFor(fields.filter(([name]) => name !== 'L_PACKET')), ...(rest ? [`rest ${rest}`] : [])];

/**
 * The telegrams of a new group, without packets.
 * @param {{country: number, number: number, balises: number, version: number, long: boolean}} group
 */
export function groupItems({ country, number, balises, version, long }) {
  return Array.from({ length: balises }, (_, pig) => [`telegram ${long ? 830 : 210}`, ...linesFor([
    ['Q_UPDOWN', 1], ['M_VERSION', version], ['Q_MEDIA', 0], ['N_PIG', pig], ['N_TOTAL', balises - 1], ['M_DUP', 0],
    ['M_MCOUNT', 255], ['NID_C', country], ['NID_BG', number], ['Q_LINK', 1],
  ]), 'end']);
}

/** @param {string[][]} items */
export const textOfItems = (items) => items.flat().map((line) => line + '\n').join('');

/**
 * What the engine answered to items: a line for each.
 * @param {string} output @param {string[][]} items @returns {Spelt[]}
 */
export function speltOf(output, items) {
  const lines = linesOf(output);
  if (lines.length !== items.length) throw new Error('the engine answered other items than it was asked about');
  let before = 0;
  return lines.map((line, i) => {
    const words = line.split(' ');
    const first = before;
    before += items[i].length;
    if (words[0] !== 'bad') return { digits: words[words.length - 1] };
    return { bad: { line: Number(words[1]) - first, name: words[2], due: words[3] ?? '' } };
  });
}

/** @param {string[]} words of a line `fault` @returns {Fault} */
const faultOf = ([, number, name, packet, bit, due]) =>
  ({ number: Number(number), name, packet: packet === '-' ? null : Number(packet), bit: Number(bit), due });

/**
 * The fields of one line of digits, as the engine printed them.
 * @param {string} output @param {string} line that the engine was asked about @returns {Explained}
 */
export function explainedOf(output, line) {
  const alone = line.startsWith('packet ');
  /** @type {Explained} */
  const explained = { alone, digits: (alone ? line.split(' ')[2] : line).length, header: [], packets: [], fault: null };
  let { header: fields } = explained;
  for (const line of linesOf(output)) {
    const words = line.split(' ');
    const [first] = words;
    if (first === 'packet') explained.packets.push({ fields: (fields = []), rest: '' });
    else if (first === 'rest') explained.packets[explained.packets.length - 1].rest = words.slice(1).join(' ');
    else if (first === 'fault') explained.fault = faultOf(words);
    else if (words.length === 5) {
      const [at, width, name, k, value] = words;
      fields.push({ at: Number(at), width: Number(width), name, k: Number(k), value: Number(value) });
    }
  }
  return explained;
}
