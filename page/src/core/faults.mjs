// @ts-check
/** Where digits are refused, and why fields give no digits: in words for a person. The engine decides; this only explains. */
import { meaning } from './variables.mjs';

/**
 * @typedef {import('./items.mjs').Explained} Explained
 * @typedef {import('./items.mjs').Bad} Bad
 */

/** @type {Record<string, (due: string) => string>} why a line of an item is refused */
const WHY = {
  BadLine: () => 'the engine knows no such line',
  BadHex: () => 'a digit isn’t hexadecimal, or there are more or fewer digits than its bits take',
  UnknownName: () => 'no variable has this name',
  NotDue: (due) => `${due} is due there`,
  TooWide: () => 'the value doesn’t fit the bits of the variable',
  Spare: () => 'no packet has this value',
  NoFields: () => 'no packet has this number',
  TooMany: () => 'the packet ends before this field',
  Missing: (due) => `${due} is missing`,
  TooLong: () => 'the packet is longer than L_PACKET can say',
  BitsLeft: () => 'bits are left after the last field',
  OtherLength: (due) => `the packet has ${due} bits`,
  BadLength: (due) => `it would have ${due} bits`,
  NotABalise: () => 'it isn’t a telegram from a balise to a train',
};

/**
 * Why the engine makes no digits of an item.
 * @param {Bad} bad @param {string[]} item
 */
export function badWords({ line, name, due }, item) {
  const [[first, version], [, number]] = [item[0], item[1] ?? ''].map((each) => each.split(' '));
  // After NID_PACKET and Q_DIR come the fields of a packet that the engine knows; any other has none.
  if (name === 'TooMany' && first === 'packet' && line === 4)
    return `The engine doesn’t know packet ${number} in a telegram of version ${meaning('M_VERSION', Number(version))}: insert its digits.`;
  const why = WHY[name]?.(due) ?? name;
  return `${name === 'Missing' ? '' : `${item[line - 1]}: `}${why}.`;
}

/** @param {Explained} explained */
const placeWords = ({ alone, fault }) =>
  `${alone ? 'In the packet' : `In packet ${fault?.packet}`}, at bit ${fault?.bit}`;

/**
 * What is wrong with the last field that was read.
 * @param {Explained} explained
 */
function valueWords({ packets }) {
  const { name, value } = packets[packets.length - 1].fields.slice(-1)[0];
  return name === 'L_PACKET' && value >= 23 ? `L_PACKET ${value} leads past the end` : `no packet has ${name} ${value}`;
}

/** @type {Record<string, (bit: number, explained: Explained) => string>} by what was due, where it is no variable */
const DUE = {
  digit: (bit, { digits }) => (bit / 4 < digits ? `Character ${bit / 4 + 1} isn’t a hexadecimal digit.`
    : `There are ${digits} digits, an odd number: one is missing at the end.`),
  length: (bit, { alone }) => `There are ${bit} bits. ${alone ? 'L_PACKET says how many a packet takes, filled up to a whole byte.'
    : 'A telegram takes 54 digits for its 210 bits, or 208 for 830.'}`,
  zero: (bit) => `Bit ${bit} isn’t zero, and stands after the last one.`,
  Q_UPDOWN: (bit) => `Bit ${bit}, Q_UPDOWN, has to be 1.`,
  Q_MEDIA: (bit) => `Bit ${bit}, Q_MEDIA, has to be 0.`,
  end: (_, explained) => `${placeWords(explained)}, the last field ends, and L_PACKET leaves more bits.`,
  another: (_, explained) => `${placeWords(explained)}, ${valueWords(explained)}.`,
};

/**
 * Where digits are refused, and what was due there. Empty where they aren't.
 * @param {Explained} explained
 */
export function faultWords(explained) {
  const { fault, balise } = explained;
  if (!fault) return '';
  const { number, packet, bit, due } = fault;
  const words = number === 6
    ? `Packet 255 is due at bit ${bit}, after ${packet} packet${packet === 1 ? '' : 's'}, and too few bits are left.`
    : DUE[due]?.(bit, explained) ?? `${placeWords(explained)}, ${due} is due, and too few bits are left for it.`;
  return balise === undefined ? words : `Balise ${balise}: ${words}`;
}
