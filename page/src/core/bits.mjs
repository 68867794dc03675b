// @ts-check
/**
 * Where the fields of a telegram stand among its bits, for showing them. The values are the engine's; each is compared.
 */
import { HEADER, VARIABLES } from './variables.mjs';

/**
 * @typedef {object} Packet as the JSON view has it
 * @property {[string, number][]} fields @property {boolean} known
 * @typedef {object} Telegram as the JSON view has it
 * @property {number} bits @property {number} used @property {Packet[]} packets
 * @property {number} m_dup @property {number} m_mcount @property {number} m_version @property {number} q_link
 * @typedef {object} Group as the JSON view has it
 * @property {number} country @property {number} number @property {Telegram[]} telegrams
 */

/** @param {string} digits @param {number} [length] */
export function bitsOf(digits, length) {
  let bits = '';
  for (const digit of digits) bits += parseInt(digit, 16).toString(2).padStart(4, '0');
  return length === undefined ? bits : bits.slice(0, length);
}

/**
 * Bits as digits, filled up by zeros to whole bytes: for showing, and never for a command.
 * @param {string} bits
 */
export function digitsOf(bits) {
  const padded = bits.padEnd(Math.ceil(bits.length / 8) * 8, '0');
  return (padded.match(/.{4}/g) ?? []).map((four) => parseInt(four, 2).toString(16)).join('');
}

/**
 * @typedef {object} Span
 * @property {'header'|'field'|'opaque'|'end'|'padding'} kind
 * @property {string} name @property {number} start @property {string} bits
 * @property {number} packet index of the packet, or -1
 * @property {number} k occurrence of the variable in its packet
 * @property {boolean} agrees whether the bits are the value that the engine gave
 */

/**
 * The spans of a telegram, in bit order, without gap.
 * @param {Telegram} telegram @param {string} digits
 * @returns {Span[]}
 */
export function spansOf(telegram, digits) {
  const bits = bitsOf(digits, telegram.bits);
  /** @type {Span[]} */
  const spans = [];
  let at = 0;
  /**
   * @param {Span['kind']} kind @param {string} name @param {number} length @param {number} packet @param {number} k
   * @param {number} [value]
   */
  const put = (kind, name, length, packet, k, value) => {
    const part = bits.slice(at, at + length);
    spans.push({
      kind, name, start: at, bits: part, packet, k, agrees: value === undefined || parseInt(part, 2) === value,
    });
    at += length;
  };
  const header = /** @type {Record<string, number>} */ ({
    Q_UPDOWN: 1, Q_MEDIA: 0, M_VERSION: telegram.m_version, M_DUP: telegram.m_dup, M_MCOUNT: telegram.m_mcount,
    Q_LINK: telegram.q_link,
  });
  for (const name of HEADER) put('header', name, VARIABLES[name].bits, -1, 0, header[name]);
  telegram.packets.forEach((packet, index) => {
    const end = at + (packet.fields[2]?.[1] ?? 0);
    /** @type {Record<string, number>} */
    const seen = {};
    for (const [name, value] of packet.fields) {
      const k = seen[name] ?? 0;
      seen[name] = k + 1;
      put('field', name, VARIABLES[name]?.bits ?? 0, index, k, value);
    }
    if (at < end) put('opaque', 'content', end - at, index, 0);
  });
  put('end', 'packet 255', 8, -1, 0, 255);
  if (at < telegram.bits) put('padding', 'padding', telegram.bits - at, -1, 0);
  return spans;
}

/**
 * The bits of each packet.
 * @param {Telegram} telegram @param {string} digits @returns {string[]}
 */
export function packetBits(telegram, digits) {
  const bits = bitsOf(digits, telegram.bits);
  let at = 50;
  return telegram.packets.map((packet) => {
    const start = at;
    at += packet.fields[2]?.[1] ?? 0;
    return bits.slice(start, at);
  });
}
