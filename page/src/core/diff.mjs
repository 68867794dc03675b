// @ts-check
/** What differs between two forms of a group, field by field. Both forms were decoded by the engine. */
import { bitsOf, packetBits } from './bits.mjs';
import { HEADER_SET, occurrences } from './variables.mjs';
import { identity } from './links.mjs';

/**
 * @typedef {import('./bits.mjs').Group} Group
 * @typedef {import('./bits.mjs').Telegram} Telegram
 * @typedef {{group: Group, digits: string[]}} Decoded a group of the view with the digits of its telegrams
 * @typedef {{name: string, k: number, before: number | null, after: number | null}} FieldDiff
 * @typedef {object} PacketDiff
 * @property {'changed'|'added'|'removed'|'moved'} kind
 * @property {number} number NID_PACKET
 * @property {number | null} before index of the packet before, or null
 * @property {number | null} after
 * @property {FieldDiff[]} fields
 * @property {boolean} content whether bits differ that no field covers
 * @property {number} [scale]
 * @typedef {object} TelegramDiff
 * @property {number | null} before PIG before
 * @property {number | null} after PIG after
 * @property {FieldDiff[]} header
 * @property {PacketDiff[]} packets
 * @property {boolean} padding whether only padding differs beside these
 * @property {number[]} bits places of the bits that differ, where both have the same length
 * @typedef {object} GroupDiff
 * @property {'changed'|'added'|'removed'} kind
 * @property {string} before identity, or ''
 * @property {string} after
 * @property {boolean} turned whether its telegrams fit better in the other order
 * @property {TelegramDiff[]} telegrams
 */

/** @param {Decoded} a @param {Decoded} b @returns {GroupDiff | null} null where all bits are the same */
export function diffGroup(a, b) {
  if (a.digits.length === b.digits.length
    && a.digits.every((digits, i) => digits.toLowerCase() === b.digits[i].toLowerCase())) return null;
  const count = Math.max(a.digits.length, b.digits.length);
  const straight = Array.from({ length: count }, (_, i) => [i, i]);
  const turned = straight.map(([i]) => [a.digits.length - 1 - i, i]);
  /** @param {number[][]} pairs */
  const make = (pairs) => pairs.flatMap(([i, j]) => diffTelegram(a, i, b, j) ?? []);
  const first = make(straight);
  const second = a.digits.length === b.digits.length && count > 1 ? make(turned) : null;
  const better = second !== null && weight(second) < weight(first);
  return {
    kind: 'changed', before: identity(a.group), after: identity(b.group), turned: better,
    telegrams: better ? second : first,
  };
}

/** @param {TelegramDiff[]} diffs */
const weight = (diffs) => diffs.reduce(
  (sum, diff) => sum + diff.header.length + diff.packets.reduce(
    (all, packet) => all + (packet.kind === 'changed' ? packet.fields.length : 8), 0),
  0);

/** @param {Decoded} a @param {number} i @param {Decoded} b @param {number} j @returns {TelegramDiff | null} */
function diffTelegram(a, i, b, j) {
  const [before, after] = [a.group.telegrams[i], b.group.telegrams[j]];
  if (!before || !after)
    return { before: before ? i : null, after: after ? j : null, header: [], packets: [], padding: false, bits: [] };
  const header = headerDiff(a.group, before, i, b.group, after, j);
  const packets = packetDiffs(before, packetBits(before, a.digits[i]), after, packetBits(after, b.digits[j]));
  const bits = differingBits(bitsOf(a.digits[i], before.bits), bitsOf(b.digits[j], after.bits));
  const padding = header.length + packets.length === 0 && bits.length > 0;
  return header.length + packets.length + bits.length === 0 && i === j ? null
    : { before: i, after: j, header, packets, padding, bits };
}

/**
 * @param {Group} a @param {Telegram} before @param {number} i @param {Group} b @param {Telegram} after
 * @param {number} j
 */
function headerDiff(a, before, i, b, after, j) {
  /** @type {FieldDiff[]} */
  const diffs = [];
  /** @param {string} name @param {number} x @param {number} y */
  const compare = (name, x, y) => { if (x !== y) diffs.push({ name, k: 0, before: x, after: y }); };
  compare('NID_C', a.country, b.country);
  compare('NID_BG', a.number, b.number);
  compare('N_PIG', i, j);
  compare('N_TOTAL', a.telegrams.length - 1, b.telegrams.length - 1);
  compare('M_VERSION', before.m_version, after.m_version);
  for (const [name, key] of Object.entries(HEADER_SET)) compare(name, before[key], after[key]);
  return diffs;
}

/** @param {string} a @param {string} b */
function differingBits(a, b) {
  if (a.length !== b.length) return [];
  const places = [];
  for (let at = 0; at < a.length; at += 1) if (a[at] !== b[at]) places.push(at);
  return places;
}

/** @param {Telegram} a @param {string[]} aBits @param {Telegram} b @param {string[]} bBits @returns {PacketDiff[]} */
function packetDiffs(a, aBits, b, bBits) {
  const pairs = alignPackets(a, aBits, b, bBits);
  /** @type {PacketDiff[]} */
  const diffs = [];
  for (const [i, j] of pairs) {
    const [before, after] = [i === null ? null : a.packets[i], j === null ? null : b.packets[j]];
    const number = /** @type {any} */ (after ?? before).fields[0][1];
    const scale = (after ?? before)?.fields.find(([name]) => name === 'Q_SCALE')?.[1];
    if (before && after && i !== null && j !== null) {
      if (aBits[i] === bBits[j]) continue;
      const [x, y] = [occurrences(before.fields), occurrences(after.fields)];
      const fields = x.flatMap((field, n) => field.value === y[n].value ? []
        : [{ name: field.name, k: field.k, before: field.value, after: y[n].value }]);
      diffs.push({
        kind: 'changed', number, before: i, after: j, fields,
        content: !after.known && aBits[i].slice(23) !== bBits[j].slice(23), scale,
      });
    } else {
      const fields = occurrences((after ?? before)?.fields ?? []).map(({ name, k, value }) => ({ name, k, before: before ? value : null, after: after ? value : null }));
      diffs.push({ kind: after ? 'added' : 'removed', number, before: i, after: j, fields, content: false, scale });
    }
  }
  return joinMoves(diffs, aBits, bBits);
}

/**
 * A packet taken out and put in elsewhere with the same bits was moved.
 * @param {PacketDiff[]} diffs @param {string[]} aBits @param {string[]} bBits
 */
function joinMoves(diffs, aBits, bBits) {
  for (const out of diffs.filter((diff) => diff.kind === 'removed')) {
    const in_ = diffs.find((diff) => diff.kind === 'added'
      && bBits[/** @type {number} */ (diff.after)] === aBits[/** @type {number} */ (out.before)]);
    if (!in_) continue;
    diffs.splice(diffs.indexOf(out), 1);
    Object.assign(in_, { kind: 'moved', before: out.before, fields: [] });
  }
  return diffs;
}

/**
 * The packets of two telegrams side by side, so that as much as possible is alike.
 * @param {Telegram} a @param {string[]} aBits @param {Telegram} b @param {string[]} bBits @returns {[number | null, number | null][]}
 */
function alignPackets(a, aBits, b, bBits) {
  /** @param {number} i @param {number} j */
  const likeness = (i, j) => {
    if (aBits[i] === bBits[j]) return 10;
    const [x, y] = [a.packets[i].fields, b.packets[j].fields];
    if (x[0][1] !== y[0][1] || x.length !== y.length || x.some(([name], n) => y[n][0] !== name)) return 0;
    return 1 + 8 * (x.filter(([, value], n) => y[n][1] === value).length / x.length);
  };
  const [n, m] = [a.packets.length, b.packets.length];
  const best = Array.from({ length: n + 1 }, () => new Float64Array(m + 1));
  for (let i = n - 1; i >= 0; i -= 1)
    for (let j = m - 1; j >= 0; j -= 1) {
      const like = likeness(i, j);
      best[i][j] = Math.max(best[i + 1][j], best[i][j + 1], like > 0 ? like + best[i + 1][j + 1] : 0);
    }
  /** @type {[number | null, number | null][]} */
  const pairs = [];
  let [i, j] = [0, 0];
  while (i < n && j < m) {
    const like = likeness(i, j);
    if (like > 0 && best[i][j] === like + best[i + 1][j + 1]) pairs.push([i++, j++]);
    else if (best[i][j] === best[i + 1][j]) pairs.push([i++, null]);
    else pairs.push([null, j++]);
  }
  while (i < n) pairs.push([i++, null]);
  while (j < m) pairs.push([null, j++]);
  return pairs;
}
