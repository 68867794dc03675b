// @ts-check
/** The links of a group, as docs/FORMATS.md has them (Which group a link names), and what lists need of a group. */
import { metres, scaleOf } from './variables.mjs';

/** @typedef {import('./bits.mjs').Group} Group */

/**
 * @typedef {object} Link
 * @property {number} pig @property {number} pkt @property {number} k place of its NID_BG
 * @property {string} to identity that it names
 * @property {number | null} metres from the telegram's own group; null without unit or distance
 * @property {boolean | null} nominal whether a train passes that group in its nominal direction; null for packet 136
 * @property {number} dir Q_DIR of the packet
 */

/** NID_BG of a link that names no group. */
const NO_GROUP = 16383;

/** @param {{country: number, number: number}} group */
export const identity = (group) => `${group.country}.${group.number}`;

/**
 * The links of one packet.
 * @param {Group} group @param {number} pig @param {number} pkt @returns {Link[]}
 */
function linksOfPacket(group, pig, pkt) {
  const { fields } = group.telegrams[pig].packets[pkt];
  const [number, dir] = [fields[0][1], fields[1][1]];
  if (number !== 5 && number !== 136) return [];
  const scale = scaleOf(fields);
  /** @type {Link[]} */
  const links = [];
  let [country, sum, k] = [group.country, 0, 0];
  for (const [name, value] of fields) {
    if (name === 'D_LINK') sum += value;
    else if (name === 'NID_C') country = value;
    else if (name === 'NID_BG') {
      links.push({
        pig, pkt, k, to: `${country}.${value}`, metres: number === 5 ? metres(sum, scale) : null, nominal: null, dir,
      });
      k += 1;
    } else if (name === 'Q_LINKORIENTATION') links[links.length - 1].nominal = value === 1;
  }
  return links.filter(({ to }) => !to.endsWith('.' + NO_GROUP));
}

/** @param {Group} group @returns {Link[]} */
export function linksOf(group) {
  return group.telegrams.flatMap((telegram, pig) => telegram.packets.flatMap((_, pkt) => linksOfPacket(group, pig, pkt)));
}

/**
 * What the list of groups needs of a group; small, since a plan may have 590,000.
 * @typedef {object} Summary
 * @property {string} id identity C.N
 * @property {number} balises
 * @property {string} packets numbers of packets, `?` after those that the engine doesn't know, telegrams parted by `|`
 * @property {boolean} [pending] the packets aren't decoded yet
 */

/** @param {Group} group @returns {Summary} */
export function summaryOf(group) {
  const packets = group.telegrams.map((telegram) =>
    telegram.packets.map(({ fields, known }) => fields[0][1] + (known ? '' : '?')).join(' '));
  return { id: identity(group), balises: group.telegrams.length, packets: packets.join('|') };
}

/**
 * The numbers of the packets of a summary that the engine doesn't know.
 * @param {Summary} summary
 */
export const unknownPackets = ({ packets }) => [...new Set((packets.match(/\d+(?=\?)/g) ?? []).map(Number))];

/**
 * Groups that aren't decoded yet, out of a message of the worker.
 * @param {{ids: string, balises: Uint8Array}} packed @returns {Summary[]}
 */
export function pendingSummaries({ ids, balises }) {
  return ids.split(' ').map((id, i) => ({ id, balises: balises[i], packets: '', pending: true }));
}
