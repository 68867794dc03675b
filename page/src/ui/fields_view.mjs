// @ts-check
/** Digits as the engine reads them: the fields, and of refused ones what was due and where. */
import { faultWords } from '../core/faults.mjs';
import { VARIABLES, meaning, packetName } from '../core/variables.mjs';
import { h } from './dom.mjs';

/**
 * @typedef {import('../core/items.mjs').Explained} Explained
 * @typedef {import('../core/items.mjs').Shown} Shown
 * @typedef {{title: string, fields: Shown[], rest: string}} Part
 */

/** @param {string | number} at @param {string} name @param {string | number} value @param {string} words */
const row = (at, name, value, words) => h('tr', null, h('td.mono', null, at), h('td.mono', { title: VARIABLES[name]?.what }, name),
  h('td.mono', null, value), h('td.muted', null, words));

/**
 * A table of fields, with the fault as its last row.
 * @param {Part} part @param {Explained['fault']} [fault]
 */
function fieldTable({ title, fields, rest }, fault) {
  const scale = fields.find(({ name }) => name === 'Q_SCALE')?.value;
  const [bits, digits] = rest.split(' ');
  return h('table', null, h('caption', null, title),
    h('thead', null, h('tr', null, ['bit', 'field', 'value', 'means'].map((word) => h('th', { scope: 'col' }, word)))),
    h('tbody', null,
      fields.map(({ at, name, value }) => row(at, name, value, meaning(name, value, scale))),
      rest !== '' && row('', 'content', digits, `${bits} bits`),
      fault && h('tr.fault', null, h('td.mono', null, fault.bit), h('td.mono', null, fault.due), h('td'),
        h('td', null, 'refused here'))));
}

/** @param {Shown[]} fields */
const packetTitle = ([number]) => (number ? `${number.value} ${packetName(number.value)}` : '');

/** @param {Explained} explained @returns {Part[]} */
function partsOf({ alone, header, packets }) {
  const parts = packets.map(({ fields, rest }, i) => ({ title: `Packet ${alone ? '' : `${i}: `}${packetTitle(fields)}`, fields, rest }));
  return header.length > 0 ? [{ title: 'Header', fields: header, rest: '' }, ...parts] : parts;
}

/**
 * The fields of digits. Of refused ones the fault comes first, in words, with the fields that lead to it; the parts before
 * are there on demand.
 * @param {Explained | undefined} explained
 */
export function fieldsView(explained) {
  if (!explained) return null;
  const { fault } = explained;
  const before = partsOf(explained);
  // Where packet 255 is due, nothing of a packet was read.
  const own = fault?.number === 6 ? undefined : before.pop();
  return h('div.fields-view', null, fault && h('p.bad', null, faultWords(explained)), own && fieldTable(own, fault),
    before.length > 0 && h('details', null, h('summary', null, 'The fields before'), before.map((part) => fieldTable(part))));
}
