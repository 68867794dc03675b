// @ts-check
/** One packet of the group that is shown: its fields in parts, and what can be done with it. */
import { digitsOf } from '../core/bits.mjs';
import { LAYOUTS, PART_NAME, PART_START } from '../core/layouts.mjs';
import { VARIABLES, namesGroups, occurrences, packetName, scaleOf } from '../core/variables.mjs';
import { rewriteDialog } from './forms.mjs';
import { button, h, plural } from './dom.mjs';
import { tile } from './tile.mjs';

/**
 * @typedef {object} Place
 * @property {string} id @property {number} pig @property {number} pkt
 * @property {number} count packets of the telegram
 * @property {number} version of the telegram
 * @typedef {{name: string, value: number, k: number}} Field
 */

/**
 * The fields after the first three, and where they fall into parts.
 * @param {any} packet @param {Field[]} fields
 */
function partsOf(packet, fields) {
  const start = PART_START[fields[0].value];
  // What only says how the packet goes on is told by the parts; the bits show it too.
  const rest = fields.slice(3).filter(({ name, value }) => name !== 'N_ITER'
    && !(name === 'Q_NEWCOUNTRY' && value === 0));
  const first = packet.known && start ? rest.findIndex(({ name }) => name === start) : -1;
  /** @type {Field[][]} */
  const parts = [];
  for (const field of first < 0 ? [] : rest.slice(first)) {
    if (field.name === start) parts.push([]);
    parts[parts.length - 1].push(field);
  }
  return { head: first < 0 ? rest : rest.slice(0, first), parts };
}

/**
 * @param {import('./group.mjs').Shown} shown @param {Place} place @param {any} packet @param {string} bits
 * @param {import('../core/diff.mjs').PacketDiff | undefined} diff
 */
export function packetCard(shown, place, packet, bits, diff) {
  const { pig, pkt } = place;
  const fields = occurrences(packet.fields);
  const scale = packet.known ? scaleOf(packet.fields) : undefined;
  /** @param {Field} field */
  const one = ({ name, value, k }) => tile(shown, {
    name, value, k, scale, at: `${pig} ${pkt} ${name} ${k}`, many: fields.filter((field) => field.name === name).length > 1,
    before: diff?.kind === 'changed' ? diff.fields.find((each) => each.name === name && each.k === k)?.before
      : undefined,
    command: VARIABLES[name]?.steering ? undefined : (raw) => `set ${place.id} ${pig} ${pkt} ${name} ${k} ${raw}`,
  });
  const { head, parts } = partsOf(packet, fields);
  const number = fields[0].value;
  return h('div.packet', {
    data: { packet: `${pig} ${pkt}` }, tabindex: -1, role: 'group',
    'aria-label': `packet ${pkt}: ${number} ${packetName(number)}`, class: diff ? 'is-' + diff.kind : '',
  },
    h('header', null,
      h('span.pkt.mono', { title: `packet at place ${pkt}` }, pkt),
      h('h4', null, h('b', null, number), ' ', packetName(number)),
      one(fields[1]), head.filter(({ name }) => name === 'Q_SCALE').map(one),
      h('span.muted.small', null,
        [parts.length > 0 && plural(parts.length, PART_NAME[number]), `${fields[2].value} bits`].filter(Boolean).join(' · ')),
      marks(diff), packetButtons(shown, place, packet)),
    packet.known
      ? [h('div.tiles', null, head.filter(({ name }) => name !== 'Q_SCALE').map(one)),
        parts.map((part, i) => partRow(part.map(one), parts.length > 1 ? i : -1))]
      : unknownContent(number, bits));
}

/** @param {any[]} tiles @param {number} i place of the part, or -1 where there is one alone */
const partRow = (tiles, i) => h('div.part', { class: i >= 0 ? 'many' : '' },
  i >= 0 && h('span.part-name.muted', null, i), h('div.tiles', null, tiles));

/** @param {import('../core/diff.mjs').PacketDiff | undefined} diff */
function marks(diff) {
  const text = diff?.kind === 'added' ? 'put in' : diff?.kind === 'moved' ? 'moved'
    : diff?.kind === 'changed' && diff.content ? 'content' : '';
  return text && h('span.mark.changed', null, text);
}

/** @param {number} number @param {string} bits */
function unknownContent(number, bits) {
  const why = LAYOUTS[number] ? 'Not known in this version; kept bit for bit. ' : 'Kept bit for bit. ';
  return [
    h('p.opaque', null, h('span.muted', null, why), h('code', null, digitsOf(bits.slice(23)))),
    h('p.amber.small.opaque', null,
      namesGroups(number) ? 'It names groups by their numbers, which a renumbering doesn’t follow.' : 'Where it has numbers of groups, a renumbering doesn’t follow them.'),
  ];
}

/** @param {import('./group.mjs').Shown} shown @param {Place} place @param {any} packet */
function packetButtons({ app, refocus }, { id, pig, pkt, count, version }, packet) {
  const place = `${id} ${pig} ${pkt}`;
  const [[, number]] = packet.fields;
  /** @param {'up'|'down'} icon @param {number} to */
  const move = (icon, to) => button({
    icon, title: `Move ${icon}: move ${place} ${to}`, class: 'quiet', data: {
      key: `${icon} ${pig} ${pkt}`, rove: '',
    }, disabled: to < 0 || to >= count,
    onclick: () => { refocus(`[data-key="${icon} ${pig} ${to}"]`); app.do(`move ${place} ${to}`); },
  });
  return h('div.buttons', null,
    packet.known && LAYOUTS[number] && button({
      icon: 'form', title: `All fields of packet ${number} anew: delete ${place}, insert ${place} HEX`, class: 'quiet', data: {
        key: `form ${pig} ${pkt}`, rove: '',
      },
      onclick: () => rewriteDialog(app, { id, pig, pkt, version }, packet),
    }),
    move('up', pkt - 1), move('down', pkt + 1),
    button({ icon: 'cross', title: `Take out: delete ${place}`, class: 'quiet danger', data: { key: `out ${pig} ${pkt}`, rove: '' }, onclick: () => app.do(`delete ${place}`) }));
}
