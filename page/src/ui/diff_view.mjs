// @ts-check
/** Differences between two forms of groups: rows of fields, before and after. For the changes, and for the checker. */
import { spansOf } from '../core/bits.mjs';
import { meaning, packetName } from '../core/variables.mjs';
import { h } from './dom.mjs';

const DID = /** @type {Record<string, string>} */ ({
  changed: 'changed', added: 'put in', removed: 'taken out', moved: 'moved',
});
/** Fields that follow from the others, so that they say nothing beside them. */
const IMPLIED = ['NID_PACKET', 'L_PACKET', 'N_ITER', 'Q_NEWCOUNTRY'];

/**
 * @typedef {object} Options
 * @property {(diff: any) => void} [jump] to the group of a difference
 * @property {[string, string]} [columns]
 * @property {boolean} [bits] whether the bits are shown too
 * @property {string} [tone] `delivered` where the second column is the fault
 */

/** @param {any} diff a GroupDiff, perhaps with index, digits and views @param {Options} [options] */
export function groupDiff(diff, options = {}) {
  const { jump, columns = ['before', 'after'], bits = false, tone = '' } = options;
  const renamed = diff.before && diff.after && diff.before !== diff.after;
  const name = renamed ? `${diff.before} → ${diff.after}` : diff.after || diff.before;
  const notes = [diff.kind === 'changed' ? '' : diff.kind === 'added' ? 'added' : 'taken out',
    diff.turned ? 'turned round' : ''].filter(Boolean);
  const rows = diff.telegrams.flatMap(telegramRows);
  return h('article.diff', { class: tone },
    h('header', null,
      jump && diff.index >= 0 ? h('button.id.mono.linkish', { type: 'button', onclick: () => jump(diff) }, name)
        : h('b.id.mono', null, name),
      notes.length > 0 && h('span.muted', null, notes.join(', '))),
    rows.length > 0 && h('div.scroll-x', null, h('table', null,
      h('thead', null, h('tr', null, ['place', 'variable', ...columns].map((word) => h('th', { scope: 'col' }, word)))),
      h('tbody', null, rows))),
    bits && diff.digits && diff.telegrams.map((/** @type {any} */ telegram) => bitRows(telegram, diff.digits, diff.views, columns)));
}

/** @param {number | null} before @param {number | null} after */
const moved = (before, after) => (before !== null && after !== null && before !== after ? `${before} → ${after}`
  : String(after ?? before));

/** @param {any} telegram a TelegramDiff */
function telegramRows(telegram) {
  const balise = `balise ${moved(telegram.before, telegram.after)}`;
  if (telegram.before === null || telegram.after === null) return [noteRow(balise, telegram.before === null ? 'put in' : 'taken out')];
  const rows = telegram.header.map((/** @type {any} */ field) => fieldRow(`${balise}, header`, field));
  for (const packet of telegram.packets) rows.push(...packetRows(
    `${balise}, packet ${moved(packet.before, packet.after)}`, packet));
  if (telegram.padding) rows.push(noteRow(balise, 'padding'));
  return rows;
}

/** @param {string} place @param {any} packet a PacketDiff */
function packetRows(place, packet) {
  const name = `${packet.number} ${packetName(packet.number)}`;
  const note = packet.kind !== 'changed' ? `${name}: ${DID[packet.kind]}` : packet.content ? `content of ${name}` : '';
  const fields = packet.kind === 'moved' ? []
    : packet.fields.filter((/** @type {any} */ field) => !IMPLIED.includes(field.name));
  return [note && noteRow(place, note, 'is-' + packet.kind),
    ...fields.map((/** @type {any} */ field) => fieldRow(place, field, packet.scale))].filter(Boolean);
}

/** @param {string} place @param {string} note @param {string} [className] */
const noteRow = (place, note, className = '') => h('tr', { class: className }, h('td.muted', null, place),
  h('td', { colspan: 3 }, note));

/** @param {string} place @param {any} field @param {number} [scale] */
function fieldRow(place, field, scale) {
  /** @param {string} tag @param {number | null} value */
  const cell = (tag, value) => {
    if (value === null) return h('td.' + tag, null);
    const words = meaning(field.name, value, scale);
    return h('td.' + tag, null, h('span', null, words || value), words && h('span.raw', null, value));
  };
  return h('tr', null, h('td.muted', null, place),
    h('td.mono', null, field.name, field.k > 0 && h('sub', null, field.k)), cell('minus', field.before),
    cell('plus', field.after));
}

/**
 * The bits of both forms, field by field.
 * @param {any} telegram @param {[string[], string[]]} digits @param {any[]} views both groups @param {[string, string]} columns
 */
function bitRows(telegram, digits, views, columns) {
  if (telegram.before === null || telegram.after === null || telegram.bits.length === 0) return null;
  const differ = new Set(telegram.bits);
  /** @param {string} tag @param {number} side @param {number} pig */
  const row = (tag, side, pig) => h('div.bit-row', null, h('span.muted.small', null, columns[side]),
    h('div.bits.mono.' + tag, null, spansOf(views[side].telegrams[pig], digits[side][pig]).map((span) => bitSpan(span, differ))));
  const count = telegram.bits.length === 1 ? '1 bit differs' : `${telegram.bits.length} bits differ`;
  return h('details.bit-diff', null, h('summary', null,
    `${count} in balise ${telegram.after}: ${ranges(telegram.bits)}`),
    row('minus', 0, telegram.before), row('plus', 1, telegram.after));
}

/** @param {import('../core/bits.mjs').Span} span @param {Set<number>} differ places of the bits that differ */
export function bitSpan(span, differ) {
  const marked = [...span.bits].map((bit, i) => (differ.has(span.start + i) ? h('mark', null, bit) : bit));
  const title = `${span.name}${span.packet >= 0 ? `, packet ${span.packet}` : ''}, from bit ${span.start}`;
  return h('span', { class: `span ${span.kind}${span.packet >= 0 ? ' c' + (span.packet % 4) : ''}`, title },
    marked.some((each) => typeof each !== 'string') ? marked : span.bits);
}

/** @param {number[]} places */
function ranges(places) {
  const found = [];
  for (let i = 0; i < places.length; i += 1) {
    const first = places[i];
    while (places[i + 1] === places[i] + 1) i += 1;
    found.push(first === places[i] ? String(first) : `${first}–${places[i]}`);
  }
  return found.slice(0, 12).join(', ') + (found.length > 12 ? ' …' : '');
}
