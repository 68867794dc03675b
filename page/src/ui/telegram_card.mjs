// @ts-check
/** One telegram of the group that is shown: its room, its header, its packets, its bits. */
import { packetBits } from '../core/bits.mjs';
import { HEADER_SET, packetName } from '../core/variables.mjs';
import { bitsView } from './bits_view.mjs';
import { button, h, put } from './dom.mjs';
import { insertDialog } from './forms.mjs';
import { packetCard } from './packet_card.mjs';
import { tile } from './tile.mjs';

/**
 * @param {import('./group.mjs').Shown} shown @param {{id: string, telegram: any, pig: number, digits: string}} of
 * @param {import('../core/diff.mjs').TelegramDiff | undefined} diff
 */
export function telegramCard(shown, { id, telegram, pig, digits }, diff) {
  const bits = packetBits(telegram, digits);
  const box = h('div.bits-box');
  const show = () => put(box, shown.withBits.has(pig) && bitsView(telegram, digits, new Set(diff?.bits ?? []), card));
  const card = h('article.card', { data: { telegram: pig }, tabindex: -1, 'aria-label': `Balise ${pig}` },
    cardHead(shown, { id, telegram, pig, digits }, show),
    h('div.tiles.header-tiles', null, headerTiles(shown, { id, telegram, pig }, diff)),
    telegram.packets.length === 0 && h('p.empty.muted.small', null, 'No packets.'),
    telegram.packets.map((/** @type {any} */ packet, /** @type {number} */ pkt) =>
      packetCard(shown, { id, pig, pkt, count: telegram.packets.length, version: telegram.m_version }, packet, bits[pkt], diff?.packets.find((each) => each.after === pkt))),
    diff?.packets.filter((each) => each.kind === 'removed').map(({ number }) => h('p.gone', null,
      `Packet ${number}, ${packetName(number)}, was taken out here.`)),
    box);
  show();
  return card;
}

/**
 * @param {import('./group.mjs').Shown} shown @param {{id: string, telegram: any, pig: number, digits: string}} of
 * @param {() => void} show the bits, or not
 */
function cardHead({ app, withBits }, { id, telegram, pig, digits }, show) {
  const room = `${telegram.used} of ${telegram.bits} bits used`;
  const toggle = button({
    icon: 'bits', text: 'Bits', class: 'quiet', 'aria-expanded': String(withBits.has(pig)), 'aria-label': `Bits of balise ${pig}`, data: {
      rove: '', key: `bits ${pig}`,
    },
    onclick: () => {
      if (!withBits.delete(pig)) withBits.add(pig);
      toggle.setAttribute('aria-expanded', String(withBits.has(pig)));
      show();
    },
  });
  return h('header', null,
    h('h3', null, h('span.balise', { 'aria-hidden': 'true' }), `Balise ${pig}`),
    h('span.meter', { title: room, role: 'img', 'aria-label': room },
      h('i', { style: { width: (100 * telegram.used) / telegram.bits + '%' } })),
    h('span.muted.small', null, `${telegram.bits - telegram.used} of ${telegram.bits} bits free`),
    h('div.buttons', null, toggle, button({
      icon: 'plus', text: 'Packet', class: 'quiet', title: `insert ${id} ${pig} AT HEX`, 'aria-label': `Put a packet into balise ${pig}`, data: {
        key: `insert ${pig}`, rove: '',
      },
      onclick: () => insertDialog(app, { id, pig, telegram, digits }),
    })));
}

/**
 * @param {import('./group.mjs').Shown} shown @param {{id: string, telegram: any, pig: number}} of
 * @param {import('../core/diff.mjs').TelegramDiff | undefined} diff
 */
function headerTiles(shown, { id, telegram, pig }, diff) {
  return [
    tile(shown, { name: 'M_VERSION', value: telegram.m_version }),
    ...Object.entries(HEADER_SET).map(([name, key]) => tile(shown, {
      name, value: telegram[key], before: diff?.header.find((each) => each.name === name)?.before, at: `${pig} ${name}`,
      command: (value) => `seth ${id} ${pig} ${name} ${value}`,
    })),
  ];
}
