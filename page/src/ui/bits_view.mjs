// @ts-check
/** The bits of a telegram, field by field. Pointing at one shows its value in the telegram, and the other way round. */
import { spansOf } from '../core/bits.mjs';
import { bitSpan } from './diff_view.mjs';
import { h, put } from './dom.mjs';

/** @param {import('../core/bits.mjs').Span} span */
function spanWords({ kind, name, start, bits, packet }) {
  const value = kind === 'field' || kind === 'header' ? `  = ${parseInt(bits, 2)}` : '';
  return `bits ${start}–${start + bits.length - 1}  ${name}${packet >= 0 ? `  packet ${packet}` : ''}${value}`;
}

/**
 * Whether a tile shows a span.
 * @param {string[]} at words of its place @param {import('../core/bits.mjs').Span} span
 */
function isOf(at, { packet, name, k, kind }) {
  return at.length === 4 ? packet === Number(at[1]) && name === at[2] && k === Number(at[3])
    : kind === 'header' && name === at[1];
}

/**
 * @param {any} telegram @param {string} digits @param {Set<number>} differ @param {HTMLElement} card that has the tiles
 */
export function bitsView(telegram, digits, differ, card) {
  const spans = spansOf(telegram, digits);
  const wrong = spans.filter((span) => !span.agrees);
  const info = h('p.bits-info.mono', { 'aria-live': 'off' }, '\u00a0');
  const elements = spans.map((span) => bitSpan(span, differ));
  const tiles = () => /** @type {HTMLElement[]} */ ([...card.querySelectorAll('.tile[data-at]')]);
  /** @param {number} n */
  const light = (n) => {
    for (const old of card.querySelectorAll('.lit')) old.classList.remove('lit');
    put(info, n < 0 ? '\u00a0' : spanWords(spans[n]));
    if (n < 0) return;
    elements[n].classList.add('lit');
    for (const each of tiles()) if (isOf((each.dataset.at ?? '').split(' '), spans[n])) each.classList.add('lit');
  };
  card.onpointerover = (event) => {
    const at = /** @type {HTMLElement} */ (event.target).closest('.tile[data-at]')?.getAttribute('data-at')?.split(' ');
    if (at) light(spans.findIndex((span) => isOf(at, span)));
  };
  return h('div', null,
    wrong.length > 0 && h('p.refusal', null,
      `Of ${wrong.map((span) => span.name).join(', ')} the bits shown aren’t the engine’s value. Trust the values.`),
    h('div.bits.mono', {
      onpointerover: (/** @type {any} */ event) => light(elements.indexOf(event.target.closest?.('.span'))), onpointerleave: () => light(-1),
    }, elements),
    info, h('p.hex.mono', null, digits),
    h('p.muted.small', null, 'Header grey, packets in turns of colour, packet 255 underlined, padding pale. Marked bits differ from the base plan.'));
}
