// @ts-check
/** What turns left for a person to look at: ticked off, or answered by a later edit of the same place. */
import { VARIABLES, packetName, rawValue } from '../core/variables.mjs';
import { button, h, put } from './dom.mjs';

/**
 * @typedef {import('./app.mjs').App} App
 * @typedef {import('./app.mjs').Review} Review
 * @typedef {{group: number, pig: number, pkt: number, id: string} | null} Place
 * @typedef {{review: Review, place: Place}} Item
 */

/** @param {App} app */
export function worklistPane(app) {
  const element = h('div.reviews-pane');
  let next = -1; // the review that gets the focus once the list is drawn anew

  async function show() {
    const reviews = app.openReviews;
    const given = givenWords(app.turnsGiven);
    const note = given ? h('p.amber', null, given) : null;
    if (reviews.length === 0) return put(element, note ??
      h('p.empty.muted', null, 'Nothing to work through. A turn of a group of several balises lists here the distances and unknown packets that a person has to check.'));
    const places = await app.worker.call('find', { paths: reviews.map(({ path }) => path) });
    /** @type {Item[]} */
    const items = reviews.map((review, i) => ({ review, place: places[i] }));
    const turns = [...new Set(reviews.map(({ turn }) => turn))].reverse();
    put(element, note,
      turns.map((turn) => turnSection(app, turn, items.filter(({ review }) => review.turn === turn), (id) => { next = id; })));
    const input = /** @type {HTMLInputElement | null} */ (element.querySelector(`[data-review="${next}"]`));
    input?.focus();
    input?.select?.();
    next = -1;
  }
  return { element, show };
}

/**
 * What is said of turns that came with the journal.
 * @param {import('../core/words.mjs').Edit[]} turns
 */
function givenWords(turns) {
  if (turns.length === 0) return '';
  const which = turns.length === 1 ? `A turn came with the journal: of ${turns[0].where}, edit ${turns[0].s}.`
    : `Turns came with the journal: edits ${turns.slice(0, 12).map(({ s }) => s).join(', ')}${turns.length > 12 ? ' and more' : ''}.`;
  return `${which} A journal doesn’t have what a turn leaves to look at: distances and unknown packets. See where it was done whether that was worked through.`;
}

/** @param {App} app @param {number} turn @param {Item[]} items @param {(id: number) => void} focusNext */
function turnSection(app, turn, items, focusNext) {
  const done = items.filter(({ review }) => review.done || app.answered(review)).length;
  const words = `${done} of ${items.length} done`;
  const where = app.edits.find(({ s }) => s === turn)?.where ?? '?';
  return h('section.turn', { 'aria-label': `Turn of ${where}` },
    h('header', null, h('h3', null, `Turn of ${where}`), h('span.muted.small', null, `edit ${turn} · ${words}`)),
    h('progress', { value: String(done), max: items.length, 'aria-label': words }),
    h('ol', null, items.map((item) => reviewRow(app, item, focusNext))));
}

/** @param {App} app @param {Item} item @param {(id: number) => void} focusNext */
function reviewRow(app, { review, place }, focusNext) {
  const answer = app.answered(review);
  const where = place ? `${place.id}, balise ${place.pig}, packet ${place.pkt}` : 'not in the plan now';
  const words = review.opaque ? `packet ${review.value} of ${where}` : `${review.name} of ${where}`;
  const tick = h('label.check', { title: 'Looked at; right as it is' },
    h('input',
      { type: 'checkbox', checked: review.done || answer !== undefined, disabled: answer !== undefined, onchange: (/** @type {any} */ event) => app.mark(review, event.target.checked) }),
    h('span.sr', null, `done: ${words}`));
  const jump = place && button({
    icon: 'jump', title: `Show ${words}`, class: 'quiet',
    onclick: () => app.jump(review.opaque ? place : { ...place, name: review.name, k: review.k }),
  });
  const className = review.done || answer ? 'done' : '';
  if (review.opaque) return h('li', { class: className }, tick, h('div.words', null,
    h('span', null, `Packet ${review.value}, ${packetName(review.value)}: look at its content by hand`), h('small.muted', null, where)), jump);
  return h('li', { class: className }, tick,
    h('div.words', null,
      h('span', { title: VARIABLES[review.name]?.what }, h('b.mono', null, review.name),
        review.k > 0 && h('sub', null, review.k), h('span.muted', null, answer ? ` was ${review.value}` : '')),
      h('small.muted', null, where, answer ? ` · edit ${answer.s}` : '')),
    valueForm(app, { review, place }, words, focusNext), jump);
}

/**
 * The value of a review with the command that sets it. Enter sets it and goes on to the next.
 * @param {App} app @param {Item} item @param {string} words @param {(id: number) => void} focusNext
 */
function valueForm(app, { review, place }, words, focusNext) {
  const answer = app.answered(review);
  const value = answer ? answer.what.split('→')[1].trim().split(' ')[0] : review.value;
  const input = h('input.mono',
    { value: String(value), 'aria-label': words, data: { review: review.id }, size: 6, spellcheck: 'false', autocomplete: 'off' });
  const set = h('button', { type: 'submit', disabled: !place, 'aria-label': `Set ${words}` }, 'Set');
  const command = () => {
    const raw = rawValue(review.name, input.value);
    return 'error' in raw || !place ? null
      : `set ${place.id} ${place.pig} ${place.pkt} ${review.name} ${review.k} ${raw.value}`;
  };
  const hint = () => {
    set.title = command() ?? 'a whole number';
    set.disabled = command() === null;
  };
  input.addEventListener('input', hint);
  hint();
  const submit = (/** @type {Event} */ event) => {
    event.preventDefault();
    const line = command();
    if (!line) return;
    focusNext(app.waitingReviews.find((each) => each.id > review.id && !each.opaque)?.id ?? review.id);
    app.do(line);
  };
  return h('form', { onsubmit: submit }, input, set);
}

