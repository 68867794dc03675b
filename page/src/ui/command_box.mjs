// @ts-check
/** The box for commands: one or several lines, with completion and a history. */
import { complete } from '../core/complete.mjs';
import { commandsOf } from '../core/commands.mjs';
import { packetItem } from '../core/items.mjs';
import { LAYOUTS, blankFields } from '../core/layouts.mjs';
import { h, put } from './dom.mjs';

/** @typedef {{run: () => void, tryOut: () => void}} Actions */

export class CommandBox {
  /** @param {import('./app.mjs').App} app @param {Actions} actions */
  constructor(app, actions) {
    this.app = app;
    this.actions = actions;
    /** @type {string[]} */ this.history = [];
    this.past = 0;
    /** @type {import('../core/complete.mjs').Choice[]} */ this.choices = [];
    this.choice = -1;
    this.from = 0;
    /** @type {Map<string, any>} groups decoded for completion, of one version of the plan */ this.decoded = new Map();
    app.on('plan', () => { this.decoded = new Map(); });
    /** @type {Map<number, {number: number, digits: string}[]>} blank packets by M_VERSION */ this.blank = new Map();
    this.input = h('textarea.mono', {
      id: 'command', rows: 1, placeholder: 'set 5.200 1 0 V_TSR 0 6', 'aria-label': 'Commands, one a line', role: 'combobox', 'aria-expanded': 'false',
      'aria-controls': 'choices', 'aria-autocomplete': 'list', spellcheck: 'false', autocomplete: 'off', autocapitalize: 'off',
      oninput: () => this.#typed(), onkeydown: (/** @type {KeyboardEvent} */ event) => this.#key(event),
      onblur: () => setTimeout(() => this.hide(), 150), onfocus: () => this.#suggest(),
    });
    this.list = h('ul.choices', { id: 'choices', role: 'listbox', 'aria-label': 'Completions', hidden: true });
    this.element = h('div.box', null, this.input, this.list);
  }

  get commands() {
    return commandsOf(this.input.value);
  }

  /** @param {string} text */
  set(text) {
    this.input.value = text;
    this.#typed();
    this.hide();
  }

  /**
   * After a run: the commands go to the history, and out of the box where they were kept.
   * @param {boolean} kept
   */
  ran(kept) {
    this.history.push(...this.commands);
    this.past = this.history.length;
    if (kept) this.set('');
  }

  #typed() {
    this.input.rows = Math.min(8, this.input.value.split('\n').length);
    this.#suggest();
    this.app.keepDraft(this.input.value);
  }

  /**
   * The decoded group that a command names.
   * @param {string} id
   */
  #group(id) {
    if (this.decoded.has(id)) return this.decoded.get(id);
    const index = this.app.byId.get(id);
    if (index === undefined) return undefined;
    this.decoded.set(id, undefined);
    this.app.worker.call('look', { indexes: [index] }).then(([look]) => {
      this.decoded.set(id, look.group);
      if (document.activeElement === this.input) this.#suggest();
    });
    return undefined;
  }

  /**
   * The blank packets that the engine makes for telegrams of a version; those that it doesn't know there are left out.
   * @param {number} version
   */
  #blanks(version) {
    const known = this.blank.get(version);
    if (known) return known;
    this.blank.set(version, []);
    const numbers = Object.keys(LAYOUTS).map(Number);
    this.app.worker.call('spell', { items: numbers.map((number) => packetItem(version, blankFields(number))) }).then((spelt) => {
      this.blank.set(version, numbers.flatMap((number, i) => (spelt[i].bad ? [] : [{ number, digits: spelt[i].digits }])));
      if (document.activeElement === this.input) this.#suggest();
    }, () => this.blank.delete(version));
    return [];
  }

  /** @param {string} start @param {number} most */
  #identities(start, most) {
    const ids = [];
    for (const { id } of this.app.groups) if (id.startsWith(start) && ids.push(id) >= most) break;
    return ids;
  }

  #suggest() {
    const { value, selectionStart } = this.input;
    if (!this.app.loaded || value === '' || value.includes('\n')) return this.hide();
    const found = complete(value.slice(0, selectionStart), {
      identities: (start, most) => this.#identities(start, most), group: (id) => this.#group(id),
      standing: () => this.app.edits.filter((edit) => edit.stands).reverse(), blanks: (version) => this.#blanks(version),
    });
    this.choices = found.choices;
    this.from = found.from;
    this.choice = -1;
    this.list.hidden = this.choices.length === 0;
    this.input.setAttribute('aria-expanded', String(!this.list.hidden));
    this.#mark();
  }

  #mark() {
    put(this.list, this.choices.map(({ text, hint }, i) => h('li', {
      id: 'choice-' + i, role: 'option', 'aria-selected': String(i === this.choice),
      onmousedown: (/** @type {Event} */ event) => { event.preventDefault(); this.#take(i); },
    }, h('b.mono', null, text), h('span.muted', null, hint))));
    if (this.choice >= 0) this.input.setAttribute('aria-activedescendant', 'choice-' + this.choice);
    else this.input.removeAttribute('aria-activedescendant');
  }

  hide() {
    this.list.hidden = true;
    this.input.setAttribute('aria-expanded', 'false');
  }

  /** @param {number} i */
  #take(i) {
    this.input.value = this.input.value.slice(0, this.from) + this.choices[i].text + ' ';
    this.#typed();
  }

  /** @param {1 | -1} step */
  #step(step) {
    const { length } = this.choices;
    this.choice = this.choice < 0 ? (step > 0 ? 0 : length - 1) : (this.choice + step + length) % length;
    this.#mark();
  }

  /** @param {1 | -1} step */
  #recall(step) {
    this.past = Math.max(0, Math.min(this.history.length, this.past + step));
    this.set(this.history[this.past] ?? '');
  }

  /** @param {KeyboardEvent} event */
  #key(event) {
    const { key, ctrlKey, shiftKey } = event;
    const shown = !this.list.hidden;
    const step = key === 'ArrowDown' ? 1 : key === 'ArrowUp' ? -1 : 0;
    const oneLine = !this.input.value.includes('\n');
    if (step && shown) this.#step(step);
    else if (step && oneLine && this.history.length > 0) this.#recall(step);
    else if (key === 'Tab' && shown && !shiftKey) this.#take(Math.max(0, this.choice));
    else if (key === 'Escape' && shown) this.hide();
    else if (key === 'Enter' && ctrlKey) this.actions.tryOut();
    else if (key === 'Enter' && !shiftKey && shown && this.choice >= 0) this.#take(this.choice);
    else if (key === 'Enter' && !shiftKey) this.actions.run();
    else return;
    event.preventDefault();
  }
}
