// @ts-check
/** A list of which only the rows in sight exist. A listbox for keyboard and screen reader. */
import { h } from './dom.mjs';

export class VirtualList {
  /**
   * @param {{label: string, rowHeight: number, render: (item: number, at: number) => Node[], onselect: (item: number) => void, id: string}} options
   */
  constructor(options) {
    this.options = options;
    /** @type {ArrayLike<number>} */
    this.items = [];
    this.selected = -1; // item
    this.inner = h('div.rows', { role: 'presentation' });
    this.element = h('div.list', {
      id: options.id, role: 'listbox', tabindex: 0, 'aria-label': options.label,
      onscroll: () => this.#paint(), onkeydown: (/** @type {KeyboardEvent} */ event) => this.#key(event),
      onclick: (/** @type {MouseEvent} */ event) => this.#click(event),
    }, this.inner);
    new ResizeObserver(() => this.#paint()).observe(this.element);
  }

  /** @param {ArrayLike<number>} items */
  show(items) {
    this.items = items;
    this.inner.style.height = items.length * this.options.rowHeight + 'px';
    this.#paint();
  }

  /** @param {number} item @param {boolean} [reveal] */
  select(item, reveal = true) {
    this.selected = item;
    const at = this.at(item);
    if (reveal && at >= 0) {
      const { rowHeight } = this.options;
      const { scrollTop, clientHeight } = this.element;
      if (at * rowHeight < scrollTop
        || (at + 1) * rowHeight > scrollTop + clientHeight) this.element.scrollTop = at * rowHeight - clientHeight / 3;
    }
    this.#paint();
  }

  /** @param {number} item */
  at(item) {
    return Array.prototype.indexOf.call(this.items, item);
  }

  #paint() {
    const { rowHeight } = this.options;
    const { scrollTop, clientHeight } = this.element;
    const first = Math.max(0, Math.floor(scrollTop / rowHeight) - 4);
    const last = Math.min(this.items.length, Math.ceil((scrollTop + clientHeight) / rowHeight) + 4);
    this.inner.replaceChildren(...Array.from({ length: Math.max(0, last - first) }, (_, i) => this.#row(first + i)));
    const active = this.inner.querySelector('[aria-selected=true]');
    if (active) this.element.setAttribute('aria-activedescendant', active.id);
    else this.element.removeAttribute('aria-activedescendant');
  }

  /** @param {number} at */
  #row(at) {
    const { rowHeight, render, id } = this.options;
    const item = this.items[at];
    const on = item === this.selected;
    return h('div.row', {
      id: `${id}-${at}`, role: 'option', class: on ? 'on' : '', style: { top: at * rowHeight + 'px', height: rowHeight + 'px' },
      'aria-selected': String(on), 'aria-setsize': this.items.length, 'aria-posinset': at + 1,
    }, render(item, at));
  }

  /**
   * The row is told by the place of the pointer: the rows may be drawn anew between its down and its up.
   * @param {MouseEvent} event
   */
  #click(event) {
    const { rowHeight, onselect } = this.options;
    const at = Math.floor((event.clientY - this.inner.getBoundingClientRect().top) / rowHeight);
    if (at >= 0 && at < this.items.length) onselect(this.items[at]);
  }

  /** @param {KeyboardEvent} event */
  #key(event) {
    const page = Math.max(1, Math.floor(this.element.clientHeight / this.options.rowHeight) - 1);
    const at = this.at(this.selected);
    /** @type {Record<string, number>} */
    const moves = {
      ArrowDown: at + 1, ArrowUp: at - 1, PageDown: at + page, PageUp: at - page, Home: 0, End: this.items.length - 1,
    };
    const to = moves[event.key];
    if (to === undefined || this.items.length === 0) return;
    event.preventDefault();
    this.options.onselect(this.items[Math.min(this.items.length - 1, Math.max(0, to))]);
  }
}
