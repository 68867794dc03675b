// @ts-check
/** The groups of the plan: search, filters, and a list of which only the rows in sight exist. */
import { unknownPackets } from '../core/links.mjs';
import { namesGroups } from '../core/variables.mjs';
import { button, h, icon, plural, put } from './dom.mjs';
import { addDialog } from './forms.mjs';
import { VirtualList } from './list.mjs';

/** @typedef {'all'|'changed'|'review'|'dangling'|'unknown'} Filter */

/**
 * The signs of the filters, as they stand in the rows, with what they say.
 * @type {Record<string, {name: string, says: string, sign: () => any}>}
 */
const SIGNS = {
  dangling: {
    name: 'Dangling', says: 'has a link to a group that the plan hasn’t',
    sign: () => h('span.dangles', null, icon('warn')),
  },
  unknown: {
    name: 'Unknown', says: 'has packets whose content a renumbering doesn’t follow',
    sign: () => h('span.unknown', null, icon('unknown')),
  },
  review: { name: 'Review', says: 'has distances to review', sign: () => h('i.sign-review') },
  changed: { name: 'Changed', says: 'differs from the base plan', sign: () => h('i.sign-changed') },
};

/**
 * Whether a group is what was looked for: `5.200`, a number, or `p65`.
 * @param {import('./app.mjs').Summary} group @param {string} text
 */
function matches({ id, packets }, text) {
  const packet = /^p(\d+)$/i.exec(text)?.[1];
  if (packet !== undefined) return packets.split(/[ |?]+/).includes(packet);
  return id.startsWith(text) || id.slice(id.indexOf('.') + 1).startsWith(text);
}

/** @param {import('./app.mjs').App} app */
export function groupsPanel(app) {
  return new GroupsPanel(app).element;
}

class GroupsPanel {
  /** @param {import('./app.mjs').App} app */
  constructor(app) {
    this.app = app;
    /** @type {Filter} */ this.filter = 'all';
    /** @type {Record<Exclude<Filter, 'all'>, Set<number>>} */
    this.sets = { changed: new Set(), review: new Set(), dangling: new Set(), unknown: new Set() };
    this.search = h('input', {
      id: 'search', type: 'search', placeholder: '5.200, or p65', 'aria-label': 'Look for a group by identity, or for a packet as p65',
      autocomplete: 'off', spellcheck: 'false', oninput: () => this.list(), onkeydown: (/** @type {KeyboardEvent} */ event) => this.#key(event),
    });
    this.chips = h('div.chips', { role: 'group', 'aria-label': 'Filter' });
    this.count = h('p.muted.small.count', { role: 'status' });
    this.rows = new VirtualList({
      id: 'groups', label: 'Groups', rowHeight: 38,
      onselect: (item) => { app.select(item); app.emit('pane', 'group'); },
      render: (item) => this.#row(app.groups[item], item),
    });
    const add = button({
      icon: 'plus', text: 'Add', class: 'quiet', title: 'add AT HEX ..', 'aria-label': 'Add a group',
      onclick: () => addDialog(app, app.selected + 1),
    });
    this.element = h('section.panel.groups', { 'aria-label': 'Groups' },
      h('div.search', null, icon('search'), this.search), this.chips, this.rows.element, h('div.foot', null, this.count, add));
    app.on('plan', () => { this.#findUnknown(); this.list(); this.#findReviews(); });
    app.on('decoded', () => { if (app.whole) this.#findUnknown(); this.list(); });
    app.on('links', () => this.list());
    app.on('reviews', () => this.#findReviews());
    app.on('select', () => this.rows.select(app.selected));
  }

  /**
   * From the search to the list.
   * @param {KeyboardEvent} event
   */
  #key(event) {
    if (event.key !== 'ArrowDown' && event.key !== 'Enter') return;
    const { app, rows } = this;
    event.preventDefault();
    rows.element.focus();
    if (rows.items.length > 0 && (event.key === 'Enter' || rows.at(app.selected) < 0)) app.select(rows.items[0]);
  }

  /** @param {import('./app.mjs').Summary | undefined} group @param {number} item */
  #row(group, item) {
    if (!group) return [];
    const packets = group.pending ? '…' : group.packets.replaceAll('|', ' | ') || '–';
    const signs = Object.entries(SIGNS).filter(([key]) => this.sets[/** @type {Exclude<Filter, 'all'>} */ (key)].has(item));
    return [
      h('span.id.mono', { title: `place ${item}` }, group.id),
      h('span.packets.mono',
        { title: `${plural(group.balises, 'balise')}, packets by telegram, ? after those that the engine doesn’t know` },
        packets),
      h('span.marks', null,
        signs.map(([, { says, sign }]) => h('span.mark', { role: 'img', 'aria-label': says, title: says }, sign()))),
    ];
  }

  async #findReviews() {
    const { app } = this;
    const open = app.waitingReviews;
    const places = open.length > 0 ? await app.worker.call('find', { paths: open.map(({ path }) => path) }) : [];
    this.sets.review = new Set(places.flatMap((/** @type {any} */ place) => (place ? [place.group] : [])));
    this.list();
  }

  #findUnknown() {
    this.sets.unknown = new Set();
    for (const [i, group] of this.app.groups.entries()) if (group.packets.includes('?')) this.sets.unknown.add(i);
  }

  /** Shows the groups that filter and search let through. */
  list() {
    const { app, sets, filter, rows } = this;
    sets.changed = app.changed;
    sets.dangling = app.dangling;
    const text = this.search.value.trim();
    const only = filter === 'all' ? null : sets[filter];
    const items = [];
    for (let i = 0; i < app.groups.length; i += 1) if ((!only || only.has(i))
      && (!text || matches(app.groups[i], text))) items.push(i);
    rows.show(items);
    rows.select(app.selected, false);
    const all = plural(app.groups.length, 'group');
    put(this.count,
      !app.whole ? `Reading the packets, ${Math.round(app.read * 100)} %` : items.length === app.groups.length ? all : `${items.length} of ${all}`);
    const focused = [...this.chips.children].indexOf(document.activeElement);
    put(this.chips, this.#chip('all', 'All', null),
      Object.entries(SIGNS).reverse().map(([key, { name, sign }]) => this.#chip(/** @type {Filter} */ (key), name, sign())));
    this.chips.children[focused]?.focus();
  }

  /** @param {Filter} key @param {string} name @param {any} sign */
  #chip(key, name, sign) {
    const number = key === 'all' ? 0 : this.sets[key].size;
    const choose = () => { this.filter = key; this.list(); };
    return h('button.chip', {
      type: 'button', 'aria-pressed': String(this.filter === key), title: SIGNS[key]?.says, onclick: choose,
    },
      sign, name, number > 0 && h('b', null, number));
  }
}

/**
 * Groups with packets that a renumbering doesn't follow, in words.
 * @param {import('./app.mjs').Summary[]} groups
 */
export function unknownWords(groups) {
  const numbers = new Set(groups.flatMap(unknownPackets));
  const naming = [...numbers].filter(namesGroups);
  if (numbers.size === 0) return '';
  const list = [...numbers].sort((a, b) => a - b).join(', ');
  return `packets ${list}` + (naming.length > 0 ? `, of which ${naming.join(', ')} name groups` : '');
}
