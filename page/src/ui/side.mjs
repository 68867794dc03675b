// @ts-check
/** The right side: edits, worklist and changes, one at a time. */
import { changesPane } from './changes.mjs';
import { editsPane } from './edits.mjs';
import { h, put } from './dom.mjs';
import { worklistPane } from './worklist.mjs';

const TABS = /** @type {const} */ ([['edits', 'Edits'], ['reviews', 'Worklist'], ['changes', 'Changes']]);
/** @typedef {'edits'|'reviews'|'changes'} Tab */

/** @param {import('./app.mjs').App} app */
export function sidePanel(app) {
  /** @type {Tab} */
  let tab = 'edits';
  const bar = h('div.tabs', { role: 'tablist', 'aria-label': 'Side' });
  const panes = { edits: editsPane(app), reviews: worklistPane(app), changes: changesPane(app) };
  const body = h('div.side-body');

  function paint() {
    const counts = { edits: app.standing, reviews: app.waitingReviews.length, changes: app.changed.size };
    put(bar, TABS.map(([key, name], i) => h('button.tab', {
      type: 'button', role: 'tab', id: 'tab-' + key, 'aria-selected': String(tab === key), 'aria-controls': 'pane-' + key, tabindex: tab === key
        ? 0 : -1,
      onclick: () => choose(key), onkeydown: (/** @type {KeyboardEvent} */ event) => step(event, i),
    }, name, counts[key] > 0 && h('b', { class: key === 'reviews' ? 'amber' : '' }, counts[key]))));
  }

  /** @param {KeyboardEvent} event @param {number} i */
  function step(event, i) {
    const way = { ArrowRight: 1, ArrowLeft: -1 }[event.key];
    if (!way) return;
    choose(TABS[(i + way + TABS.length) % TABS.length][0]);
    /** @type {HTMLElement} */ (bar.querySelector('[aria-selected=true]')).focus();
  }

  /** @param {Tab} key */
  function choose(key) {
    const focused = bar.contains(document.activeElement);
    tab = key;
    paint();
    put(body,
      h('div.pane', { role: 'tabpanel', id: 'pane-' + key, 'aria-labelledby': 'tab-' + key }, panes[key].element));
    panes[key].show();
    if (focused) document.getElementById('tab-' + key)?.focus();
  }

  const refresh = () => { paint(); panes[tab].show(); };
  app.on('plan', refresh);
  app.on('reviews', refresh);
  app.on('words', refresh);
  app.on('side', choose);
  app.on('edit', (serial) => { choose('edits'); app.emit('pane', 'side'); panes.edits.choose(serial); });
  choose('edits');
  return h('section.panel.side', { 'aria-label': 'Edits, worklist and changes' }, bar, body);
}
