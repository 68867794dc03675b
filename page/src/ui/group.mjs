// @ts-check
/** The group that is shown: its links, its telegrams decoded, each value with the command that sets it. */
import { diffGroup } from '../core/diff.mjs';
import { identity, linksOf } from '../core/links.mjs';
import { VARIABLES, metresText } from '../core/variables.mjs';
import { ask } from './dialogs.mjs';
import { button, h, icon, plural, put } from './dom.mjs';
import { closeEditor } from './editor.mjs';
import { renumberDialog } from './forms.mjs';
import { roving } from './rove.mjs';
import { telegramCard } from './telegram_card.mjs';

/**
 * @typedef {object} Shown what the parts of the view share
 * @property {import('./app.mjs').App} app
 * @property {Set<number>} withBits telegrams whose bits are shown, by PIG
 * @property {(selector: string) => void} refocus what has the focus after the group is drawn anew
 * @property {(at: string) => import('../core/words.mjs').Edit[]} editsOf the standing edits that set a place
 */

/** Links that are shown at once. */
const MOST_LINKS = 24;

/** @param {import('./app.mjs').App} app */
export function groupPanel(app) {
  const panel = h('section.panel.group', { 'aria-label': 'The group', tabindex: -1 });
  const stop = roving(panel, '[data-rove]');
  let shownId = '';
  let focus = '';
  let complete = false; // whether all links were known when the group was drawn
  /** @type {Shown} */
  const shown = {
    app, withBits: new Set(), refocus: (selector) => { focus = selector; }, editsOf: (at) => editsOf(app, at),
  };

  async function show() {
    closeEditor(false);
    const { selected, version } = app;
    const summary = app.groups[selected];
    if (!summary) return put(panel, h('p.empty.muted', null, app.loaded ? 'The plan has no group.' : ''));
    const [[look], naming] = await Promise.all([
      app.worker.call('look', { indexes: [selected] }), app.worker.call('naming', { identity: summary.id }),
    ]);
    if (app.selected !== selected || app.version !== version) return;
    if (shownId !== summary.id) {
      shown.withBits.clear();
      panel.scrollTop = 0;
    }
    shownId = summary.id;
    complete = app.whole;
    focus ||= focused(panel);
    put(panel, page(shown, look, naming));
    stop();
    if (focus) /** @type {HTMLElement} */ (panel.querySelector(focus) ?? panel).focus({ preventScroll: true });
    focus = '';
    goToSpot();
  }

  /** Goes to the place that was asked for: once, since a later drawing must not take the focus. */
  function goToSpot() {
    if (!app.spot) return;
    const { pig, pkt, name, k = 0 } = app.spot;
    app.spot = null;
    const place = name && pkt !== null ? `[data-at="${pig} ${pkt} ${name} ${k}"]` : name ? `[data-at="${pig} ${name}"]`
      : pkt !== null ? `[data-packet="${pig} ${pkt}"]` : `[data-telegram="${pig}"]`;
    const element = /** @type {HTMLElement | null} */ (panel.querySelector(place));
    element?.scrollIntoView({ block: 'center' });
    element?.classList.add('spot');
    element?.focus({ preventScroll: true });
  }

  app.on('select', show);
  app.on('words', () => { if (app.view === 'edit' && !document.querySelector('.editor')) show(); });
  app.on('links', () => { if (!complete && app.view === 'edit' && !document.querySelector('.editor')) show(); });
  return panel;
}

/**
 * A selector of what has the focus in the panel, so that the same has it after the panel is drawn anew.
 * @param {HTMLElement} panel
 */
function focused(panel) {
  const now = /** @type {HTMLElement} */ (document.activeElement);
  if (!panel.contains(now)) return '';
  const { key, at } = now.dataset;
  return key ? `[data-key="${key}"]` : at ? `[data-at="${at}"]` : '';
}

/** @param {import('./app.mjs').App} app @param {string} at */
function editsOf(app, at) {
  const [pig, second, name, k] = at.split(' ');
  return app.edits.filter(({ stands, place }) => stands && place && place.group === app.selected && place.pig === Number(pig)
    && (name ? place.pkt === Number(second) && place.name === name && place.k === Number(k) : place.pkt === null && place.name === second));
}

/** @param {Shown} shown @param {any} look @param {any[]} naming links of other groups that name it */
function page(shown, { group, digits, base }, naming) {
  const { app } = shown;
  const id = identity(group);
  const diff = base ? diffGroup(base, { group, digits }) : null;
  const from = base && identity(base.group);
  const note = !base ? ' · added' : from !== id ? ` · ${from} in the base plan` : '';
  return [
    h('header.group-head', null,
      button({
        icon: 'back', title: 'Back to the list', class: 'quiet only-narrow', onclick: () => app.emit('pane', 'groups'),
      }),
      h('div', null, h('h2.mono', null, id),
        h('p.muted', null, plural(group.telegrams.length, 'balise'), note, diff?.turned ? ' · turned' : '')),
      groupButtons(app, id, naming)),
    relations(app, linksOf(group), naming),
    group.telegrams.map((/** @type {any} */ telegram, /** @type {number} */ pig) =>
      telegramCard(shown, { id, telegram, pig, digits: digits[pig] }, diff?.telegrams.find((each) => each.after === pig))),
  ];
}

/** @param {import('./app.mjs').App} app @param {string} id @param {any[]} naming */
function groupButtons(app, id, naming) {
  const drop = async () => {
    const names = naming.slice(0, 8).map(({ from }) => from).join(', ') + (naming.length > 8 ? ' …' : '');
    const warning = naming.length > 0 && h('p', null,
      `${plural(naming.length, 'link')} of other groups will name nothing: ${names}. The engine accepts that.`);
    const content = [warning, h('p', null, 'You can undo it.'),
      h('div.runs', null, '› ', h('code', null, `drop ${id}`))];
    if (await ask(`Take ${id} out?`, content, ['Cancel', 'Drop'])) app.do(`drop ${id}`);
  };
  return h('div.buttons', null,
    button({
      icon: 'number', text: 'Renumber', data: { key: 'renumber' }, title: `renumber ${id} …`,
      onclick: () => renumberDialog(app, id),
    }),
    button({
      icon: 'turn', text: 'Turn', title: `turn ${id}`, data: { key: 'turn' }, onclick: () => app.do(`turn ${id}`),
    }),
    button({ icon: 'cross', text: 'Drop', class: 'danger', title: `drop ${id}`, data: { key: 'drop' }, onclick: drop }));
}

/** @param {import('./app.mjs').App} app @param {import('../core/links.mjs').Link[]} links @param {any[]} naming */
function relations(app, links, naming) {
  if (links.length + naming.length === 0) return null;
  /** @param {string} words @param {any[]} list @param {(link: any) => string} idOf */
  const row = (words, list, idOf) => list.length > 0 && h('div', null, h('span.muted', null, words),
    list.slice(0, MOST_LINKS).map((link) => linkChip(app, idOf(link), link)), list.length > MOST_LINKS && h('span.muted', null, ` and ${list.length - MOST_LINKS} more`));
  return h('div.relations', null, row('Links to ', links, ({ to }) => to),
    row('Named by ', naming, ({ from }) => from));
}

/** @param {import('./app.mjs').App} app @param {string} id @param {import('../core/links.mjs').Link} link */
function linkChip(app, id, { metres, nominal, dir }) {
  const missing = !app.byId.has(id);
  const passed = nominal === null ? '' : `, passed in its ${nominal ? 'nominal' : 'reverse'} direction`;
  const words = `${metres === null ? 'infill' : metresText(metres)}${passed}; for trains running ${VARIABLES.Q_DIR.values?.[dir]}`;
  return h('button.link-chip', {
    type: 'button', data: { rove: '' }, class: missing ? 'missing' : '',
    title: missing ? `${words}. The plan hasn’t this group.` : words, onclick: () => app.jumpTo(id),
  },
    missing && icon('warn'), h('span.mono', null, id), metres !== null && h('span.muted', null, metresText(metres)),
    nominal !== null && h('span.muted', { 'aria-hidden': 'true' }, nominal ? '▸' : '◂'));
}
