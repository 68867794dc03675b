// @ts-check
/** The head of the page: views, what is open and whether it is saved, undo and redo, saving, the theme. */
import { helpDialog } from './dialogs.mjs';
import { button, h, plural, put } from './dom.mjs';
import { builtWith } from './worker_calls.mjs';

const VIEWS = /** @type {const} */ ([['edit', 'Edit'], ['line', 'Line'], ['check', 'Check']]);
const THEME = 'baliseplan-theme';

/**
 * Sets the theme that was chosen, or that of the system.
 * @param {string | null} theme
 */
function setTheme(theme) {
  if (theme) document.documentElement.dataset.theme = theme;
  else delete document.documentElement.dataset.theme;
}

/** @param {string} [theme] to keep; without it the one that was kept is read @returns {string | null} */
function keptTheme(theme) {
  try {
    if (theme) localStorage.setItem(THEME, theme);
    return localStorage.getItem(THEME);
  } catch {
    return null; // the browser keeps nothing for this page
  }
}

function otherTheme() {
  const system = matchMedia('(prefers-color-scheme: dark)').matches ? 'dark' : 'light';
  const theme = (document.documentElement.dataset.theme ?? system) === 'dark' ? 'light' : 'dark';
  setTheme(theme);
  keptTheme(theme);
}

/** @param {import('./app.mjs').App} app @param {{open: () => void}} actions */
export function pageHead(app, { open }) {
  setTheme(keptTheme());
  const nav = h('nav', { 'aria-label': 'Views' });
  const state = h('div.state');
  const undo = button({ icon: 'undo', title: 'Undo (Ctrl Z)', onclick: () => app.do('undo') });
  const redo = button({ icon: 'redo', title: 'Redo (Ctrl Shift Z)', onclick: () => app.do('redo') });
  const saveJournal = button({
    icon: 'save', text: 'Journal', title: 'Save the journal (Ctrl S)', 'aria-label': 'Save the journal',
    onclick: () => app.saveJournal(),
  });
  const savePlan = button({
    icon: 'save', text: 'Plan', title: 'Save the plan as it is now', 'aria-label': 'Save the plan',
    onclick: () => app.savePlan(),
  });
  const edits = h('div.head-buttons', null, undo, redo, h('span.bar'), saveJournal, savePlan);
  const version = `baliseplan ${builtWith('engine-version')}, engine SHA-256 ${builtWith('engine-sha256')}`;

  function paint() {
    const focused = nav.contains(document.activeElement);
    put(nav,
      VIEWS.map(([view, name]) => h('button', { type: 'button', 'aria-current': app.view === view ? 'page' : null, disabled: view !== 'check' && !app.loaded, onclick: () => app.show(view) }, name)));
    if (focused) nav.querySelector('[aria-current]')?.focus();
    const inPlan = app.loaded && (app.view === 'edit' || app.view === 'line');
    edits.hidden = !inPlan;
    undo.disabled = app.standing === 0;
    redo.disabled = app.stack.length === 0;
    saveJournal.classList.toggle('primary', app.dirty);
    put(state, inPlan && stateOf(app));
    document.title = (app.dirty ? '• ' : '') + (app.loaded ? `${app.base.name} – baliseplan` : 'baliseplan');
  }
  for (const event of ['plan', 'view', 'kept', 'saved', 'opened']) app.on(event, paint);
  paint();
  return h('header.top', null,
    h('a.skip', { href: '#main' }, 'To the content'),
    h('span.brand', null, h('span.balise', { 'aria-hidden': 'true' }), h('b', null, 'baliseplan')), nav, state, edits,
    h('div.head-buttons', null, button({ icon: 'open', title: 'Open files (Ctrl O)', class: 'quiet', onclick: open }),
      button({ icon: 'sun', title: 'Light or dark', class: 'quiet theme', onclick: otherTheme }), button({ icon: 'help', title: 'Help', class: 'quiet', onclick: () => helpDialog(version) })));
}

/**
 * What is open, and whether it is safe.
 * @param {import('./app.mjs').App} app
 */
function stateOf(app) {
  const notKept = app.keeper.status === 'failed';
  const words = app.dirty ? (notKept ? 'not saved, and no copy is kept' : 'journal not saved') : 'saved';
  const title = notKept ? 'This browser can’t keep a copy, its storage may be full or off: save the journal to a file'
    : 'A copy of each edit is kept in this browser';
  return [
    h('span.mono.file', { title: `the base plan; the engine took ${app.runMs.toFixed(1)} ms` }, app.base.name),
    h('span.muted', null, plural(app.groups.length, 'group')), h('span.muted', null, plural(app.standing, 'edit')),
    h('span', { class: app.dirty && notKept ? 'dot lost' : app.dirty ? 'dot unsaved' : 'dot saved', title }, words),
  ];
}
