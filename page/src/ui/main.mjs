// @ts-check
/** Puts the page together. */
import { App } from './app.mjs';
import { checkView } from './check_view.mjs';
import { commandBar } from './commands.mjs';
import { droppedFiles, pickFiles } from './disk.mjs';
import { h, put } from './dom.mjs';
import { groupPanel } from './group.mjs';
import { groupsPanel } from './groups.mjs';
import { pageHead } from './head.mjs';
import { lineView } from './line_view.mjs';
import { busySign, messages } from './messages.mjs';
import { openFiles } from './opening.mjs';
import { sidePanel } from './side.mjs';
import { startView } from './start.mjs';
import { WorkerCalls } from './worker_calls.mjs';

const root = /** @type {HTMLElement} */ (document.getElementById('app'));

function start() {
  const worker = new WorkerCalls();
  const app = new App(worker);
  worker.onstopped = () => app.recover();
  const busy = busySign(worker);
  const ready = worker.start();
  ready.catch((error) => app.tell(`The engine didn’t start: ${error.message}`, 'bad'));
  const open = async () => openFiles(app, await pickFiles());
  const head = pageHead(app, { open });
  const { main, paneNav, commands } = body(app, open);
  put(root, busy, head, main, paneNav, commands, messages(app));
  listenToKeys(app, open);
  listenToDrops(app);
  addEventListener('beforeunload', (event) => { if (app.dirty || app.draft.trim() !== '') event.preventDefault(); });
  /** For tests and the console: the engine as it is, and files without a picker. */
  Object.assign(window, { baliseplan: {
    app, ready,
    run: (/** @type {Uint8Array} */ input, /** @type {number} */ flags) => worker.call('raw', { input, flags }),
    fields: (/** @type {string} */ way, /** @type {Uint8Array} */ input) => worker.call('rawFields', { way, input }),
    open: (/** @type {{name: string, bytes: Uint8Array}[]} */ files) => openFiles(app, files.map((file) => ({ handle: null, ...file }))),
  } });
}

/** @param {App} app @param {() => void} open */
function body(app, open) {
  const editView = h('div.edit-view', { data: { pane: 'groups' } }, groupsPanel(app), groupPanel(app), sidePanel(app));
  const paneNav = panesOf(app, editView);
  const bodies = { start: startView(app, { open }), edit: editView, line: lineView(app), check: checkView(app) };
  const main = h('main', { id: 'main', tabindex: -1 }, Object.values(bodies));
  const commands = commandBar(app);
  const paint = () => {
    document.body.dataset.view = app.view;
    for (const [view, each] of Object.entries(bodies)) each.hidden = view !== app.view;
    commands.hidden = !(app.loaded && (app.view === 'edit' || app.view === 'line'));
    paneNav.hidden = app.view !== 'edit';
    if (app.view === 'edit') app.emit('select');
  };
  app.on('view', paint);
  paint();
  return { main, paneNav, commands };
}

/**
 * The panes of the edit view, of which a narrow page shows one at a time.
 * @param {App} app @param {HTMLElement} editView
 */
function panesOf(app, editView) {
  const nav = h('nav.pane-nav', { 'aria-label': 'Panes' });
  const paint = () => put(nav, [['groups', 'Groups'], ['group', 'Group'],
    ['side', 'Edits']].map(([key, name]) => h('button', {
    type: 'button', 'aria-current': editView.dataset.pane === key ? 'true' : null, onclick: () => app.emit('pane', key),
  }, name, key === 'side' && app.waitingReviews.length > 0 && h('b.amber', null, app.waitingReviews.length))));
  app.on('pane', (key) => { editView.dataset.pane = key; paint(); });
  app.on('plan', paint);
  paint();
  return nav;
}

/**
 * Whether a key belongs to the text that is being typed.
 * @param {EventTarget | null} target
 */
function isTyping(target) {
  return target instanceof HTMLElement && target.matches('input:not([type=checkbox]), textarea') && /** @type {any} */ (target).value !== '';
}

/** @param {App} app @param {() => void} open */
function listenToKeys(app, open) {
  const search = () => {
    app.show('edit');
    app.emit('pane', 'groups');
    const box = /** @type {HTMLInputElement} */ (document.getElementById('search'));
    box.focus();
    box.select();
  };
  addEventListener('keydown', (event) => {
    if (!(event.ctrlKey || event.metaKey) || event.altKey || document.querySelector('dialog[open]')) return;
    /** @type {Record<string, () => void>} */
    const keys = { o: open };
    const inPlan = app.loaded && app.view !== 'check'; // a check must not change the plan that is open beside it
    if (inPlan) Object.assign(keys,
      { s: () => app.saveJournal().then(() => app.savePlan()), k: () => app.emit('command'), g: search });
    if (inPlan && !isTyping(event.target)) Object.assign(keys,
      { z: () => app.do(event.shiftKey ? 'redo' : 'undo'), y: () => app.do('redo') });
    const act = keys[event.key.toLowerCase()];
    if (!act) return;
    event.preventDefault();
    act();
  });
}

/** @param {App} app */
function listenToDrops(app) {
  addEventListener('dragover', (event) => { event.preventDefault(); document.body.classList.add('dropping'); });
  addEventListener('dragleave', (event) => { if (!event.relatedTarget) document.body.classList.remove('dropping'); });
  addEventListener('drop', async (event) => {
    event.preventDefault();
    document.body.classList.remove('dropping');
    if (event.dataTransfer) openFiles(app, await droppedFiles(event.dataTransfer));
  });
}

start();
