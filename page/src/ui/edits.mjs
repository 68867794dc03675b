// @ts-check
/** All edits, the last one first; the one that is chosen with what depends on it. */
import { button, h, icon, plural, put } from './dom.mjs';
import { VirtualList } from './list.mjs';

/** Each step of a chain is a run: where a run is slow there are fewer. */
const SLOW_MS = 200;

/** @typedef {{strikes: number[], whole: boolean, first: number}} Chain */

/** @param {import('./app.mjs').App} app */
export function editsPane(app) {
  let chosen = -1; // serial
  /** @type {Chain | null} */ let chain = null;
  let asked = 0;
  const note = h('div.note');
  const detail = h('div.edit-detail', { 'aria-live': 'polite' });
  const list = new VirtualList({
    id: 'edits', label: 'Edits, the last one first', rowHeight: 46,
    onselect: (item) => choose(app.edits[item].s),
    render: (item) => rowOf(app.edits[item]),
  });

  /** @param {import('./app.mjs').Edit | undefined} edit */
  function rowOf(edit) {
    if (!edit) return [];
    const goes = edit.s !== chosen && chain?.strikes.includes(edit.s);
    return [
      h('span.serial.mono', null, edit.s),
      h('span.edit-words', { class: edit.stands ? '' : 'undone', title: edit.line },
        h('span', null, h('b.mono', null, edit.where), ' ', edit.what), h('small.muted', null, edit.stands ? edit.detail : 'undone or struck')),
      goes && h('span.mark.depends', { title: `depends on edit ${chosen}` }, 'depends'),
    ];
  }

  /** @param {number} serial */
  async function choose(serial) {
    chosen = serial;
    chain = null;
    asked += 1;
    const mine = asked;
    show();
    if (!app.edits.find(({ s }) => s === serial)?.stands) return;
    const found = await app.worker.call('chain', { serial, most: app.runMs > SLOW_MS ? 12 : 300 });
    if (mine !== asked) return;
    chain = found;
    show();
  }

  function show() {
    put(note,
      app.stack.length > 0 && h('p.stack', null, icon('redo'), h('span', null, `${plural(app.stack.length, 'edit')} undone or struck. Redo brings back ${app.stack[app.stack.length - 1]}; a new edit discards them for good.`)));
    list.show(app.edits.map((_, i) => app.edits.length - 1 - i));
    const at = app.edits.findIndex(({ s }) => s === chosen);
    list.select(at, false);
    put(detail, at < 0 ? nothingChosen(app.edits.length) : editDetail(app, app.edits[at], chain, choose));
  }

  app.on('opened', () => { chosen = -1; chain = null; show(); });
  app.on('plan', () => { if (chosen >= 0) choose(chosen); });
  return { element: h('div.edits-pane', null, note, list.element, detail), show, choose };
}

/** @param {number} count */
const nothingChosen = (count) => (count === 0
  ? h('p.empty.muted', null, 'No edits yet. Change a value: its edit stands here, with its place in words.')
  : h('p.muted.small', null, 'Choose an edit to see what depends on it.'));

/**
 * @param {import('./app.mjs').App} app @param {import('./app.mjs').Edit} edit @param {Chain | null} chain
 * @param {(serial: number) => void} choose
 */
function editDetail(app, edit, chain, choose) {
  const others = (chain?.strikes ?? []).filter((s) => s !== edit.s).reverse(); // by rising serial
  const top = app.stack[app.stack.length - 1];
  const state = !edit.stands ? h('p.muted', null, 'It doesn’t stand. ',
    top === edit.s ? 'Redo brings it back.' : `Redo brings back ${top} first.`)
    : chain === null ? h('p.muted', null, 'Looking at what depends on it …')
      : others.length === 0 && chain.whole ? h('p.fine', null, icon('check'), ' Nothing depends on it.')
        : dependents(chain, others);
  return [
    h('p', null, h('b', null, `Edit ${edit.s}: `), edit.where, ' ', edit.what,
      edit.detail && h('span.muted', null, `, ${edit.detail}`)),
    h('code.entry', { title: 'its line in the journal' }, edit.line),
    state,
    edit.stands && edit.kind === 'turn' && h('p.muted.small', null,
      'A strike of a turn leaves the distances that were set for it: look at these edits too.'),
    h('div.buttons', null,
      edit.place && button({
        icon: 'jump', text: 'Show', 'aria-label': `Show edit ${edit.s}`, onclick: () => app.jump(edit.place),
      }),
      edit.stands && strikeButton(app, edit, others.length === 0, choose),
      edit.stands && chain?.whole && others.length > 0 && strikeAllButton(app, chain, () => choose(edit.s))),
  ];
}

/** @param {Chain} chain @param {number[]} others */
function dependents(chain, others) {
  const words = chain.whole
    ? `To take it out, ${plural(others.length, 'later edit')} must go first: ${others.join(', ')}.`
    : `At least ${plural(others.length, 'later edit')} must go first.`;
  return h('p.warn', null, icon('warn'),
    h('span', null, `Edit ${chain.first} depends on it. ${words} Those that you still need have to be entered again.`));
}

/**
 * @param {import('./app.mjs').App} app @param {import('./app.mjs').Edit} edit @param {boolean} primary
 * @param {(serial: number) => void} choose
 */
function strikeButton(app, edit, primary, choose) {
  return button({
    text: `Strike ${edit.s}`, class: primary ? 'primary' : '', title: `strike ${edit.s}`,
    onclick: async () => {
      const reply = await app.do(`strike ${edit.s}`);
      if (reply?.kind === 'struck') app.tell(`Struck edit ${edit.s}. Redo is the way back.`, 'good');
      choose(edit.s);
    },
  });
}

/**
 * An edit with all that depends on it, as one step.
 * @param {import('./app.mjs').App} app @param {Chain} chain @param {() => void} after
 */
function strikeAllButton(app, { strikes }, after) {
  const commands = strikes.map((s) => 'strike ' + s);
  return button({
    text: `Strike all ${strikes.length}`, class: 'primary', title: commands.join('\n'),
    onclick: async () => {
      const { kept } = await app.doAll(commands);
      if (kept) app.tell(`Struck ${strikes.length} edits. Redo brings them back one by one.`, 'good');
      after();
    },
  });
}
