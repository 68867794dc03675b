// @ts-check
/**
 * Files that a person opened or dropped: told apart by what is in them, and given to the session, the check or the command box.
 */
import { clean } from '../core/damage.mjs';
import { kindOf, partsOf } from '../core/files.mjs';
import { textOf } from '../core/texts.mjs';
import { failureText } from '../core/refusals.mjs';
import { ask } from './dialogs.mjs';
import { h, plural } from './dom.mjs';
import { fieldsView } from './fields_view.mjs';

/**
 * @typedef {import('./app.mjs').App} App
 * @typedef {import('./disk.mjs').Opened} Opened
 * @typedef {{plans: Opened[], journal: Opened | null, commands: string, trouble: string}} Sorted
 */

/**
 * Asks before a file is cleaned in memory.
 * @param {Opened} file @param {import('../core/damage.mjs').Damage[]} damage
 */
async function askToClean(file, damage) {
  const answer = await ask(`${file.name} isn’t as the engine reads it`, [
    ...damage.map(({ text }) => h('p', null, text)),
    h('p.muted', null,
      'The page can take byte-order mark, carriage returns and blanks at line ends away, in memory. Your file stays as it is. No digit is changed.'),
  ], ['Leave it', 'Clean it']);
  return answer === 1;
}

/**
 * What the files are.
 * @param {Opened[]} files @returns {Promise<Sorted>}
 */
async function sort(files) {
  /** @type {Sorted} */
  const sorted = { plans: [], journal: null, commands: '', trouble: '' };
  for (let file of files) {
    const { kind, damage } = kindOf(file.bytes);
    if (kind !== 'unknown' && damage.some(({ cleanable }) => cleanable) && (await askToClean(file, damage)))
      file = { ...file, bytes: clean(file.bytes), handle: null };
    if (kind === 'journal') sorted.journal = file;
    else if (kind === 'commands') sorted.commands = textOf(file.bytes);
    else if (kind === 'plan' || kind === 'input') {
      const parts = partsOf(file.bytes);
      sorted.plans.push({ ...file, bytes: parts.plan });
      if (parts.journal.length > 0) sorted.journal = { name: 'journal', bytes: parts.journal, handle: null };
      if (parts.commands.length > 0) sorted.commands = textOf(parts.commands);
    } else sorted.trouble = kind === 'output'
      ? `${file.name} is an output: replies stand before its plan. Open the base plan and the journal.`
      : `${file.name} is neither plan nor journal nor commands. ${damage.map(({ text }) => text).join(' ')}`;
  }
  return sorted;
}

/**
 * Opens files; a refusal of the engine is shown with its line.
 * @param {App} app @param {Opened[]} files
 */
export async function openFiles(app, files) {
  if (files.length === 0) return;
  if (app.view === 'check') return app.emit('check-files', files);
  try {
    await openSorted(app, await sort(files));
  } catch (error) {
    showRefusal(app, error, files);
  }
}

/** @param {App} app @param {Sorted} sorted */
async function openSorted(app, { plans, journal, commands, trouble }) {
  if (trouble) return app.tell(trouble, 'bad');
  if (plans.length > 1) {
    app.show('check');
    return app.emit('check-files', [...plans, ...(journal ? [journal] : [])]);
  }
  if (plans.length === 0 && journal && app.loaded && app.edits.length === 0) plans.push(app.base);
  if (plans.length === 0 && !journal && commands) return app.loaded ? app.emit('commands', commands)
    : app.tell('Open a plan first, then the commands.', 'bad');
  if (plans.length === 0) return app.tell('A journal belongs to a base plan. Open both together.', 'bad');
  if (!(await mayLeave(app))) return;
  await app.open(plans[0], journal);
  if (commands) app.emit('commands', commands);
}

/**
 * Whether the session that is open may be left. It stays in the browser's store.
 * @param {App} app
 */
async function mayLeave(app) {
  if (!app.dirty) return true;
  const text = `${plural(app.standing, 'edit')} of ${app.base.name} stand. The page keeps a copy in this browser and offers it at the next start; a file is safer.`;
  return (await ask('The journal isn’t saved', [h('p', null, text)], ['Stay', 'Open anyway'])) === 1;
}

/** @param {App} app @param {any} error @param {Opened[]} files */
function showRefusal(app, error, files) {
  if (!error.failure) return app.tell(error.message, 'bad');
  const { title, name, usually, line } = failureText(error.failure);
  ask('The engine refuses this', [
    h('p', null, h('b', null, title), '. ', h('code', null, name)),
    line && h('code.entry', null, line),
    fieldsView(error.failure.explained),
    usually && !error.failure.explained && h('p.muted', null, usually),
    h('p.muted.small', null, files.map((file) => file.name).join(', ')),
  ], ['Close']);
}
