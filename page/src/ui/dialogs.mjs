// @ts-check
/** Modal dialogs, questions, and the help. */
import { COMMANDS } from '../core/commands.mjs';
import { button, h } from './dom.mjs';

/** @param {string} title @param {...any} content @returns {HTMLDialogElement} */
export function dialog(title, ...content) {
  const before = /** @type {HTMLElement | null} */ (document.activeElement);
  const element = h('dialog', { 'aria-labelledby': 'dialog-title' },
    h('h2', { id: 'dialog-title', tabindex: -1, autofocus: true }, title), content);
  element.addEventListener('close', () => {
    element.remove();
    if (before?.isConnected && document.activeElement === document.body) before.focus();
  });
  document.body.append(element);
  element.showModal();
  return element;
}

/**
 * @param {string} title @param {any[]} content @param {string[]} answers the first one is the safe one
 * @returns {Promise<number>}
 */
export function ask(title, content, answers) {
  return new Promise((resolve) => {
    let answer = 0;
    const buttons = answers.map((text, i) => button({
      text, class: i === answers.length - 1 ? 'primary' : '', onclick: () => { answer = i; element.close(); },
    }));
    const element = dialog(title, content, h('div.buttons', null, buttons));
    element.addEventListener('close', () => resolve(answer));
  });
}

const KEYS = [
  ['Ctrl Z', 'undo'], ['Ctrl Shift Z, Ctrl Y', 'redo'], ['Ctrl S',
    'save the journal, then the plan'], ['Ctrl O', 'open files'],
  ['Ctrl K', 'command box'], ['Ctrl G', 'look for a group'], ['↑ ↓ Page Home End', 'in a list'],
  ['← → ↑ ↓', 'from field to field; from group to group in the picture'], ['Tab', 'from part to part of the page'],
  ['Shift Enter',
    'one more line in the command box'], ['Ctrl Enter', 'try the commands, keep nothing'], ['Esc', 'close an editor'],
];

/** @param {[string, string][]} rows @param {string} tag */
const keyList = (rows, tag) => h('dl.keys', null,
  rows.flatMap(([key, what]) => [h('dt', null, h(tag, null, key)), h('dd', null, what)]));

/** @param {string} version */
export function helpDialog(version) {
  const element = dialog('Help',
    h('p', null,
      'The page makes commands and runs the proved engine over base plan, journal and commands. It changes no bit itself, and nothing leaves this machine. Each command that a click runs stands in the log below: copy it into your scripts.'),
    h('h3', null, 'Keys'), keyList(/** @type {[string, string][]} */ (KEYS), 'kbd'),
    h('h3', null, 'Commands'),
    keyList(Object.entries(COMMANDS).map(([name, { words, what }]) => [[name, ...words].join(' '), what]), 'code'),
    h('p.muted.small', null, version),
    h('div.buttons', null, button({ text: 'Close', class: 'primary', onclick: () => element.close() })));
}
