// @ts-check
/** A value of the group that is shown: its name, its meaning, its number, and the command that sets it. */
import { VARIABLES, meaning } from '../core/variables.mjs';
import { openEditor } from './editor.mjs';
import { h } from './dom.mjs';

/**
 * @typedef {object} Value
 * @property {string} name @property {number} value @property {number} [k] @property {number} [scale]
 * @property {string} [at] its place in the group: `PIG PKT NAME K` or `PIG NAME`
 * @property {boolean} [many] whether the packet has more of that name
 * @property {number | null} [before] its value in the base plan, where that is another
 * @property {(value: number) => string} [command] that sets it; none for what isn't set in place
 */

/** @param {import('./group.mjs').Shown} shown @param {Value} of */
export function tile(shown, { name, value, k = 0, scale, at = '', many = false, before, command }) {
  const words = meaning(name, value, scale);
  const was = typeof before === 'number' ? meaning(name, before, scale) || String(before) : '';
  const { what, steering } = VARIABLES[name] ?? { what: '' };
  const content = [
    h('span.name', null, name, many && h('sub', null, k)),
    h('span.what', null, words || value, words && h('span.raw', null, value)),
    was && h('span.was', null, 'was ', was),
  ];
  if (!command) return h('span.tile.fixed',
    { title: what + (steering ? ' (says what follows, or is set by another edit)' : '') }, content);
  const spoken = `${name}${many ? ` occurrence ${k}` : ''}, ${what}: ${words ? `${words}, raw ${value}` : value}${was ? `, in the base plan ${was}` : ''}. Change`;
  return h('button.tile', {
    type: 'button', title: `${what}: ${command(value)}${was ? `\nin the base plan ${was}` : ''}`, class: was ? 'differs'
      : '', data: { at, rove: '' }, 'aria-label': spoken,
    onclick: (/** @type {any} */ event) => openEditor(event.currentTarget, {
      name, value, scale, command, edits: shown.editsOf(at), showEdit: (serial) => shown.app.emit('edit', serial),
      run: (line) => {
        shown.refocus(`[data-at="${at}"]`);
        return shown.app.do(line, true);
        
      }, reason: (reply) => shown.app.reason(reply),
    }),
  }, content);
}
