// @ts-check
/** A small editor beside a value: shows the command as it is typed, and the reason where it is refused. */
import { VARIABLES, meaning, mostOf, rawValue } from '../core/variables.mjs';
import { button, h, put } from './dom.mjs';

/** @type {{form: HTMLElement, anchor: HTMLElement} | null} */
let open = null;

/** @param {boolean} [focus] give the focus back */
export function closeEditor(focus = true) {
  const was = open;
  open = null;
  was?.form.remove();
  if (focus) was?.anchor.focus();
}

/**
 * @typedef {object} Options
 * @property {string} name @property {number} value @property {number} [scale]
 * @property {import('../core/words.mjs').Edit[]} edits that set it
 * @property {(serial: number) => void} showEdit
 * @property {(value: number) => string} command
 * @property {(command: string) => Promise<import('./app.mjs').Reply | undefined>} run
 * @property {(reply: any) => string} reason
 */

/**
 * The input for a value: a choice where all values have names, else a text.
 * @param {string} name @param {number} value
 */
export function valueInput(name, value) {
  const { values } = VARIABLES[name] ?? {};
  if (!values) return h('input', { value: String(value), autocomplete: 'off', spellcheck: 'false', inputmode: 'text' });
  return h('select', null,
    Array.from({ length: mostOf(name) + 1 }, (_, i) => h('option', { value: i, selected: i === value }, `${i} · ${values[i] ?? ''}`)));
}

/** @param {string} name */
export function valueHint(name) {
  const { unit, values, bits } = VARIABLES[name];
  if (values) return `${bits} bits`;
  const units = /** @type {Record<string, string>} */ ({
    'km/h': 'a number, or 80 km/h', m: 'a number, or 450 m', '‰': 'a number, or 12 ‰',
  });
  return `${units[unit ?? ''] ?? 'a number'}; 0 to ${mostOf(name)}`;
}

/** @param {HTMLElement} anchor @param {Options} options */
export function openEditor(anchor, options) {
  closeEditor(false);
  const { name, value, scale, command } = options;
  const input = valueInput(name, value);
  input.id = 'editor-value';
  const sense = h('output.sense', { for: 'editor-value' });
  const preview = h('code.preview');
  const refusal = h('p.refusal', { role: 'alert' });
  const set = h('button.primary', { type: 'submit' }, 'Run');
  const read = () => {
    const raw = rawValue(name, input.value, scale);
    set.disabled = 'error' in raw;
    put(sense, 'error' in raw ? raw.error : VARIABLES[name].values ? '' : meaning(name, raw.value, scale));
    put(preview, 'error' in raw ? ' ' : command(raw.value));
    return 'error' in raw ? null : raw.value;
  };
  input.addEventListener('input', () => { read(); put(refusal); });
  const submit = async () => {
    const raw = read();
    if (raw === null) return;
    const reply = await options.run(command(raw));
    if (reply && reply.kind !== 'refused') closeEditor(false);
    else if (reply) put(refusal, h('b', null, 'Refused. '), options.reason(reply));
  };
  const form = editorForm(options, { input, sense, preview, refusal, set, submit });
  document.body.append(form);
  placeBeside(form, anchor);
  open = { form, anchor };
  read();
  input.focus();
  input.select?.();
}

/** @param {Options} options @param {Record<string, any>} parts */
function editorForm({ name, edits, showEdit }, { input, sense, preview, refusal, set, submit }) {
  const form = h('form.editor', {
    role: 'dialog', 'aria-label': `Set ${name}`,
    onsubmit: (/** @type {Event} */ event) => { event.preventDefault(); submit(); },
    onkeydown: (/** @type {KeyboardEvent} */ event) => { if (event.key === 'Escape') { event.stopPropagation(); closeEditor(); } },
    onfocusout: (/** @type {FocusEvent} */ event) => {
      if (event.relatedTarget && !form.contains(/** @type {Node} */ (event.relatedTarget))) closeEditor(false);
      
    },
  },
    h('label', { for: 'editor-value' }, h('b.mono', null, name), ' ', h('span.muted', null, VARIABLES[name].what)),
    h('div.line', null, input, sense),
    h('p.muted.small', null, valueHint(name)),
    h('div.runs', null, h('span.muted', { 'aria-hidden': 'true' }, '›'), preview),
    refusal,
    edits.length > 0 && h('p.muted.small', null, 'Set by ',
      edits.map(({ s, what }) => h('button.linkish', { type: 'button', title: what, onclick: () => { closeEditor(false); showEdit(s); } }, `edit ${s}`))),
    h('div.buttons', null, set, button({ text: 'Cancel', onclick: () => closeEditor() })));
  return form;
}

/** @param {HTMLElement} form @param {HTMLElement} anchor */
function placeBeside(form, anchor) {
  const box = anchor.getBoundingClientRect();
  const width = Math.min(330, innerWidth - 16);
  form.style.width = width + 'px';
  form.style.left = Math.max(8, Math.min(box.left, innerWidth - width - 8)) + scrollX + 'px';
  const below = box.bottom + form.offsetHeight + 8 < innerHeight || box.top < form.offsetHeight;
  form.style.top = (below ? box.bottom + 4 : box.top - form.offsetHeight - 4) + scrollY + 'px';
}
