// @ts-check
/** Dialogs that make commands: a packet, a group, another number. Each shows its commands as they are made. */
import { badWords } from '../core/faults.mjs';
import { groupItems, packetItem } from '../core/items.mjs';
import { LAYOUTS, formOf } from '../core/layouts.mjs';
import { unknownPackets } from '../core/links.mjs';
import { VARIABLES, namesGroups, packetName } from '../core/variables.mjs';
import { dialog } from './dialogs.mjs';
import { button, h, plural, put } from './dom.mjs';
import { fieldsView } from './fields_view.mjs';
import { PacketForm } from './packet_form.mjs';
import { trialView } from './trial_view.mjs';

/** @typedef {import('./app.mjs').App} App */

/** An answer that takes longer than this many milliseconds is waited for in sight. */
const SLOW = 150;

/** @param {string} label @param {any} input @param {string} [hint] */
const row = (label, input, hint) => h('label.form-row', null, h('span', null, label), input,
  hint && h('small.muted', null, hint));
/** @param {number} value @param {number} most @param {number} [least] */
const numberInput = (value, most, least = 0) => h('input',
  { type: 'number', min: least, max: most, value: String(value), required: true });
/** @param {[string | number, string][]} options @param {string} chosen */
const select = (options, chosen) => h('select', null,
  options.map(([value, text]) => h('option', { value, selected: String(value) === chosen }, text)));

/** @typedef {string[] | {error: string, again?: boolean}} Made commands, or why there are none yet; again: it may be asked again */

/**
 * Has the engine make the digits of items.
 * @param {App} app @param {string[][]} items @returns {Promise<Made>} the digits of each, or why one has none
 */
async function spelled(app, items) {
  const spelt = /** @type {import('../core/items.mjs').Spelt[]} */ (await app.worker.call('spell', { items }));
  for (const [i, { bad }] of spelt.entries()) if (bad) return { error: badWords(bad, items[i]) };
  return spelt.map(({ digits = '' }) => digits);
}

/**
 * What a form makes now. A call that fails, as where the engine stopped, is a reason too.
 * @param {() => Made | Promise<Made>} make @returns {Promise<Made>}
 */
async function asked(make) {
  try {
    return await make();
  } catch (error) {
    return { error: /** @type {any} */ (error).message, again: true };
  }
}

/**
 * What a form makes, shown as it changes. The engine may be at work: an answer that comes after a later change is dropped.
 * @param {() => Made | Promise<Made>} make @param {HTMLElement} preview @param {any} submit @param {() => void} clear
 */
function previewed(make, preview, submit, clear) {
  let latest = 0;
  return async () => {
    latest += 1;
    const mine = latest;
    clear();
    submit.disabled = false; // it may be sent at once: what is sent waits for the answer
    const slow = setTimeout(() => put(preview, '…'), SLOW);
    const made = await asked(make);
    clearTimeout(slow);
    if (mine !== latest) return;
    submit.disabled = 'error' in made && !made.again;
    put(preview, 'error' in made ? made.error : made.join('\n'));
  };
}

/**
 * A form that makes commands, shows them, and stays open with the reasons if they are refused.
 * @param {App} app @param {string} title @param {any[]} rows
 * @param {{make: () => Made | Promise<Made>, verb: string, done?: () => void}} options
 */
function commandForm(app, title, rows, { make, verb, done }) {
  const preview = h('code.preview');
  const refusal = h('div.refusal', { role: 'alert' });
  const tried = h('div', { 'aria-live': 'polite' });
  const submit = h('button.primary', { type: 'submit' }, verb);
  const update = previewed(make, preview, submit, () => { put(refusal); put(tried); });
  let running = false;
  const run = async () => {
    if (running) return;
    running = true;
    const commands = await asked(make);
    if ('error' in commands) put(refusal, commands.error);
    else {
      const { kept, replies } = await app.run(commands);
      if (kept) element.close();
      if (kept) done?.();
      else if (replies.length > 0) put(refusal, app.refusals(commands, replies).map((line) => h('p', null, line)));
    }
    running = false;
  };
  const tryOut = async () => {
    const commands = await asked(make);
    if (!('error' in commands)) put(tried, await trialView(app, commands));
  };
  // Each change once: what is typed by `input`, what is chosen by `change`.
  const changed = (/** @type {any} */ { type, target }) => { if (target.matches('select') === (type === 'change')) update(); };
  const form = h('form', {
    oninput: changed, onchange: changed, onsubmit: (/** @type {Event} */ event) => { event.preventDefault(); run(); },
  },
    rows, h('div.runs', null, h('span.muted', { 'aria-hidden': 'true' }, '›'), preview), refusal, tried,
    h('div.buttons', null,
      button({ text: 'Cancel', onclick: () => element.close() }),
      button({ text: 'Try', title: 'Shows what it would change, and keeps nothing', onclick: tryOut }), submit));
  const element = dialog(title, form);
  update();
  form.querySelector('input, select')?.focus();
  return update;
}

/**
 * @typedef {import('../core/bits.mjs').Packet} Packet
 * @typedef {{id: string, pig: number, telegram: import('../core/bits.mjs').Telegram, digits: string}} Place a telegram
 */

/**
 * The form of a packet that is there.
 * @param {Packet} packet @param {() => void} changed
 */
function formFor({ fields: [[, number], [, direction], , ...fields] }, changed) {
  return new PacketForm(number, direction, formOf(number, fields), changed);
}

/** @param {Packet[]} packets */
const kindChoice = (packets) => h('select', { 'aria-label': 'Packet' },
  h('optgroup', { label: 'New' },
    Object.keys(LAYOUTS).map(Number).map((number) => h('option', { value: number, selected: number === 65 }, `${number} · ${packetName(number)}`))),
  packets.length > 0 && h('optgroup', { label: 'A copy of' },
    packets.map(({ fields: [[, number]] }, i) => h('option', { value: `copy ${i}` }, `packet ${i}: ${number} · ${packetName(number)}`))),
  h('optgroup', { label: 'Other' }, h('option', { value: 'hex' }, 'digits of your own')));

/** @param {number} count packets that are there */
const placeChoice = (count) => select(
  Array.from({ length: count + 1 },
    (_, i) => [i, i === 0 ? '0 · first' : i === count ? `${i} · last` : `${i} · before packet ${i}`]),
  String(count));

/**
 * An input for the digits of a packet. Below it stands what the engine reads in them.
 * @param {App} app @param {number} version of the telegram
 */
function digitsInput(app, version) {
  const below = h('div');
  let latest = '';
  const read = async () => {
    const digits = latest = input.value.trim();
    const line = `packet ${version} ${digits}`;
    const explained = digits && !digits.includes(' ') && (await app.worker.call('explain', { line }).catch(() => undefined));
    if (digits === latest) put(below, explained && fieldsView(explained));
  };
  const input = h('input.mono', {
    value: '', placeholder: '41408e000000000000', spellcheck: 'false', autocomplete: 'off', oninput: read,
  });
  return { input, below, read };
}

/** @param {App} app @param {Place} place */
export function insertDialog(app, { id, pig, telegram, digits }) {
  const { packets, m_version: version } = telegram;
  let update = () => {};
  /** @type {PacketForm | null} */
  let form = null;
  const fields = h('div');
  const kind = kindChoice(packets);
  const at = placeChoice(packets.length);
  const own = digitsInput(app, version);
  const choose = () => {
    const copied = kind.value.startsWith('copy') ? Number(kind.value.slice(5)) : -1;
    const changed = () => update();
    form = packets[copied]?.known ? formFor(packets[copied], changed)
      : LAYOUTS[Number(kind.value)] ? PacketForm.blank(Number(kind.value), changed) : null;
    put(fields, form ? form.element
      : [row('Digits', own.input, 'NID_PACKET, Q_DIR, L_PACKET and what follows, filled up by zeros to whole bytes'), own.below]);
    if (!form && copied >= 0) copyDigits(copied);
  };
  /** @param {number} copied a packet that the engine keeps bit for bit */
  const copyDigits = async (copied) => {
    const all = await app.worker.call('packets', { digits });
    if (kind.value !== `copy ${copied}`) return;
    own.input.value = all[copied];
    own.read();
    update();
  };
  kind.addEventListener('change', choose);
  choose();
  const make = async () => {
    if (form?.error) return { error: form.error };
    const typed = own.input.value.trim();
    const hex = form ? await spelled(app, [packetItem(version, form.fields)]) : typed ? [typed] : { error: 'no digits yet' };
    return 'error' in hex ? hex : [`insert ${id} ${pig} ${at.value} ${hex[0]}`];
  };
  update = commandForm(app, `Put a packet into balise ${pig} of ${id}`, [row('Packet', kind), row('Place', at),
    fields], { make, verb: 'Insert' });
}

/**
 * All fields of a packet anew: those that aren't set in place, and other numbers of parts.
 * @param {App} app @param {{id: string, pig: number, pkt: number, version: number}} place @param {Packet} packet
 */
export function rewriteDialog(app, { id, pig, pkt, version }, packet) {
  let update = () => {};
  const form = formFor(packet, () => update());
  const before = String(form.fields);
  const note = h('p.muted', null,
    'The packet is taken out and put in anew, as one step. Edits of it that stand now can be struck only after these two.');
  const place = `${id} ${pig} ${pkt}`;
  const make = async () => {
    if (form.error) return { error: form.error };
    if (String(form.fields) === before) return { error: 'nothing is changed yet' };
    const hex = await spelled(app, [packetItem(version, form.fields)]);
    return 'error' in hex ? hex : [`delete ${place}`, `insert ${place} ${hex[0]}`];
  };
  update = commandForm(app, `Packet ${form.number} anew`, [note, form.element], { make, verb: 'Replace' });
}

/** @param {App} app @param {string} id */
export function renumberDialog(app, id) {
  const number = numberInput(Number(id.split('.')[1]), 16382);
  const note = h('p', null,
    'Writes the new NID_BG into the headers of the group, and into every link and infill reference of the plan that names it. Links in other plans, and numbers inside packets that the engine doesn’t know, stay.');
  const naming = app.groups.filter((group) => unknownPackets(group).some(namesGroups)).map((group) => group.id);
  const list = `${naming.slice(0, 8).join(', ')}${naming.length > 8 ? ' ..' : ''}`;
  const byHand = naming.length > 0 && h('p.amber', null,
    `${plural(naming.length, 'group')} of this plan ${naming.length === 1 ? 'has' : 'have'} packets that name groups and aren’t followed: ${list}. Look at these by hand.`);
  commandForm(app, `Renumber ${id}`, [note, byHand, row('New number', number)],
    { make: () => [`renumber ${id} ${number.value}`], verb: 'Renumber' });
}

/** @param {App} app @param {number} at */
export function addDialog(app, at) {
  const country = numberInput(Number(app.groups[Math.max(0, at - 1)]?.id.split('.')[0] ?? 0), 1023);
  const number = numberInput(0, 16382);
  const balises = numberInput(2, 8, 1);
  const version = select([[16, '1.0'], [17, '1.1'], [32, '2.0'], [33, '2.1']], '33');
  const long = select([['', '210 bits'], ['1', '830 bits']], '');
  const place = h('input', { type: 'number', min: 0, max: app.groups.length, value: String(at), required: true });
  const rows = [row('Place in the plan', place), row('Country or region', country), row('Number', number),
    row('Balises', balises), row(VARIABLES.M_VERSION.what, version), row('Telegrams', long)];
  const make = async () => {
    const group = {
      country: Number(country.value), number: Number(number.value), balises: Number(balises.value),
      version: Number(version.value), long: long.value === '1',
    };
    if (!(group.balises >= 1 && group.balises <= 8)) return { error: '1 to 8 balises' };
    const telegrams = await spelled(app, groupItems(group));
    return 'error' in telegrams ? telegrams : [`add ${place.value} ${telegrams.join(' ')}`];
  };
  commandForm(app, 'Add a group', rows,
    { make, verb: 'Add', done: () => app.jumpTo(`${country.value}.${number.value}`) });
}
