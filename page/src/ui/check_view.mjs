// @ts-check
/** The checker's view: three files, one verdict. */
import { clean } from '../core/damage.mjs';
import { kindOf } from '../core/files.mjs';
import { checkReport } from './check_report.mjs';
import { droppedFiles, pickFiles } from './disk.mjs';
import { button, h, put } from './dom.mjs';
import { ROLES } from './roles.mjs';

/**
 * @typedef {import('../worker/checker.mjs').Role} Role
 * @typedef {import('./disk.mjs').Opened} Opened
 * @typedef {import('../worker/checker.mjs').Answer & {sums: Record<Role, string>, ms: number, when: Date, links: any}} Checked
 */

/** @param {Uint8Array} bytes */
async function sha256(bytes) {
  if (!crypto.subtle) return 'not here: no secure context';
  const hash = await crypto.subtle.digest('SHA-256', /** @type {any} */ (bytes));
  return [...new Uint8Array(hash)].map((byte) => byte.toString(16).padStart(2, '0')).join('');
}

/** @param {import('./app.mjs').App} app */
export function checkView(app) {
  return new CheckView(app).element;
}

class CheckView {
  /** @param {import('./app.mjs').App} app */
  constructor(app) {
    this.app = app;
    /** @type {Partial<Record<Role, Opened>>} */ this.files = {};
    /** @type {Checked | null} */ this.answer = null;
    this.request = { text: '' };
    this.asked = 0;
    this.slots = h('div.slots');
    this.report = h('div.report');
    this.element = h('section.check-view', {
      'aria-label': 'Check a delivery', ondragover: (/** @type {Event} */ event) => event.preventDefault(),
      ondrop: async (/** @type {DragEvent} */ event) => {
        event.preventDefault();
        event.stopPropagation();
        document.body.classList.remove('dropping');
        if (event.dataTransfer) this.place(await droppedFiles(event.dataTransfer));
      },
    }, h('header.check-head', null, h('h2', null, 'Check a delivery'),
      h('p.muted', null, 'Drop base plan, journal and delivered plan. The engine does every edit of the journal again and compares each old value that it notes. The page compares the plan that comes out with the delivered one, byte by byte.')), this.slots, this.report);
    app.on('check-files', (files) => this.place(files));
    this.paint();
  }

  /**
   * Finds out which file is what: by their first lines, and of two plans the base is the one that the journal fits.
   * @param {Opened[]} added
   */
  async place(added) {
    const kinds = added.map((file) => ({ file, ...kindOf(file.bytes) }));
    const plans = kinds.filter(({ kind }) => kind === 'plan' || kind === 'input').map(({ file }) => file);
    const journal = kinds.find(({ kind }) => kind === 'journal');
    const other = kinds.find(({ kind }) => !['plan', 'input', 'journal'].includes(kind));
    if (other) this.app.tell(
      `${other.file.name} is neither a plan nor a journal. ${other.damage.map(({ text }) => text).join(' ')}`, 'bad');
    if (plans.length > 1) this.files = {};
    if (journal) this.files.journal = journal.file;
    if (plans.length === 1) this.files[this.files.base ? 'delivered' : 'base'] = plans[0];
    else if (plans.length > 1) await this.#tellApart(plans[0], plans[1]);
    await this.check();
  }

  /** @param {Opened} first @param {Opened} second */
  async #tellApart(first, second) {
    const journal = clean(this.files.journal?.bytes ?? new Uint8Array(0));
    const [one, two] = await Promise.all([first, second].map(({ bytes }) => this.app.worker.call('fits', { base: clean(bytes), journal })));
    const swap = one === two ? /base/i.test(second.name) && !/base/i.test(first.name) : two;
    Object.assign(this.files, swap ? { base: second, delivered: first } : { base: first, delivered: second });
  }

  async check() {
    this.answer = null;
    this.asked += 1;
    const mine = this.asked;
    this.paint();
    const { base, delivered, journal } = this.files;
    if (!base || !delivered) return;
    const start = performance.now();
    const bytes = { base: base.bytes, journal: journal?.bytes ?? new Uint8Array(0), delivered: delivered.bytes };
    try {
      const found = await this.app.worker.call('check', bytes);
      const sums = Object.fromEntries(await Promise.all(ROLES.map(async ([role]) => [role, this.files[role] ? await sha256(bytes[role]) : ''])));
      if (mine !== this.asked) return;
      this.answer = { ...found, sums, ms: performance.now() - start, when: new Date(), links: null };
      this.paint();
      const links = await this.app.worker.call('checkLinks');
      if (mine !== this.asked || !this.answer) return;
      this.answer.links = links;
    } catch (error) {
      this.app.tell(/** @type {any} */ (error).message, 'bad');
    }
    this.paint();
  }

  paint() {
    put(this.slots, ROLES.map(([role, name, what]) => this.#slot(role, name, what)));
    const { base, delivered } = this.files;
    const names = /** @type {Record<Role, string>} */ (Object.fromEntries(ROLES.map(([role]) => [role, this.files[role]?.name ?? 'no journal'])));
    const sizes = /** @type {Record<Role, number>} */ (Object.fromEntries(ROLES.map(([role]) => [role, this.files[role]?.bytes.length ?? 0])));
    put(this.report,
      this.answer ? checkReport(this.answer, { names, sizes, request: this.request }) : base && delivered && h('p.muted', { role: 'status' }, 'Checking …'));
  }

  /** @param {Role} role @param {string} name @param {string} what */
  #slot(role, name, what) {
    const file = this.files[role];
    const choose = async () => {
      const picked = await pickFiles();
      if (picked.length > 1) return this.place(picked);
      if (picked.length === 0) return;
      [this.files[role]] = picked;
      this.check();
    };
    const swap = () => {
      this.files = { ...this.files, base: this.files.delivered, delivered: this.files.base };
      this.check();
    };
    return h('div.slot', { class: file ? 'full' : '', data: { role } },
      h('b', null, name), h('span.muted.small', null, what), file ? h('span.file.mono', null, file.name)
        : h('span.muted', null, 'drop it here'),
      h('div.buttons', null,
        button({
          text: file ? 'Replace' : 'Choose', class: 'quiet',
          'aria-label': `${file ? 'Replace' : 'Choose'} the ${name.toLowerCase()}`, onclick: choose,
        }),
        role === 'delivered' && this.files.base && file && button({ text: 'Swap plans', class: 'quiet', onclick: swap })));
  }
}
