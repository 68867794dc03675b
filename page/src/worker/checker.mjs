// @ts-check
/** Whether a delivered plan is what base plan and journal make, and nothing else; and what it is where it isn't. */
import { clean, damageOf } from '../core/damage.mjs';
import { textOf } from '../core/texts.mjs';
import { nameDifference, nameRefusedJournal } from './findings.mjs';
import { planDiff } from './plan_diff.mjs';
import { Refused, Session } from './session.mjs';

/**
 * @typedef {'base'|'journal'|'delivered'} Role
 * @typedef {Record<Role, Uint8Array>} Files
 * @typedef {{kind: string, title: string, details: string[], commands?: string[]}} Finding
 * @typedef {object} Answer
 * @property {'yes'|'bytes'|'no'} verdict bytes: the same plan, but other bytes
 * @property {Finding} finding what it is, in words
 * @property {Record<Role, import('../core/damage.mjs').Damage[]>} damage
 * @property {Record<Role, import('./session.mjs').Failure | null>} failures
 * @property {boolean} rewritten the journal isn't as the engine prints it
 * @property {any[]} differs groups of the delivered plan that aren't what base and journal make
 * @property {any[]} changes what the journal changed in the base plan
 * @property {import('../core/words.mjs').Edit[]} edits
 * @property {number} groups of the delivered plan
 */

const ROLES = /** @type {const} */ (['base', 'journal', 'delivered']);

/** A check of one delivery. The plans stay here, so that their links can be looked at later. */
export class Checker {
  /** @param {import('../core/engine.mjs').Engine} engine @param {Files} files */
  constructor(engine, files) {
    this.engine = engine;
    this.files = files;
    /** The files without what a transfer did to them: all but the verdict is about these. */
    this.cleaned = /** @type {Files} */ (Object.fromEntries(ROLES.map((role) => [role, clean(files[role])])));
    this.made = new Session(engine);
    this.other = new Session(engine);
  }

  /** @returns {Answer} */
  check() {
    const damage = /** @type {Answer['damage']} */ (Object.fromEntries(ROLES.map((role) =>
      [role, role === 'journal' && this.files.journal.length === 0 ? [] : damageOf(this.files[role])])));
    /** @type {Answer} */
    const answer = {
      verdict: 'no', finding: { kind: '', title: '', details: [] }, damage, failures: {
        base: null, journal: null, delivered: null,
      },
      rewritten: false, differs: [], changes: [], edits: [], groups: 0,
    };
    const { base, journal, delivered } = this.cleaned;
    const none = new Uint8Array(0);
    answer.failures.base = opened(this.made, base, none);
    if (!answer.failures.base) answer.failures.journal = opened(this.made, base, journal);
    answer.failures.delivered = opened(this.other, delivered, none);
    answer.groups = this.other.groups.length;
    if (!answer.failures.base && !answer.failures.journal) this.#describe(answer);
    answer.finding = this.#name(answer);
    return answer;
  }

  /**
   * The edits and what they changed.
   * @param {Answer} answer
   */
  #describe(answer) {
    const { made, cleaned } = this;
    answer.edits = made.words();
    answer.changes = made.changes();
    answer.rewritten = cleaned.journal.length > 0 && made.journal !== textOf(cleaned.journal);
    if (!answer.failures.delivered) answer.differs = planDiff(made.decoder, made.groups, this.other.groups);
  }

  /** @param {Answer} answer @returns {Finding} */
  #name(answer) {
    const { failures } = answer;
    const { made, other } = this;
    if (failures.base) return { kind: 'base', title: 'The base plan can’t be read.', details: [] };
    if (failures.delivered) return { kind: 'delivered', title: 'The delivered plan can’t be read.', details: [] };
    if (failures.journal) return nameRefusedJournal(this, failures.journal);
    if (made.plan !== other.plan) return nameDifference(this, answer);
    const changed = ROLES.filter((role) => answer.damage[role].length > 0);
    const capitals = changed.length === 0 && textOf(this.files.delivered) !== made.plan;
    if (changed.length === 0 && !capitals && !answer.rewritten) {
      answer.verdict = 'yes';
      return { kind: 'same', title: 'They belong together.', details: [] };
    }
    answer.verdict = 'bytes';
    const details = changed.flatMap((role) => answer.damage[role].map(({ text }) => `${WORDS[role]}: ${text}`));
    if (capitals) details.push('The delivered plan has capital letters among its digits.');
    if (answer.rewritten) details.push('The journal isn’t as the engine prints it: an older version, capital letters, or another NEXT.');
    return {
      kind: changed.length > 0 ? 'transfer' : 'letters', title: 'The same plan bit for bit, but not the same bytes.',
      details,
    };
  }

  /** Links of the delivered plan that name no group of it, and the packets that the engine doesn't know. */
  links() {
    const { overview } = this.other;
    /** @type {[string, string][]} */
    const unknown = [];
    for (let from = 0, done = false; !done; ) ({ next: from, done } = overview.decodeSome(from));
    for (const [i, packets] of overview.packets.entries()) if (packets.includes('?')) unknown.push([overview.ids[i], packets]);
    return { dangling: overview.danglingLinks(), unknown };
  }
}

/** @type {Record<Role, string>} */
const WORDS = { base: 'The base plan', journal: 'The journal', delivered: 'The delivered plan' };

/**
 * Opens a plan, and returns why it can't be read, or null.
 * @param {Session} session @param {Uint8Array} plan @param {Uint8Array} journal
 */
function opened(session, plan, journal) {
  try {
    session.open(plan, journal);
    return null;
  } catch (error) {
    if (error instanceof Refused) return error.failure;
    throw error;
  }
}
