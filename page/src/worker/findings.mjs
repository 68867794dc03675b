// @ts-check
/**
 * What a delivery that doesn't agree is: a bit, an entry missing or one more, another journal. Each guess is tried by a
 * run of the engine, and what no run confirms is said as a guess.
 */
import { readJournal } from '../core/journal.mjs';
import { HEADER_SET, VARIABLES, occurrences } from '../core/variables.mjs';
import { bytesOf, linesOf, textOf } from '../core/texts.mjs';
import { Refused, Session } from './session.mjs';
import { packetDigits } from './speller.mjs';

/**
 * @typedef {import('./checker.mjs').Checker} Checker
 * @typedef {import('./checker.mjs').Finding} Finding
 * @typedef {import('./checker.mjs').Answer} Answer
 */

/** No more runs than these, and no more time, are spent on guesses. */
const MOST_TRIALS = 200;
const MOST_MS = 4000;

/**
 * Serials below NEXT that a journal has no entry for.
 * @param {string} text
 */
export function gapsOf(text) {
  const { next, entries } = readJournal(text);
  const here = new Set(entries.map(({ s }) => s));
  /** @type {number[]} */
  const gaps = [];
  for (let s = 1; s < Math.min(next, 1e6) && gaps.length < 20; s += 1) if (!here.has(s)) gaps.push(s);
  return gaps;
}

/** @param {number[]} serials @param {number} [most] */
const listed = (serials, most = 12) => serials.slice(0, most).join(', ') + (serials.length > most ? ' …' : '');

const ABOUT_GAPS = 'A serial is also missing where a new edit discarded an undone one.';

/**
 * A journal that the engine refuses on this base plan.
 * @param {Checker} checker @param {import('./session.mjs').Failure} failure @returns {Finding}
 */
export function nameRefusedJournal({ engine, cleaned }, failure) {
  const text = textOf(cleaned.journal);
  if (failure.number !== 27)
    return {
      kind: 'journal', title: 'The journal can’t be read.',
      details: [`Line ${failure.line} of it has no form that is allowed there. It was changed or cut off.`],
    };
  if (fits(engine, cleaned.delivered, cleaned.journal))
    return {
      kind: 'swapped', title: 'The journal is of the delivered plan.',
      details: ['It fits the delivered plan as its base: are the two plans swapped?'],
    };
  const lines = linesOf(text);
  const before = readJournal(lines.slice(0, Math.max(1, failure.line - 1)).join('\n'));
  const here = new Set(before.entries.map(({ s }) => s));
  const named = [...failure.text.matchAll(/\bn(\d+)\b/g)].map((found) => Number(found[1])).filter((s) => !here.has(s));
  const entry = failure.text.split(' ')[0];
  if (named.length > 0)
    return {
      kind: 'missing', title: 'An entry is missing from the journal.',
      details: [`Entry ${entry} names what edit ${named[0]} put in, and no entry before it has the serial ${named[0]}.`],
    };
  const gaps = gapsOf(text).filter((s) => s < Number(entry));
  const found = valueThere(engine, cleaned.base, lines, failure);
  if (gaps.length > 0)
    return {
      kind: 'missing', title: 'An entry seems to be missing from the journal.',
      details: [`Entry ${entry} doesn’t fit, and the journal has no entry ${listed(gaps)} before it. ${ABOUT_GAPS}`,
        ...found],
    };
  if (before.entries.length === 0)
    return {
      kind: 'other', title: 'The journal is of another plan.',
      details: [`Already its first entry doesn’t fit this base plan.`, ...found],
    };
  return {
    kind: 'changed', title: 'The journal was changed, or is of another plan.',
    details: [`Entry ${entry} doesn’t fit, all entries before it do.`, ...found],
  };
}

/**
 * What the plan has where an entry notes another value.
 * @param {import('../core/engine.mjs').Engine} engine @param {Uint8Array} base @param {string[]} lines @param {import('./session.mjs').Failure} failure
 */
function valueThere(engine, base, lines, failure) {
  const [, kind, path, name, k, , old] = failure.text.split(' ');
  if (kind !== 'set' || old === undefined) return [];
  const session = new Session(engine);
  session.open(base, bytesOf(lines.slice(0, failure.line - 1).join('\n') + '\n'));
  const [place] = session.find([path]);
  if (!place || place.pig === null || place.pkt === null) return [];
  const fields = session.look([place.group])[0].group.telegrams[place.pig]?.packets[place.pkt]?.fields ?? [];
  const value = occurrences(fields).find((field) => field.name === name && field.k === Number(k))?.value;
  if (value === undefined || value === Number(old)) return [];
  return [`It notes ${old} as the old value of ${name}, and ${place.id}, balise ${place.pig}, packet ${place.pkt} has ${value} there.`];
}

/** @param {import('../core/engine.mjs').Engine} engine @param {Uint8Array} plan @param {Uint8Array} journal */
function fits(engine, plan, journal) {
  try {
    new Session(engine).open(plan, journal);
    return true;
  } catch (error) {
    if (error instanceof Refused) return false;
    throw error;
  }
}

/**
 * A plan that isn't what base and journal make.
 * @param {Checker} checker @param {Answer} answer @returns {Finding}
 */
export function nameDifference(checker, answer) {
  if (answer.differs.length === 0)
    return { kind: 'order', title: 'The groups are the same, but in another order.', details: [] };
  const trials = new Trials(checker);
  const gaps = gapsOf(checker.made.journal);
  return older(trials) ?? entryMore(trials, answer) ?? entryMissing(trials, answer, gaps) ?? differing(checker, answer, gaps);
}

/** Runs whose plan is compared with the delivered one, within a limit. */
class Trials {
  /** @param {Checker} checker */
  constructor({ made, other }) {
    this.made = made;
    this.wanted = other.plan;
    this.left = MOST_TRIALS;
    this.end = performance.now() + MOST_MS;
  }

  get over() {
    return this.left <= 0 || performance.now() > this.end;
  }

  /**
   * Whether commands make the delivered plan.
   * @param {string[]} commands
   */
  give(commands) {
    this.left -= 1;
    const { parts, replies } = this.made.trial(commands);
    return parts.plan === this.wanted && replies.every(({ kind }) => kind !== 'refused');
  }
}

/**
 * The plan of a time before the last edits.
 * @param {Trials} trials @returns {Finding | null}
 */
function older(trials) {
  const standing = trials.made.read.entries.filter(({ stands }) => stands);
  for (let count = 1; count <= Math.min(standing.length, 40) && !trials.over; count += 1)
    if (trials.give(new Array(count).fill('undo'))) {
      const serials = standing.slice(-count).map(({ s }) => s);
      return count === 1 ? more(serials[0]) : {
        kind: 'older', title: `The journal has ${count} entries more than the delivered plan.`,
        details: [`The delivered plan is what it was before edits ${listed(serials)}: an older plan, or edits that were left out.`],
      };
    }
  return null;
}

/** @param {number} s @returns {Finding} */
const more = (s) => ({
  kind: 'more', title: 'The journal has an entry more than the delivered plan.',
  details: [`Without edit ${s} base plan and journal make the delivered plan, byte for byte.`],
});

/**
 * An edit of the journal that the delivered plan doesn't have.
 * @param {Trials} trials @param {Answer} answer @returns {Finding | null}
 */
function entryMore(trials, answer) {
  const touched = new Set(answer.differs.flatMap(({ before, after }) => [before, after]));
  const candidates = trials.made.words().filter(({ stands, where }) => stands && touched.has(where)).reverse();
  for (const { s } of candidates) {
    if (trials.over) return null;
    if (trials.give([`strike ${s}`])) return more(s);
  }
  return null;
}

/**
 * Edits that the delivered plan has and the journal doesn't.
 * @param {Trials} trials @param {Answer} answer @param {number[]} gaps @returns {Finding | null}
 */
function entryMissing(trials, answer, gaps) {
  const commands = commandsFor(trials.made.engine, answer.differs);
  if (gaps.length === 0 || commands === null || trials.over || !trials.give(commands)) return null;
  return {
    kind: 'missing', title: 'An entry seems to be missing from the journal.', commands,
    details: [`The journal has no entry ${listed(gaps)}, and the delivered plan has a change that no entry makes. ${ABOUT_GAPS}`],
  };
}

/** @param {Checker} checker @param {Answer} answer @param {number[]} gaps @returns {Finding} */
function differing({ engine }, { differs }, gaps) {
  const bits = differs.reduce(
    (sum, { telegrams }) => sum + telegrams.reduce(
      (/** @type {number} */ all, /** @type {any} */ each) => all + each.bits.length, 0),
    0);
  const whole = differs.every(({ kind, telegrams }) => kind === 'changed'
    && telegrams.every((/** @type {any} */ each) => each.before === each.after));
  const details = gaps.length > 0 ? [`The journal has no entry ${listed(gaps)}. ${ABOUT_GAPS}`] : [];
  const commands = commandsFor(engine, differs) ?? undefined;
  const names = differs.slice(0, 6).map(({ before, after }) => after
    || before).join(', ') + (differs.length > 6 ? ' …' : '');
  if (whole && bits > 0 && differs.length === 1)
    return {
      kind: 'bits', title: bits === 1 ? `One bit of ${names} was changed.` : `${bits} bits of ${names} were changed.`,
      details, commands,
    };
  return {
    kind: 'groups', title: `${differs.length} ${differs.length === 1 ? 'group differs' : 'groups differ'}: ${names}.`,
    details, commands,
  };
}

/**
 * The commands that would make the differences, or null where no plain ones do.
 * @param {import('../core/engine.mjs').Engine} engine @param {any[]} differs
 */
function commandsFor(engine, differs) {
  /** @type {string[]} */
  const commands = [];
  for (const diff of differs) {
    if (diff.kind !== 'changed' || diff.turned || diff.before !== diff.after) return null;
    for (const telegram of diff.telegrams) {
      const some = telegramCommands(engine, diff, telegram);
      if (some === null) return null;
      commands.push(...some);
    }
  }
  return commands.length > 0 && commands.length <= 100 ? commands : null;
}

/**
 * @param {import('../core/engine.mjs').Engine} engine @param {any} diff @param {any} telegram @returns {string[] | null}
 */
function telegramCommands(engine, diff, telegram) {
  const { before: pig, header, packets } = telegram;
  if (pig === null || pig !== telegram.after
    || packets.some((/** @type {any} */ each) => each.kind === 'moved' || each.content)) return null;
  if (header.some((/** @type {any} */ { name }) => !(name in HEADER_SET))) return null;
  const id = diff.after;
  const of = (/** @type {string} */ kind) => packets.filter((/** @type {any} */ each) => each.kind === kind);
  const sets = of('changed').flatMap((/** @type {any} */ each) => each.fields.map((/** @type {any} */ field) => ({ ...field, pkt: each.after })));
  if (sets.some((/** @type {any} */ { name }) => VARIABLES[name]?.steering)) return null;
  const digits = of('added').length > 0 ? packetDigits(engine, diff.digits[1][pig]) : [];
  return [
    ...header.map((/** @type {any} */ { name, after }) => `seth ${id} ${pig} ${name} ${after}`),
    ...of('removed').reverse().map((/** @type {any} */ { before }) => `delete ${id} ${pig} ${before}`),
    ...of('added').map((/** @type {any} */ { after }) => `insert ${id} ${pig} ${after} ${digits[after]}`),
    ...sets.map((/** @type {any} */ { pkt, name, k, after }) => `set ${id} ${pig} ${pkt} ${name} ${k} ${after}`),
  ];
}

