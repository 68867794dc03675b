// @ts-check
/**
 * The session of the page: a base plan and a journal, and nothing else. Every answer comes from a run of the engine over
 * base, journal and commands. It knows no DOM and no worker, so that Node tests it.
 */
import { splitAtTurns } from '../core/commands.mjs';
import { diffGroup } from '../core/diff.mjs';
import { FACTS, FLAG, STATUS } from '../core/engine.mjs';
import { factsOf, reached } from '../core/facts.mjs';
import { placeOfLine } from '../core/files.mjs';
import { groupOrder, groupsNamed, numbersIn, packetNumbers, readJournal } from '../core/journal.mjs';
import { Tags } from '../core/tags.mjs';
import { badOf, bytesOf, groupTexts, inputOf, repliesOf, splitOutput, textOf } from '../core/texts.mjs';
import { byLines, inWords } from '../core/words.mjs';
import { Decoder, idOf } from './decoder.mjs';
import { Overview } from './overview.mjs';
import { loneDiff, planDiff } from './plan_diff.mjs';
import { explainCommand, explainRefused, isOfDigits } from './speller.mjs';

/**
 * @typedef {import('../core/bits.mjs').Group} Group
 * @typedef {import('../core/texts.mjs').Reply} Reply
 * @typedef {object} Failure
 * @property {number} number @property {string} name
 * @property {'base'|'journal'|'end'|''} file @property {number} line of that file, or 0
 * @property {string} text the line itself
 * @property {import('../core/items.mjs').Explained} [explained] its digits up to the fault, where they are refused
 * @typedef {{turn: number, path: string, name: string, k: number, value: number, opaque: boolean}} Review
 * @typedef {object} Update what the page is told after a run that is kept
 * @property {true} kept
 * @property {Reply[]} replies
 * @property {import('./overview.mjs').Splice[]} splices changes of the list of groups, the last first
 * @property {string} journal
 * @property {import('../core/words.mjs').Edit[]} edits @property {boolean} inWords whether these have their words
 * @property {number[]} stack @property {number} next @property {number} ms time in the engine
 * @property {Review[]} reviews new ones
 * @property {number[]} changed groups that differ from the base plan
 * @typedef {{kept: false, replies: Reply[], ms: number}} NotKept
 */

/** More entries than these are shown by their lines only. */
export const MOST_IN_WORDS = 20000;
/** With more groups than these an update has the entries by their lines: where tags stand takes the engine as long as an edit. */
const MOST_AT_ONCE = 20000;

/** Of a refused line this much is shown: the digits of the longest telegram. */
const MOST_SHOWN = 208;
/** Of more refused commands it isn't said where in their digits the fault is. */
const MOST_EXPLAINED = 20;

/** A run that gave no plan. */
export class Refused extends Error {
  /** @param {Failure} failure */
  constructor(failure) {
    super(`${failure.number} ${failure.name}`);
    this.failure = failure;
  }
}

export class Session {
  /** @param {import('../core/engine.mjs').Engine} engine */
  constructor(engine) {
    this.engine = engine;
    this.mostAtOnce = MOST_AT_ONCE;
    this.decoder = new Decoder(engine);
    this.overview = new Overview(this.decoder);
    this.base = new Uint8Array(0);
    this.journal = '';
    this.plan = '';
    /** @type {string[]} */ this.baseGroups = [];
    this.read = readJournal(this.journal);
    /** @type {string[]} tags of the groups in plan order */ this.order = [];
    /** @type {Tags | null} as the engine gave them for this plan and journal */ this.asked = null;
    /** @type {import('../core/words.mjs').Edit[] | null} the entries in words, once they were asked for */ this.told = null;
    /** @type {Map<string, import('../core/journal.mjs').Numbers>} by tag of a base group, or digits of an added one */
    this.came = new Map();
    /** @type {Map<string, Group>} views by the text of a group, so that the same text is decoded once */
    this.views = new Map();
  }

  get groups() {
    return this.overview.texts;
  }

  /** @param {Uint8Array} base @param {Uint8Array} journal @param {string[]} commands */
  #engineRun(base, journal, commands) {
    const { status, output, ms } = this.engine.run(inputOf(base, journal, commands), FLAG.journal);
    const text = textOf(output);
    if (status !== STATUS.accepted
      && status !== STATUS.refused) throw new Refused(this.#failureOf(status, text, base, journal));
    const parts = splitOutput(text);
    if (!parts) throw new Error('an output without a plan');
    return { parts, replies: repliesOf(parts.replies), ms };
  }

  /**
   * @param {number} status @param {string} text @param {Uint8Array} base @param {Uint8Array} journal @returns {Failure}
   */
  #failureOf(status, text, base, journal) {
    const bad = badOf(text);
    if (!bad) return { number: status, name: '', file: '', line: 0, text: '' };
    const { file, line } = placeOfLine(bad.line, base, journal);
    const lines = file === 'end' ? '' : textOf(file === 'base' ? base : journal);
    const whole = lines.split('\n')[line - 1] ?? '';
    const explained = file === 'base' ? explainRefused(this.engine, bad.number, whole) : undefined;
    return { number: bad.number, name: bad.name, file, line, text: whole.slice(0, MOST_SHOWN), explained };
  }

  /**
   * Where the digits of refused commands have their faults: the first ones, since each takes runs of its own.
   * @param {string[]} commands @param {Reply[]} replies
   */
  #explain(commands, replies) {
    const versionOf = (/** @type {string} */ id, /** @type {number} */ pig) => {
      const text = this.groups[this.overview.ids.indexOf(id)];
      return text === undefined ? undefined : this.decoder.views([text])[0].telegrams[pig]?.m_version;
    };
    const refused = [...replies.keys()].filter((i) => isOfDigits(replies[i].number)).slice(0, MOST_EXPLAINED);
    for (const i of refused) replies[i].explained = explainCommand(this.engine, replies[i].number, commands[i], versionOf);
  }

  /**
   * A run over the session as it is.
   * @param {string[]} commands
   */
  trial(commands) {
    return this.#engineRun(this.base, bytesOf(this.journal), commands);
  }

  /** @param {Uint8Array} base @param {Uint8Array} journal bytes of a file, or none @returns {Update} */
  open(base, journal) {
    const first = this.#engineRun(base, new Uint8Array(0), []);
    const now = journal.length === 0 ? first : this.#engineRun(base, journal, []);
    this.base = base;
    this.baseGroups = groupTexts(first.parts.plan);
    return this.#take(now.parts, [], now.ms);
  }

  /**
   * Runs commands as one step: where one is refused nothing is done, unless the accepted ones are to be kept.
   * @param {string[]} commands @param {boolean} [keepAccepted] @returns {Update | NotKept}
   */
  run(commands, keepAccepted = false) {
    const whole = this.trial(commands);
    const refused = whole.replies.filter(({ kind }) => kind === 'refused').length;
    this.#explain(commands, whole.replies);
    if (refused > 0
      && (!keepAccepted || refused === commands.length)) return { kept: false, replies: whole.replies, ms: whole.ms };
    const pieces = splitAtTurns(commands);
    if (pieces.length === 1) return this.#take(whole.parts, whole.replies, whole.ms);
    return pieces.map((piece) => {
      const { parts, replies, ms } = this.trial(piece);
      this.#explain(piece, replies);
      return this.#take(parts, replies, ms);
    }).reduce((all, update) => ({
      ...update,
      replies: [...all.replies, ...update.replies], splices: [...all.splices, ...update.splices],
      reviews: [...all.reviews, ...update.reviews], ms: all.ms + update.ms,
    }));
  }

  /**
   * What commands would do. Nothing is kept.
   * @param {string[]} commands @param {number} [most] groups that are shown
   */
  try(commands, most = 100) {
    const { parts, replies, ms } = this.trial(commands);
    this.#explain(commands, replies);
    const [old, now] = [this.groups, groupTexts(parts.plan)];
    if (old.length !== now.length) {
      const diffs = planDiff(this.decoder, old, now);
      return { replies, ms, diffs: diffs.slice(0, most), groups: diffs.length };
    }
    const changed = now.flatMap((text, i) => (text === old[i] ? [] : [i]));
    const shown = changed.slice(0, most);
    const before = this.decoder.decoded(shown.map((i) => old[i]));
    const diffs = this.decoder.decoded(shown.map((i) => now[i])).map((each, i) => diffGroup(before[i], each));
    return { replies, ms, diffs, groups: changed.length };
  }

  /** @param {import('../core/texts.mjs').Output} parts @param {Reply[]} replies @param {number} ms @returns {Update} */
  #take(parts, replies, ms) {
    const texts = groupTexts(parts.plan);
    const read = readJournal(parts.journal);
    const order = groupOrder(this.baseGroups.length, read);
    if (order.length !== texts.length) throw new Error('the groups of the journal don’t fit the plan');
    const inTime = texts.length <= this.mostAtOnce || read.entries.length === 0;
    const needed = (inTime && read.entries.length > 0) || replies.some(({ reviews }) => reviews.length > 0);
    // Asked for first: where the engine fails, nothing has changed.
    const asked = needed ? this.#askTags(parts.journal, order) : null;
    const splices = this.overview.update(texts);
    Object.assign(this, { plan: parts.plan, journal: parts.journal, read, order, asked, told: null });
    const { stack, next } = read;
    const edits = inTime ? this.words() : byLines(read);
    /** @type {number[]} */
    const changed = [];
    for (let i = 0; i < this.groups.length; i += 1) if (this.groups[i] !== this.#baseOf(i)) changed.push(i);
    return {
      kept: true, replies, splices, journal: this.journal, stack, next, edits, inWords: inTime, reviews: this.#reviews(replies), changed, ms,
    };
  }

  /**
   * The groups at some places, and what they were in the base plan.
   * @param {number[]} indexes
   */
  look(indexes) {
    const now = this.decoder.decoded(indexes.map((i) => this.groups[i]));
    const bases = indexes.map((i) => this.#baseOf(i));
    const before = this.decoder.decoded(bases.flatMap((text) => text ?? []));
    let at = 0;
    return now.map((each, i) => ({ ...each, tag: this.order[indexes[i]], base: bases[i] === null ? null : before[at++] }));
  }

  /**
   * The text in the base plan of the group at a place, or null.
   * @param {number} index
   */
  #baseOf(index) {
    const tag = this.order[index] ?? '';
    return tag.startsWith('b') ? this.baseGroups[Number(tag.slice(1))] : null;
  }

  /** All that differs between base plan and plan, by the tags of the groups. */
  changes() {
    /** @type {number[]} */
    const indexes = [];
    for (const [i, text] of this.groups.entries()) if (text !== this.#baseOf(i)) indexes.push(i);
    const diffs = this.look(indexes).map(({ base, ...now }, i) =>
      ({ index: indexes[i], ...(base ? diffGroup(base, now) : loneDiff('added', now)) }));
    const here = new Set(this.order);
    const gone = this.baseGroups.filter((_, i) => !here.has('b' + i));
    return [...diffs, ...this.decoder.decoded(gone).map((each) => ({ index: -1, ...loneDiff('removed', each) }))];
  }

  /**
   * Where tags stand now. The engine is asked once for a plan and journal, when something needs it.
   */
  get tags() {
    this.asked ??= this.#askTags(this.journal, this.order);
    return this.asked;
  }

  /** @param {string} journal @param {string[]} order the tags of the groups after it */
  #askTags(journal, order) {
    const tags = new Tags(this.#factsText(journal, [], FACTS.tags));
    if (tags.order.length !== order.length || tags.order.some((tag, i) => tag !== order[i]))
      throw new Error('the engine’s tags don’t fit the plan');
    return Object.assign(tags, { order }); // the same, and held once
  }

  /**
   * The numbers of packets in the groups that the journal names, as these came into the plan.
   */
  #numbersNamed() {
    const missing = groupsNamed(this.read).filter((tag) => tag.startsWith('b') && !this.came.has(tag));
    const views = this.decoder.views(missing.map((tag) => this.baseGroups[Number(tag.slice(1))]));
    for (const [i, view] of views.entries()) this.came.set(missing[i], numbersIn(view));
    const named = new Map([...this.came].filter(([tag]) => tag.startsWith('b')));
    for (const { kind, s, words } of this.read.entries) {
      if (kind !== 'add') continue;
      const digits = words.slice(1).join('\n') + '\n';
      const numbers = this.came.get(digits) ?? numbersIn(this.decoder.views([digits])[0]);
      this.came.set(digits, numbers);
      named.set('n' + s, numbers);
    }
    return named;
  }

  /** The entries of the journal in words. */
  words() {
    const { entries } = this.read;
    this.told ??= entries.length === 0 || entries.length > MOST_IN_WORDS ? byLines(this.read) : this.#inWords();
    return this.told;
  }

  #inWords() {
    const came = this.#numbersNamed();
    const numbers = packetNumbers(this.read, came);
    const { tags } = this;
    const views = this.#viewsAt([...new Set([...came.keys()].map((tag) => tags.groupAt(tag)))].filter((i) => i >= 0));
    return inWords(this.read, tags, {
      now: (index) => idOf(this.groups[index], views.get(index)),
      was: (tag) => (tag.startsWith('b') ? idOf(this.baseGroups[Number(tag.slice(1))]) : 'group ' + tag),
      number: (path) => numbers.get(path),
      packet: (group, pig, pkt) => views.get(group)?.telegrams[pig]?.packets[pkt]?.fields,
    });
  }

  /**
   * The views of the groups at some places; those of the run before are kept.
   * @param {number[]} indexes
   */
  #viewsAt(indexes) {
    const texts = indexes.map((i) => this.groups[i]);
    const fresh = [...new Set(texts.filter((text) => !this.views.has(text)))];
    for (const [i, view] of this.decoder.views(fresh).entries()) this.views.set(fresh[i], view);
    this.views = new Map(texts.map((text) => [text, /** @type {Group} */ (this.views.get(text))]));
    return new Map(indexes.map((index, i) => [index, /** @type {Group} */ (this.views.get(texts[i]))]));
  }

  /**
   * Review lines by tags, so that they are found after later edits.
   * @param {Reply[]} replies @returns {Review[]}
   */
  #reviews(replies) {
    const turn = replies[replies.length - 1];
    if (!turn || turn.reviews.length === 0) return [];
    const at = new Map(this.overview.ids.map((id, i) => [id, i]));
    return turn.reviews.map((line) => {
      const [, id, pig, pkt, name, k, value] = line.split(' ');
      const index = /** @type {number} */ (at.get(id));
      const path = this.tags.pathOf(index, Number(pig), Number(pkt));
      return name === 'opaque'
        ? { turn: turn.serial, path, name: '', k: 0, value: Number(k), opaque: true }
        : { turn: turn.serial, path, name, k: Number(k), value: Number(value), opaque: false };
    });
  }

  /**
   * Where tagged places stand now.
   * @param {string[]} paths
   */
  find(paths) {
    return paths.map((path) => {
      const place = this.tags.find(path);
      return place && { ...place, id: this.overview.ids[place.group] };
    });
  }

  /**
   * What the engine says after a journal and some commands.
   * @param {string} journal @param {string[]} commands @param {number} what of FACTS
   */
  #factsText(journal, commands, what) {
    const { status, output } = this.engine.facts(inputOf(this.base, bytesOf(journal), commands), what);
    if (status !== STATUS.accepted && status !== STATUS.refused) throw new Error(`the engine ended with ${status}`);
    return textOf(output);
  }

  /**
   * The strikes that take one edit out, the later ones that depend on it first. A strike may bring up one more that
   * depends on it, so the engine is asked again with the strikes done.
   * @param {number} serial @param {number} [most] runs at most
   * @returns {{strikes: number[], whole: boolean, first: number}} first: the first edit that depends on it, or 0
   */
  chain(serial, most = 300) {
    /** @type {Set<number>} */
    const found = new Set();
    let first = 0;
    for (let runs = 0; runs < most; runs += 1) {
      const { named, dependents } = factsOf(this.#factsText(this.journal, strikesOf(found), FACTS.edits));
      const more = reached(dependents, [serial, ...named]);
      more.delete(serial);
      first ||= dependents.get(serial)?.[0] ?? 0;
      if (more.size === 0) return { strikes: [...descending(found), serial], whole: true, first };
      for (const later of more) found.add(later);
    }
    return { strikes: descending(found), whole: false, first };
  }
}

/** @param {Iterable<number>} serials */
const descending = (serials) => [...serials].sort((a, b) => b - a);

/**
 * Commands that strike edits, the last one first.
 * @param {Iterable<number>} serials
 */
const strikesOf = (serials) => descending(serials).map((s) => 'strike ' + s);
