// @ts-check
/** The state of the page and what can be done with it. Views listen to its events and call its actions. */
import { faultWords } from '../core/faults.mjs';
import { pendingSummaries } from '../core/links.mjs';
import { explain, failureText, unknownVariable } from '../core/refusals.mjs';
import { withLastWords } from '../core/words.mjs';
import { saveText } from './disk.mjs';
import { Keeper } from './keeper.mjs';
import { plural } from './dom.mjs';

/**
 * @typedef {import('../core/links.mjs').Summary} Summary
 * @typedef {import('../core/words.mjs').Edit} Edit
 * @typedef {import('../core/texts.mjs').Reply} Reply
 * @typedef {import('./disk.mjs').Opened} Opened
 * @typedef {import('../worker/session.mjs').Review & {done: boolean, id: number}} Review
 * @typedef {object} LogLine a command that was run
 * @property {string} command @property {Reply | null} reply @property {number} ms
 * @property {boolean} kept whether its run was kept
 * @property {string} [note] why there is no reply @property {number} [groups] how many changed
 * @typedef {{pig: number, pkt: number | null, name?: string, k?: number}} Spot a place in the group that is shown
 * @typedef {{kept: boolean, replies: Reply[]}} Outcome of a run; without replies it failed as a whole
 */

const DECODED_AT_ONCE = 4000;

export class App {
  /** @param {import('./worker_calls.mjs').WorkerCalls} worker */
  constructor(worker) {
    this.worker = worker;
    /** @type {Map<string, ((detail?: any) => void)[]>} */
    this.listeners = new Map();
    /** @type {'start'|'edit'|'line'|'check'} */ this.view = 'start';
    this.loaded = false;
    /** @type {Opened} */ this.base = { name: '', bytes: new Uint8Array(0), handle: null };
    this.journalFile = { name: 'journal', handle: /** @type {any} */ (null) };
    this.planFile = { name: 'line.plan', handle: /** @type {any} */ (null) };
    /** @type {Summary[]} */ this.groups = [];
    /** @type {Map<string, number>} */ this.byId = new Map();
    /** @type {Set<number>} groups that differ from the base plan */ this.changed = new Set();
    /** @type {Set<number>} groups with a link that names no group */ this.dangling = new Set();
    /** @type {Edit[]} */ this.edits = [];
    /** @type {number[]} */ this.stack = [];
    this.next = 1;
    this.journal = '';
    this.savedJournal = '';
    /** whether a download was the last way of saving: nothing tells the page how it ended */ this.downloaded = false;
    /** what was typed and not run */ this.draft = '';
    /** @type {Review[]} */ this.reviews = [];
    /** the serial from which edits were made here, and not by who gave the journal */ this.madeFrom = 1;
    /** @type {LogLine[]} */ this.log = [];
    this.selected = -1;
    /** @type {Spot | null} */ this.spot = null;
    /** counts the runs that were kept */ this.version = 0;
    this.runMs = 0;
    this.decoding = false;
    /** how much of the plan was decoded, from 0 to 1 */ this.read = 0;
    this.keeper = new Keeper(() => this.#state(), () => this.emit('kept'));
  }

  #state() {
    const { base, journalFile, journal, savedJournal, reviews, madeFrom, draft, downloaded } = this;
    return {
      baseName: base.name, journalName: journalFile.name, journal, savedJournal, reviews, madeFrom, draft, downloaded,
      edits: this.standing,
    };
  }

  /** @param {string} name @param {(detail?: any) => void} listener */
  on(name, listener) {
    this.listeners.set(name, [...(this.listeners.get(name) ?? []), listener]);
  }

  /** @param {string} name @param {any} [detail] */
  emit(name, detail) {
    for (const listener of this.listeners.get(name) ?? []) listener(detail);
  }

  /**
   * A short message, also for screen readers.
   * @param {string} text @param {'info'|'bad'|'good'} [kind]
   */
  tell(text, kind = 'info') {
    this.emit('tell', { text, kind });
  }

  /** @param {App['view']} view */
  show(view) {
    this.view = view;
    this.emit('view');
  }

  get dirty() {
    return this.loaded && this.journal !== this.savedJournal;
  }

  get standing() {
    return this.edits.reduce((sum, { stands }) => sum + Number(stands), 0);
  }

  /** Whether all packets and links of the plan are known here. */
  get whole() {
    return this.read === 1;
  }

  /**
   * Opens a base plan with its journal. Where the engine refuses them, all stays as it was.
   * @param {Opened} base @param {{name: string, bytes: Uint8Array, handle: any} | null} journal
   * @param {import('./store.mjs').Kept} [kept] a session that is taken up again
   */
  async open(base, journal, kept) {
    const update = await this.worker.call('open', { base: base.bytes, journal: journal?.bytes ?? new Uint8Array(0) });
    await this.keeper.leave(!this.dirty && this.draft === '' && !this.downloaded);
    this.base = base;
    this.journalFile = { name: journal?.name ?? 'journal', handle: journal?.handle ?? null };
    this.planFile = { name: base.name === 'line.plan' ? 'line.new.plan' : 'line.plan', handle: null };
    Object.assign(this,
      { groups: [], reviews: kept?.reviews ?? [], madeFrom: kept ? kept.madeFrom ?? 1 : update.next, log: [], selected: -1, spot: null, loaded: true, read: 0, draft: kept?.draft ?? '', downloaded: kept?.downloaded ?? false });
    this.#take(update);
    this.savedJournal = kept?.savedJournal ?? this.journal;
    this.emit('opened');
    this.select(this.groups.length > 0 ? 0 : -1);
    this.show('edit');
    await this.keeper.begin(base.bytes, kept?.id);
  }

  /** @param {import('../worker/session.mjs').Update} update */
  #take(update) {
    for (const splice of update.splices) {
      const { at, removed } = splice;
      const groups = splice.groups ?? pendingSummaries(/** @type {any} */ (splice));
      if (removed === groups.length) for (let i = 0; i < removed; i += 1) this.groups[at + i] = groups[i];
      else if (at === 0 && removed === this.groups.length) this.groups = groups;
      else this.groups = [...this.groups.slice(0, at), ...groups, ...this.groups.slice(at + removed)];
    }
    const { stack, next, journal, changed, ms } = update;
    const edits = update.inWords ? update.edits : withLastWords(update.edits, this.edits);
    Object.assign(this, { edits, stack, next, journal, runMs: ms, changed: new Set(changed) });
    const first = this.reviews.length;
    this.reviews.push(...update.reviews.map((review, i) => ({ ...review, done: false, id: first + i })));
    this.version += 1;
    if (update.splices.length > 0) {
      this.byId = new Map(this.groups.map((group, i) => [group.id, i]));
      this.read = this.groups.some((group) => group.pending) ? 0 : 1;
    }
    this.emit('plan');
    if (!update.inWords) this.#findWords();
    if (!this.whole) this.#decode();
    else if (update.splices.length > 0) this.#findDangling();
  }

  /** The entries in words, where an update has them by their lines alone: after what the views ask for at once. */
  async #findWords() {
    const { version } = this;
    await null;
    const edits = await this.worker.call('words');
    if (version !== this.version) return;
    this.edits = edits;
    this.emit('words');
  }

  async #findDangling() {
    const { version } = this;
    const found = await this.worker.call('dangling');
    if (version !== this.version) return;
    this.dangling = new Set(found);
    this.emit('links');
  }

  /** Fetches the summaries that are missing, some thousands at a time, so that a large plan is there at once. */
  async #decode() {
    if (this.decoding) return;
    this.decoding = true;
    try {
      for (let from = 0, done = false; !done; ) {
        const { version } = this;
        const some = await this.worker.call('decode', { from, most: DECODED_AT_ONCE });
        if (version !== this.version) { from = 0; continue; } // an edit came between: the places may be others
        some.indexes.forEach((/** @type {number} */ index,
          /** @type {number} */ i) => { this.groups[index] = some.summaries[i]; });
        ({ next: from, done } = some);
        this.read = done ? 1 : from / (this.groups.length + 1);
        this.emit('decoded');
      }
    } finally {
      this.decoding = false;
    }
    await this.#findDangling();
  }

  /**
   * Runs commands as one step, and keeps what comes of them: all, or nothing where one is refused, unless the accepted
   * ones are to be kept.
   * @param {string[]} commands @param {boolean} [keepAccepted] @returns {Promise<Outcome>}
   */
  async run(commands, keepAccepted = false) {
    if (!this.loaded || commands.length === 0) return { kept: false, replies: [] };
    const id = this.groups[this.selected]?.id;
    try {
      const update = await this.worker.call('run', { commands, keepAccepted });
      const groups = commands.length === 1 && update.kept ? groupsIn(update.splices) : undefined;
      this.log.push(...commands.map((command, i) => ({ command, reply: update.replies[i], ms: update.ms, kept: update.kept, groups })));
      if (update.kept) {
        this.#take(update);
        this.#follow(id, commands);
        this.keeper.keep();
      }
      this.emit('log');
      return update;
    } catch (error) {
      this.#failed(commands, error);
      return { kept: false, replies: [] };
    }
  }

  /** @param {string[]} commands @param {any} error */
  #failed(commands, { failure, message }) {
    const note = failure ? failureText(failure).title : message;
    this.log.push({ command: commands.join(' ⏎ ').slice(0, 200), reply: null, ms: 0, kept: false, note });
    this.emit('log');
    this.tell(`${note}. Nothing was done.`, 'bad');
  }

  /**
   * Runs one command; a refusal is told, unless the caller does that.
   * @param {string} command @param {boolean} [quiet]
   */
  async do(command, quiet = false) {
    const { replies: [reply] } = await this.run([command]);
    if (reply?.kind === 'refused' && !quiet) this.tell(`${command} was refused: ${this.reason(reply, command)}`, 'bad');
    return reply;
  }

  /**
   * Runs commands of one click as one step, and tells the refusals.
   * @param {string[]} commands
   */
  async doAll(commands) {
    const outcome = await this.run(commands);
    if (!outcome.kept && outcome.replies.length > 0) this.tell(this.refusals(commands, outcome.replies).join('\n'),
      'bad');
    return outcome;
  }

  /**
   * Why a step was refused as a whole: each reason in words.
   * @param {string[]} commands @param {Reply[]} replies
   */
  refusals(commands, replies) {
    const lines = replies.flatMap((reply, i) => (reply.kind === 'refused' ? [`${commands[i]}: ${this.reason(reply, commands[i])}`] : []));
    return [`Nothing was done: ${plural(lines.length, 'command')} of ${commands.length} would be refused.`, ...lines];
  }

  /** @param {Reply} reply @param {string} [command] that was refused */
  reason(reply, command = '') {
    const unknown = reply.number === 1 && unknownVariable(command);
    if (unknown) return unknown + '.';
    if (reply.number !== 26)
      return `${explain(reply.number).what}.${reply.explained ? ' ' + faultWords(reply.explained) : ''}`;
    const edit = this.edits.find(({ s }) => s === reply.first);
    return `edit ${reply.first} depends on it${edit ? ` (${edit.where}: ${edit.what})` : ''}.`;
  }

  /**
   * Stays at the group that was shown, also after it was renumbered or moved.
   * @param {string | undefined} id @param {string[]} commands
   */
  #follow(id, commands) {
    let now = id;
    for (const command of commands) {
      const [kind, group, number] = command.split(' ');
      if (kind === 'renumber' && group === now) now = `${group.split('.')[0]}.${number}`;
    }
    const to = this.byId.get(now ?? '') ?? this.byId.get(id ?? '') ?? Math.min(this.selected, this.groups.length - 1);
    if (to !== this.selected) this.spot = null;
    this.selected = to;
    this.emit('select');
  }

  /** @param {number} index @param {Spot | null} [spot] */
  select(index, spot = null) {
    this.selected = index;
    this.spot = spot;
    this.emit('select');
  }

  /**
   * Shows a place in the edit view.
   * @param {{group: number, pig: number | null, pkt: number | null, name?: string, k?: number} | null} place
   */
  jump(place) {
    if (!place) return;
    if (this.view !== 'edit') this.show('edit');
    this.select(place.group,
      place.pig === null ? null : { pig: place.pig, pkt: place.pkt, name: place.name, k: place.k });
    this.emit('pane', 'group');
  }

  /** @param {string} id */
  jumpTo(id) {
    const group = this.byId.get(id);
    if (group === undefined) this.tell(`No group of the plan is ${id}.`, 'bad');
    else this.jump({ group, pig: null, pkt: null });
  }

  /** @param {Review} review @param {boolean} done */
  mark(review, done) {
    review.done = done;
    this.keeper.keep();
    this.emit('reviews');
  }

  /**
   * The standing edit after its turn that set the place of a review, or undefined.
   * @param {Review} review
   */
  answered(review) {
    if (review.opaque) return undefined;
    const path = `${review.path}.${review.name}.${review.k}`;
    return [...this.edits].reverse().find((edit) => edit.stands && edit.s > review.turn && edit.path === path);
  }

  /** Reviews of turns that stand. */
  get openReviews() {
    const standing = new Set(this.edits.filter((edit) => edit.stands).map((edit) => edit.s));
    return this.reviews.filter((review) => standing.has(review.turn));
  }

  /** Turns that stand and came with the journal: what they left to look at isn't known here. */
  get turnsGiven() {
    return this.edits.filter(({ kind, s, stands }) =>
      kind === 'turn' && stands && s < this.madeFrom && !this.reviews.some(({ turn }) => turn === s));
  }

  /** Reviews that a person has still to work through. */
  get waitingReviews() {
    return this.openReviews.filter((review) => !review.done && !this.answered(review));
  }

  /**
   * What is typed and not run is kept too.
   * @param {string} text
   */
  keepDraft(text) {
    this.draft = text;
    this.keeper.keep();
  }

  /** Brings the session back after the worker stopped. */
  async recover() {
    try {
      await this.worker.restart();
      Object.assign(this, { groups: [], read: 0 });
      if (this.loaded) this.#take(await this.worker.call('open',
        { base: this.base.bytes, journal: new TextEncoder().encode(this.journal) }));
      this.tell('The engine stopped and was started again. All edits that were accepted are there.', 'bad');
    } catch (error) {
      this.tell(`The engine stopped: ${/** @type {any} */ (error).message}. Save the journal, and load the page again.`,
        'bad');
    }
  }

  async saveJournal() {
    const { journal } = this;
    return this.#save(journal, this.journalFile, () => { this.savedJournal = journal; });
  }

  async savePlan() {
    return this.#save(await this.worker.call('plan'), this.planFile, () => {});
  }

  /** @param {string} text @param {{name: string, handle: any}} file @param {() => void} done */
  async #save(text, file, done) {
    if (!this.loaded) return;
    try {
      const saved = await saveText(text, file.name, file.handle, this.base.handle);
      if (!saved) return;
      if (saved.handle) Object.assign(file, { handle: saved.handle, name: saved.name });
      if (file === this.journalFile) this.downloaded = saved.how === 'download';
      done();
      this.keeper.keep();
      this.tell(saved.how === 'place' ? `Saved ${saved.name}.` : `${saved.name} was given to the browser’s downloads.`,
        'good');
      this.emit('saved');
    } catch (error) {
      this.tell(`Not saved: ${/** @type {any} */ (error).message}. A file that was there before is as it was.`, 'bad');
    }
  }
}

/**
 * How many groups splices change.
 * @param {any[]} splices
 */
function groupsIn(splices) {
  return splices.reduce((sum, { removed, groups, balises }) => sum + Math.max(removed, (groups ?? balises).length), 0);
}
