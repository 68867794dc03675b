// @ts-check
/** The list of groups with their links, kept beside the plan: only groups that a run changed are decoded. */
import { linksOf, summaryOf } from '../core/links.mjs';
import { layOut } from '../core/line.mjs';
import { CHUNK, balisesOf, idOf } from './decoder.mjs';

/**
 * @typedef {import('../core/links.mjs').Summary} Summary
 * @typedef {import('../core/links.mjs').Link} Link
 * @typedef {{at: number, removed: number, groups: Summary[]}} Splice
 */

/**
 * Splices for a message: of many groups that aren't decoded yet the identities go as one text, since 100,000 objects take
 * the page long to receive.
 * @param {Splice[]} splices
 */
export function packSplices(splices) {
  return splices.map(({ at, removed, groups }) => {
    if (groups.length <= CHUNK || !groups.every(({ pending }) => pending)) return { at, removed, groups };
    return { at, removed, ids: groups.map(({ id }) => id).join(' '), balises: Uint8Array.from(groups, ({ balises }) => balises) };
  });
}

export class Overview {
  /** @param {import('./decoder.mjs').Decoder} decoder */
  constructor(decoder) {
    this.decoder = decoder;
    /** @type {string[]} texts of the groups, as the engine printed them */ this.texts = [];
    /** @type {string[]} */ this.ids = [];
    /** @type {(Link[] | null)[]} null where the group isn't decoded yet */ this.links = [];
    /** @type {string[]} the packets of each, as a summary has them */ this.packets = [];
  }

  /**
   * Takes the groups of a new plan, and returns what changed, the last first.
   * @param {string[]} texts @returns {Splice[]}
   */
  update(texts) {
    const old = this.texts;
    this.texts = texts;
    if (old.length !== texts.length) return [this.#replaceMiddle(old, texts)];
    /** @type {number[]} */
    const changed = [];
    for (let i = 0; i < texts.length; i += 1) if (texts[i] !== old[i]) changed.push(i);
    const { summaries, links } = this.#brief(changed.map((i) => texts[i]));
    for (const [i, at] of changed.entries()) this.#put(at, 1, [summaries[i]], [links[i]]);
    return changed.map((at, i) => ({ at, removed: 1, groups: [summaries[i]] })).reverse();
  }

  /**
   * What lies between the groups at both ends that are the same.
   * @param {string[]} old @param {string[]} texts @returns {Splice}
   */
  #replaceMiddle(old, texts) {
    const least = Math.min(old.length, texts.length);
    let [head, tail] = [0, 0];
    while (head < least && old[head] === texts[head]) head += 1;
    while (tail < least - head && old[old.length - 1 - tail] === texts[texts.length - 1 - tail]) tail += 1;
    const { summaries, links } = this.#brief(texts.slice(head, texts.length - tail));
    const removed = old.length - head - tail;
    this.#put(head, removed, summaries, links);
    return { at: head, removed, groups: summaries };
  }

  /** @param {number} at @param {number} removed @param {Summary[]} summaries @param {(Link[] | null)[]} links */
  #put(at, removed, summaries, links) {
    if (removed === 1 && links.length === 1) {
      this.links[at] = links[0];
      this.ids[at] = summaries[0].id;
      this.packets[at] = summaries[0].packets;
      return;
    }
    this.links = [...this.links.slice(0, at), ...links, ...this.links.slice(at + removed)];
    this.ids = [...this.ids.slice(0, at), ...summaries.map(({ id }) => id), ...this.ids.slice(at + removed)];
    this.packets = [...this.packets.slice(0, at), ...summaries.map(({ packets }) => packets),
      ...this.packets.slice(at + removed)];
  }

  /**
   * Summaries and links, or only identities where there are many.
   * @param {string[]} texts
   */
  #brief(texts) {
    if (texts.length > CHUNK) {
      const summaries = texts.map((text) => ({ id: idOf(text), balises: balisesOf(text), packets: '', pending: true }));
      return { summaries, links: /** @type {(Link[] | null)[]} */ (texts.map(() => null)) };
    }
    const views = this.decoder.views(texts);
    return { summaries: views.map(summaryOf), links: /** @type {(Link[] | null)[]} */ (views.map(linksOf)) };
  }

  /**
   * Decodes some groups that aren't yet, from a place on.
   * @param {number} from @param {number} [most]
   */
  decodeSome(from, most = CHUNK) {
    /** @type {number[]} */
    const indexes = [];
    let at = from;
    for (; at < this.links.length && indexes.length < most; at += 1) if (this.links[at] === null) indexes.push(at);
    const views = this.decoder.views(indexes.map((i) => this.texts[i]));
    const summaries = views.map(summaryOf);
    for (const [i, index] of indexes.entries()) {
      this.links[index] = linksOf(views[i]);
      this.packets[index] = summaries[i].packets;
    }
    return { indexes, summaries, next: at, done: at >= this.links.length };
  }

  /** Groups with a link that names no group of the plan. */
  dangling() {
    const here = new Set(this.ids);
    /** @type {number[]} */
    const found = [];
    for (const [i, links] of this.links.entries()) if (links?.some(({ to }) => !here.has(to))) found.push(i);
    return found;
  }

  /** Every such link. */
  danglingLinks() {
    const here = new Set(this.ids);
    return this.links.flatMap((links, i) => (links ?? []).filter(({ to }) => !here.has(to)).map((link) => ({ from: this.ids[i], ...link })));
  }

  /**
   * Links of other groups that name one.
   * @param {string} id
   */
  naming(id) {
    /** @type {(Link & {from: string})[]} */
    const found = [];
    for (const [i, links] of this.links.entries())
      for (const link of links ?? []) if (link.to === id
        && this.ids[i] !== id) found.push({ from: this.ids[i], ...link });
    return found;
  }

  /** Decodes what is left, and lays the line out. */
  layOut() {
    for (let from = 0, done = false; !done; ) ({ next: from, done } = this.decodeSome(from));
    return layOut(this.ids, this.links.map((links) => links ?? []));
  }
}
