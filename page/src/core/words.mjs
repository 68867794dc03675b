// @ts-check
/** The entries of a journal in words, with the places that they have now. */
import { meaning, packetName, scaleOf } from './variables.mjs';

/**
 * @typedef {object} Edit an entry as it is shown
 * @property {number} s serial
 * @property {string} kind @property {boolean} stands @property {string} line
 * @property {string} what in words
 * @property {string} where identity of the group as it is now, or as it was
 * @property {string} detail balise and packet in words
 * @property {{group: number, pig: number | null, pkt: number | null, name?: string, k?: number} | null} place to jump to
 * @property {string} path the tagged place, with the variable: finds the edits of one place
 *
 * @typedef {object} Look what the plan has
 * @property {(index: number) => string} now identity of the group at a place
 * @property {(tag: string) => string} was what a group was that isn't in the plan
 * @property {(path: string) => number | undefined} number of a packet, also of one that is gone
 * @property {(group: number, pig: number, pkt: number) => [string, number][] | undefined} packet its fields
 */

/**
 * What the kinds without a variable did.
 * @type {Record<string, (packet: string, words: string[]) => string>}
 */
const DID = {
  insert: (packet) => `put in packet ${packet}`,
  delete: (packet) => `took out packet ${packet}`,
  move: (packet) => `moved packet ${packet}`,
  turn: () => 'turned round',
  add: (_, words) => `added a group of ${words.length - 1}`,
  drop: () => 'took the group out',
  renumber: (_, words) => `renumbered ${words[2]} → ${words[1]}`,
};

/** @param {string} name @param {string} old @param {string} value @param {number} [scale] */
function changeWords(name, old, value, scale) {
  const [before, after] = [meaning(name, Number(old), scale), meaning(name, Number(value), scale)];
  return `${old} → ${value}` + (before || after ? ` (${before || old} → ${after || value})` : '');
}

/**
 * The path of what an entry is about.
 * @param {import('./journal.mjs').Entry} entry
 */
function pathOf({ kind, s, words }) {
  if (kind === 'add') return 'n' + s;
  return kind === 'insert' ? `${words[0]}/n${s}` : words[0];
}

/**
 * The same with the variable.
 * @param {import('./journal.mjs').Entry} entry
 */
function variablePath(entry) {
  const [, name, k] = entry.words;
  const path = pathOf(entry);
  return entry.kind === 'set' ? `${path}.${name}.${k}` : entry.kind === 'seth' ? `${path}.${name}` : path;
}

/** @param {string} path @param {Edit['place']} place @param {number | undefined} number of the packet */
function detailWords(path, place, number) {
  const [, t, p] = path.split('/');
  if (t === undefined) return '';
  const packet = p === undefined ? ''
    : `, packet ${place?.pkt ?? p}` + (number === undefined ? '' : ` (${number} ${packetName(number)})`);
  return place ? `balise ${place.pig}${packet}` : `telegram ${t}${packet} (not in the plan now)`;
}

/**
 * @param {import('./journal.mjs').Entry} entry @param {import('./tags.mjs').Tags} tags @param {Look} look
 * @returns {Edit}
 */
function entryInWords(entry, tags, look) {
  const { s, kind, stands, line, words } = entry;
  const path = pathOf(entry);
  const place = tags.find(path);
  const number = look.number(path);
  const where = place ? look.now(place.group) : look.was(path.split('/')[0]);
  /** @type {Edit} */
  const edit = { s, kind, stands, line, where, detail: detailWords(path, place, number), place, path: variablePath(entry), what: '' };
  if (kind === 'set') {
    const [, name, k, value, old] = words;
    const fields = place?.pig != null && place.pkt != null ? look.packet(place.group, place.pig, place.pkt) : undefined;
    edit.what = `${name}${Number(k) > 0 ? ` (${k})` : ''} ${changeWords(name, old, value, scaleOf(fields ?? []))}`;
    if (place) edit.place = { ...place, name, k: Number(k) };
  } else if (kind === 'seth') {
    const [, name, value, old] = words;
    edit.what = `${name} ${changeWords(name, old, value)}`;
    if (place) edit.place = { ...place, name };
  } else edit.what = DID[kind](String(number ?? '?'), words);
  return edit;
}

/**
 * The entries in words.
 * @param {import('./journal.mjs').Journal} journal @param {import('./tags.mjs').Tags} tags @param {Look} look
 */
export const inWords = (journal, tags, look) => journal.entries.map((entry) => entryInWords(entry, tags, look));

/**
 * The entries by their lines, as they are shown until their words are there.
 * @param {import('./journal.mjs').Journal} journal @returns {Edit[]}
 */
export const byLines = (journal) => journal.entries.map((entry) => {
  const { s, kind, stands, line } = entry;
  return { s, kind, stands, line, what: line, where: '', detail: '', place: null, path: variablePath(entry) };
});

/**
 * Entries by their lines, with the words that they had before: most are still right.
 * @param {Edit[]} edits @param {Edit[]} before
 */
export function withLastWords(edits, before) {
  const known = new Map(before.map((edit) => [edit.line, edit]));
  return edits.map((edit) => {
    const { what, where, detail } = known.get(edit.line) ?? edit;
    return { ...edit, what, where, detail };
  });
}
