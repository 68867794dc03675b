// @ts-check
/**
 * The report of a check: verdict, facts, what differs, the change request, the edits, and the checksums. It prints well.
 */
import { metresText } from '../core/variables.mjs';
import { failureText } from '../core/refusals.mjs';
import { groupDiff } from './diff_view.mjs';
import { button, h, icon, plural, put } from './dom.mjs';
import { fieldsView } from './fields_view.mjs';
import { ROLES } from './roles.mjs';
import { builtWith } from './worker_calls.mjs';

/**
 * @typedef {import('./check_view.mjs').Checked} Checked
 * @typedef {import('../worker/checker.mjs').Role} Role
 * @typedef {{names: Record<Role, string>, sizes: Record<Role, number>, request: {text: string}}} Given
 */

const MOST_GROUPS = 100;
const MOST_EDITS = 2000;
const MOST_LINKS = 30;

/** @param {Checked} answer @param {Given} given */
export function checkReport(answer, given) {
  const { failures, differs, changes, edits } = answer;
  const made = !failures.base && !failures.journal;
  return [
    verdict(answer, given),
    answer.finding.commands && h('section', null, h('h3', null, 'The difference as commands'),
      h('pre.entry', null, answer.finding.commands.join('\n'))),
    facts(answer, given),
    differs.length > 0 && diffSection(`What differs from the plan that they make (${differs.length})`, differs,
      ['made', 'delivered'], true),
    made && requestSection(changes, differs, given.request),
    edits.length > 0 && editsSection(edits),
    made && changes.length > 0 && diffSection(
      `What the edits changed in ${given.names.base} (${plural(changes.length, 'group')})`, changes, ['base', 'made'],
      false),
    filesSection(answer, given),
  ];
}

/** @param {Checked} answer @param {Given} given */
function verdict({ verdict: word, finding, edits }, { names }) {
  const standing = edits.filter(({ stands }) => stands).length;
  const title = word === 'no' && finding.kind !== 'base' && finding.kind !== 'delivered'
    ? `They don’t belong together. ${finding.title}` : finding.title;
  const text = word === 'yes'
    ? [`${names.delivered} is ${names.base} with the ${plural(standing, 'edit')} that stand in ${names.journal}, and nothing else, byte for byte.`]
    : finding.details;
  return h('div.verdict', { class: word, role: 'status', tabindex: -1, data: { finding: finding.kind } },
    icon(word === 'yes' ? 'check' : word === 'bytes' ? 'warn' : 'cross'),
    h('div', null, h('h3', null, title), text.map((line) => h('p', null, line))),
    h('div.buttons', null, button({ icon: 'print', text: 'Print report', onclick: () => print() })));
}

/** @param {boolean | null} good null where a person has to judge @param {string} text @param {...any} more */
function fact(good, text, ...more) {
  const words = good ? 'right' : good === null ? 'look at it' : 'wrong';
  return h('li', { class: good === null ? 'unsure' : good ? 'good' : 'bad' },
    icon(good ? 'check' : good === null ? 'warn' : 'cross'), h('span.sr', null, words + ': '),
    h('div', null, text, more));
}

/** @param {import('../worker/session.mjs').Failure} failure */
function failureLines(failure) {
  const { name, title, usually, line } = failureText(failure);
  return [h('p.muted', null, h('code', null, name), ' ', title, '. ', !failure.explained && usually, line && h('code.entry', null, line)),
    fieldsView(failure.explained)];
}

/** @param {Checked} answer @param {Given} given */
function facts(answer, { names }) {
  const { failures, damage, rewritten, verdict: word, links } = answer;
  const wrong = ROLES.flatMap(([role, name]) => damage[role].map(({ text }) => fact(null, `${name}, ${names[role]}: ${text}`)));
  const journalGood = names.journal === 'no journal' ? 'No journal: the plans are compared as they are'
    : `${names.journal} fits it: each edit notes the old value again`;
  return h('ul.facts', null,
    failures.base ? fact(false, `${names.base} isn’t a plan`, failureLines(failures.base))
      : fact(true, `${names.base} is a plan that the engine reads`),
    failures.base ? null : failures.journal
      ? fact(false, `${names.journal} doesn’t fit ${names.base}`, failureLines(failures.journal))
      : fact(true, journalGood),
    rewritten && fact(null, `${names.journal} isn’t as the engine prints it`,
      h('p.muted', null, 'An older version, capital letters, or another NEXT.')),
    failures.delivered ? fact(false, `${names.delivered} isn’t a plan`, failureLines(failures.delivered))
      : failures.base || failures.journal ? fact(true, `${names.delivered} is a plan that the engine reads`)
        : fact(word === 'yes' ? true : word === 'bytes' ? null : false,
          word === 'yes' ? `${names.delivered} is byte for byte what they make` : word === 'bytes' ? `${names.delivered} has the same bits, but the files haven’t the same bytes` : `${names.delivered} isn’t what they make`),
    wrong, links ? linkFacts(links, names.delivered) : h('li.muted', { role: 'status' }, 'Reading the links …'));
}

/** @param {{dangling: any[], unknown: [string, string][]}} links @param {string} delivered */
function linkFacts({ dangling, unknown }, delivered) {
  const words = dangling.length === 0 ? 'Each link names a group of the plan'
    : `${plural(dangling.length, 'link')} of ${delivered} ${dangling.length === 1 ? 'names' : 'name'} no group of it`;
  const lines = dangling.slice(0, MOST_LINKS).map(({ from, pig, pkt, k, to, metres }) => `${from} ${pig} ${pkt} NID_BG ${k}: ${to}${metres === null ? '' : ' ' + metresText(metres)}`);
  if (dangling.length > MOST_LINKS) lines.push(`and ${dangling.length - MOST_LINKS} more`);
  const groups = unknown.slice(0, MOST_LINKS).map(([id, packets]) => `${id}: ${packets}`);
  if (unknown.length > MOST_LINKS) groups.push(`and ${unknown.length - MOST_LINKS} more`);
  return [
    fact(dangling.length === 0 ? true : null, words,
      lines.length > 0 && h('p.muted.mono.small', null, lines.join('\n'))),
    unknown.length > 0 && fact(null,
      `${plural(unknown.length, 'group')} ${unknown.length === 1 ? 'has' : 'have'} packets whose content the engine doesn’t know; a renumbering doesn’t follow numbers in them`,
      h('p.muted.mono.small', null, groups.join('\n'))),
  ];
}

/** @param {string} title @param {any[]} diffs @param {[string, string]} columns @param {boolean} bits */
function diffSection(title, diffs, columns, bits) {
  return h('section', null, h('h3', null, title),
    diffs.slice(0, MOST_GROUPS).map((diff) => groupDiff(diff, { columns, bits, tone: bits ? 'delivered' : '' })),
    diffs.length > MOST_GROUPS && h('p.muted', null, `and ${diffs.length - MOST_GROUPS} more`));
}

/** @param {any[]} diffs */
const namesIn = (diffs) => diffs.flatMap(({ before, after }) => [before, after]).filter(Boolean);

/**
 * Whether only the groups of a change request differ.
 * @param {any[]} changes @param {any[]} differs @param {{text: string}} request
 */
function requestSection(changes, differs, request) {
  const result = h('div', { 'aria-live': 'polite' });
  const names = new Set([...namesIn(changes), ...namesIn(differs)]);
  /** @param {string} text @param {string[]} ids */
  const warning = (text, ids) => ids.length > 0 && h('p.warn', null, icon('warn'),
    h('span', null, text, h('b.mono', null, ids.join(', '))));
  const compare = () => {
    const wanted = new Set(request.text.split(/[\s,;]+/).filter(Boolean));
    const more = [...names].filter((id) => !wanted.has(id));
    const less = [...wanted].filter((id) => !names.has(id));
    section.classList.toggle('given', wanted.size > 0);
    if (wanted.size === 0) return put(result, h('p.muted.small', null, `Changed: ${[...names].join(', ') || 'none'}`));
    put(result, more.length + less.length === 0 && h('p.fine', null, icon('check'),
      ' Just the groups of the request changed.'),
      warning('Changed, but not in the request: ', more), warning('In the request, but not changed: ', less));
  };
  const box = h('textarea.mono',
    { id: 'request', rows: 2, value: request.text, placeholder: '5.100 5.200 5.250', spellcheck: 'false', oninput: () => { request.text = box.value; compare(); } });
  const section = h('section.request', null, h('h3', null, 'Groups of the change request'),
    h('label.muted.small', { for: 'request' }, 'Identities, a renumbered group by both numbers'), box, result);
  compare();
  return section;
}

/** @param {import('../core/words.mjs').Edit[]} edits */
function editsSection(edits) {
  const standing = edits.filter(({ stands }) => stands).length;
  const row = (/** @type {import('../core/words.mjs').Edit} */ {
    s, where, what, detail, stands,
  }) => h('tr', { class: stands ? '' : 'undone' },
    h('td.mono', null, s), h('td.mono', null, where), h('td', null, what, !stands && ' (undone)'), h('td.muted', null, detail));
  return h('section', null, h('h3', null,
    `Edits that stand (${standing} of ${edits.length}), by the identities of today`),
    h('div.scroll-x', {
      tabindex: 0, role: 'region', 'aria-label': 'Edits',
    }, h('table.edits', null, h('thead', null, h('tr', null, ['edit', 'group', 'what', 'where'].map((word) => h('th', { scope: 'col' }, word)))),
      h('tbody', null, edits.slice(0, MOST_EDITS).map(row)))),
    edits.length > MOST_EDITS && h('p.muted', null, `and ${edits.length - MOST_EDITS} more`));
}

/** @param {Checked} answer @param {Given} given */
function filesSection({ sums, ms, when, groups }, { names, sizes }) {
  const rows = ROLES.filter(([role]) => sums[role]).map(([role, name]) => h('tr', null,
    h('td', null, name), h('td.mono', null, names[role]), h('td.muted', null, plural(sizes[role], 'byte')), h('td.mono.small', null, sums[role])));
  return h('section.sums', null, h('h3', null, 'Files, with their SHA-256'),
    h('div.scroll-x', { tabindex: 0, role: 'region', 'aria-label': 'Files' }, h('table', null, h('tbody', null, rows))),
    h('p.small', null,
      `Checked ${when.toString()} (${when.toISOString()}) in ${Math.round(ms)} ms: ${plural(groups, 'group')}, by the engine of baliseplan ${builtWith('engine-version')}, SHA-256 ${builtWith('engine-sha256')}.`),
    h('p.muted.small', null, 'A raised NEXT, an insert cut out together with its delete, and reordered undone lines make no difference to a plan: ask for checksums with the delivery. One engine gave this answer. For a second opinion run plandesk verify, which asks the reference program too.'));
}
