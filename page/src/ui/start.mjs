// @ts-check
/** The first view: where files go, what was left behind, and what can be done here. */
import { button, h, icon, plural, put } from './dom.mjs';
import { forget, isUnsaved, keptBase, leftBehind } from './store.mjs';

/** @param {import('./app.mjs').App} app @param {{open: () => void}} actions */
export function startView(app, { open }) {
  const left = h('div.left-behind');
  const example = () => app.open(
    {
      name: 'line.base', bytes: new TextEncoder().encode(document.getElementById('example-plan')?.textContent ?? ''),
      handle: null,
    },
    null);
  const refresh = async () => put(left, (await leftBehind().catch(() => [])).map((kept) => notice(app, kept, refresh)));
  refresh();
  return h('section.start', { 'aria-label': 'Open a plan' }, left,
    h('div.drop', null,
      h('div.triangles', { 'aria-hidden': 'true' }, h('span.balise'), h('span.balise'), h('span.balise')),
      h('h1', null, 'Drop a base plan here'), h('p', null,
        'and its journal, if there is one. Three files go to the checker.'),
      h('div.buttons', null, button({ icon: 'open', text: 'Open files', class: 'primary big', onclick: open }), button({ text: 'Look at an example', class: 'big', onclick: example }))),
    h('div.cards', null,
      card('Edit',
        'Change a value, move a packet, renumber a group or turn it round. Strike any earlier edit, and see first what depends on it.'),
      card('Look',
        'Telegrams decoded, with units; the line as a picture or a text, with its links and which way each group lies.'),
      card('Check', 'Base plan, journal and delivered plan: one verdict, with what differs by group, packet, field and bit, and a report to print.')),
    h('p.muted.small.promise', null, 'The proved engine runs in this page. Nothing leaves your machine: the page may not use the network at all.'));
}

/** @param {string} title @param {string} text */
const card = (title, text) => h('div.card-plain', null, h('h2', null, title), h('p.muted', null, text));

/**
 * A session that a crash or a closed tab left.
 * @param {import('./app.mjs').App} app @param {import('./store.mjs').Kept} kept @param {() => void} refresh
 */
function notice(app, kept, refresh) {
  const title = isUnsaved(kept) ? `Unsaved edits of ${kept.baseName}` : `${kept.baseName}, saved by a download`;
  const why = isUnsaved(kept) ? 'The journal wasn’t saved to a file.'
    : 'A page isn’t told how a download ended, so a copy stays for a week.';
  const goOn = async () => {
    if (!(await leftBehind()).some(({ id }) => id === kept.id)) return app.tell('Another tab has this session now.', 'bad');
    const bytes = await keptBase(kept.id);
    if (!bytes) return app.tell('The base plan of this session wasn’t kept. Open its file, and then the journal.',
      'bad');
    await app.open({ name: kept.baseName, bytes, handle: null },
      { name: kept.journalName, bytes: new TextEncoder().encode(kept.journal), handle: null }, kept);
  };
  const discard = async () => { await forget(kept.id); refresh(); };
  return h('div.notice', null, icon('warn'),
    h('div', null, h('b', null, title),
      h('p.muted', null, `${plural(kept.edits, 'edit')} stand, from ${new Date(kept.when).toLocaleString('en-GB')}. ${why}`)),
    h('div.buttons', null, button({ text: 'Go on', class: 'primary', onclick: goOn }), button({ text: 'Discard', onclick: discard })));
}
