// @ts-check
/** What commands would do, found by a run that isn't kept. */
import { dialog } from './dialogs.mjs';
import { groupDiff } from './diff_view.mjs';
import { button, h, plural } from './dom.mjs';

/**
 * @param {import('./app.mjs').App} app @param {string} command @param {import('./app.mjs').Reply} reply
 * @param {string} [before] what stands before the command
 */
export function replyLine(app, command, reply, before = '') {
  const answer = reply.kind === 'refused'
    ? [h('span.bad.mono', null, reply.text), h('span.muted', null, ' ', app.reason(reply, command))]
    : [h('span.good.mono', null, reply.text),
      reply.reviews.length > 0 && h('span.amber', null, ` · ${reply.reviews.length} to review`)];
  return h('li', null, h('code', null, before + command), ' ', answer);
}

/** @param {import('./app.mjs').App} app @param {string[]} commands */
export async function trialView(app, commands) {
  const { replies, diffs, groups } = await app.worker.call('try', { commands });
  const said = groups === 0 ? 'Nothing would change.' : `${plural(groups, 'group')} would change.`;
  return h('div.tried', null, h('p.muted.small', null, `Tried, not kept. ${said}`),
    h('ul.plain', null,
      replies.map((/** @type {any} */ reply, /** @type {number} */ i) => replyLine(app, commands[i], reply))),
    diffs.map((/** @type {any} */ diff) => diff && groupDiff(diff, { columns: ['now', 'then'] })),
    groups > diffs.length && h('p.muted', null, `and ${groups - diffs.length} more`));
}

/** @param {import('./app.mjs').App} app @param {string[]} commands @param {() => void} run */
export async function trialDialog(app, commands, run) {
  const element = dialog('What it would do', await trialView(app, commands), h('div.buttons', null,
    button({ text: 'Close', onclick: () => element.close() }),
    button({ text: commands.length === 1 ? 'Run it' : 'Run them', class: 'primary', onclick: () => { element.close(); run(); } })));
}
