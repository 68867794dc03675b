// @ts-check
/** All that differs from the base plan. */
import { groupDiff } from './diff_view.mjs';
import { h, plural, put } from './dom.mjs';

/** Groups that are shown at once. */
const MOST = 200;

/** @param {import('./app.mjs').App} app */
export function changesPane(app) {
  const element = h('div.changes-pane', { tabindex: 0, role: 'region', 'aria-label': 'Changes' });
  let shown = -1;
  async function show() {
    if (!app.loaded || (shown === app.version && element.childElementCount > 0)) return;
    shown = app.version;
    const changes = await app.worker.call('changes');
    const jump = (/** @type {any} */ { index }) => app.jump({ group: index, pig: null, pkt: null });
    put(element,
      changes.length === 0 ? h('p.empty.muted', null, 'The plan is the base plan, bit for bit.')
        : h('p.muted.small', null,
          `${plural(changes.length, 'group')} of the plan ${changes.length === 1 ? 'differs' : 'differ'} from ${app.base.name}.`),
      changes.slice(0, MOST).map((/** @type {any} */ diff) => groupDiff(diff, { columns: ['base', 'now'], jump })),
      changes.length > MOST && h('p.muted', null, `and ${changes.length - MOST} more`));
  }
  return { element, show };
}
