// @ts-check
/** The bar of commands: the box, and the log of all commands that were run, by hand or by a click. */
import { commandsOf } from '../core/commands.mjs';
import { CommandBox } from './command_box.mjs';
import { button, h, plural, put } from './dom.mjs';
import { dialog } from './dialogs.mjs';
import { replyLine, trialDialog } from './trial_view.mjs';

const MOST_IN_LOG = 400;
/** More commands than these don't fit the box: what they would do is shown, and they are run from there. */
const MOST_IN_BOX = 200;

/** @param {import('./app.mjs').App} app */
export function commandBar(app) {
  const keepAccepted = h('input', { type: 'checkbox', id: 'keep-accepted' });
  /** @type {CommandBox} */
  const box = new CommandBox(app, { run: () => run(box.commands), tryOut });
  const { element: drawer, toggle, last } = logDrawer(app);

  /** @param {string[]} commands */
  async function run(commands) {
    if (commands.length === 0) return;
    box.hide();
    const { kept, replies } = await app.run(commands, keepAccepted.checked);
    box.ran(kept);
    if (commands.length > 1
      && replies.some(({ kind }) => kind === 'refused')) refusedDialog(app, commands, replies, kept);
  }

  async function tryOut() {
    const { commands } = box;
    if (commands.length === 0) return app.tell('Enter a command to try.');
    box.hide();
    try {
      await trialDialog(app, commands, () => run(commands));
    } catch (error) {
      app.tell(/** @type {any} */ (error).message, 'bad');
    }
  }

  /**
   * Commands of a file: into the box, or tried where they are many.
   * @param {string} text
   */
  async function take(text) {
    const lines = commandsOf(text);
    if (lines.length > MOST_IN_BOX) return trialDialog(app, lines, () => run(lines));
    box.set(lines.join('\n'));
    box.input.focus();
    app.tell(`${plural(lines.length, 'command')} in the box. Enter runs them as one step, Ctrl Enter tries them.`);
  }

  app.on('command', () => box.input.focus());
  app.on('commands', take);
  app.on('opened', () => box.set(app.draft));
  return h('footer.command-bar', { 'aria-label': 'Commands' }, drawer,
    h('div.prompt', null, h('span.sign', { 'aria-hidden': 'true' }, '›'), box.element,
      button({
        text: 'Run', class: 'quiet', title: 'Run as one step: all, or none (Enter)', onclick: () => run(box.commands),
      }),
      button({
        text: 'Try', class: 'quiet', title: 'Show what it would change, and keep nothing (Ctrl Enter)', onclick: tryOut,
      }),
      h('label.keep', { title: 'Where some of several commands are refused, keep the others' }, keepAccepted,
        h('span', null, 'keep accepted')),
      last, toggle));
}

/**
 * Several commands of which some were refused: each with its reason.
 * @param {import('./app.mjs').App} app @param {string[]} commands @param {import('./app.mjs').Reply[]} replies @param {boolean} kept
 */
function refusedDialog(app, commands, replies, kept) {
  const refused = replies.filter(({ kind }) => kind === 'refused').length;
  const words = `${plural(refused, 'command')} of ${commands.length} ${refused === 1 ? 'was' : 'were'} refused. `;
  const element = dialog(kept ? 'Some were refused' : 'Nothing was done',
    h('p', null, words,
      kept ? 'The others were done.' : 'All are one step, so none was done. Correct them in the box and run them again.'),
    h('ul.plain.refused-list', null,
      commands.flatMap((command, i) => (replies[i].kind === 'refused' ? [replyLine(app, command, replies[i], `${i + 1}: `)] : []))),
    h('div.buttons', null, button({ text: 'Close', class: 'primary', onclick: () => element.close() })));
}

/** @param {import('./app.mjs').App} app @param {import('./app.mjs').LogLine} line */
function answer(app, { command, reply, note, groups, kept }) {
  if (!reply) return h('span.bad', null, note ?? '');
  if (reply.kind === 'refused') return [h('span.bad.mono', null, reply.text),
    h('span.muted', null, ' ', app.reason(reply, command))];
  if (!kept) return h('span.muted', null, 'not done, since another one was refused');
  return [
    h('span.good.mono', null, reply.text), groups !== undefined && h('span.muted', null,
      ` · ${plural(groups, 'group')} changed`),
    reply.reviews.length > 0 && h('span.amber', null, ` · ${reply.reviews.length} to review`),
  ];
}

/** @param {import('./app.mjs').App} app */
function logDrawer(app) {
  let open = false;
  const last = h('div.last', { 'aria-live': 'polite' });
  const log = h('ol.log', { tabindex: 0, 'aria-label': 'Commands that were run' });
  const toggle = button({
    text: 'Log', class: 'quiet', 'aria-expanded': 'false', onclick: () => { open = !open; paint(); },
  });
  const accepted = () => app.log.filter(({ reply, kept }) => kept && reply
    && reply.kind !== 'refused').map(({ command }) => command + '\n').join('');
  const element = h('div.drawer', { hidden: true },
    h('header', null, h('h3', null, 'Commands that were run'), h('span.muted.small', null,
      'also those of clicks; paste them into your scripts'),
      h('div.buttons', null, button({ icon: 'copy', text: 'Copy accepted', class: 'quiet', onclick: () => copy(accepted()) }))), log);

  /** @param {string} text */
  async function copy(text) {
    try {
      await navigator.clipboard.writeText(text);
      app.tell('Copied.', 'good');
    } catch {
      app.tell('The browser doesn’t let the page copy. Mark the text by hand.', 'bad');
    }
  }

  function paint() {
    toggle.setAttribute('aria-expanded', String(open));
    element.hidden = !open;
    const line = app.log[app.log.length - 1];
    const ms = line?.ms ? `${line.ms < 10 ? line.ms.toFixed(1) : Math.round(line.ms)} ms` : '';
    put(last, line && [answer(app, line), h('span.muted.small.ms', null, ms), h('code.muted', null, line.command)]);
    last.title = last.textContent;
    if (!open) return;
    put(log,
      app.log.slice(-MOST_IN_LOG).map((each) => h('li', null, h('code', null, each.command), h('span', null, answer(app, each)), button({ icon: 'copy', title: 'Copy ' + each.command, class: 'quiet', onclick: () => copy(each.command) }))));
    log.scrollTop = log.scrollHeight;
  }
  app.on('log', paint);
  app.on('opened', paint);
  return { element, toggle, last };
}
