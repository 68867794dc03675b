// @ts-check
/** Short messages, and the sign that the engine is at work. */
import { button, h, icon } from './dom.mjs';

const MOST = 3;
const SHOWN_MS = 5000;
/** A run that is shorter shows no sign. */
const LATE_MS = 120;

/** @param {import('./app.mjs').App} app */
export function messages(app) {
  const element = h('div.toasts', { role: 'status', 'aria-live': 'polite' });
  app.on('tell', ({ text, kind }) => {
    const toast = h('div.toast', { class: kind }, icon(kind === 'bad' ? 'cross' : 'check'), h('span', null, text),
      button({ icon: 'cross', title: 'Close', class: 'quiet', onclick: () => toast.remove() }));
    element.append(toast);
    while (element.childElementCount > MOST) element.firstElementChild?.remove();
    if (kind !== 'bad') setTimeout(() => toast.remove(), SHOWN_MS);
  });
  app.on('log', () => { // a refusal is answered by the next run that is kept
    if (app.log[app.log.length - 1]?.kept) for (const toast of element.querySelectorAll('.bad')) toast.remove();
  });
  return element;
}

/** @param {import('./worker_calls.mjs').WorkerCalls} worker */
export function busySign(worker) {
  const element = h('div.busy', { hidden: true, role: 'progressbar', 'aria-label': 'The engine is at work' });
  /** @type {any} */
  let late = 0;
  worker.onbusy = (busy) => {
    clearTimeout(late);
    if (busy) late = setTimeout(() => { element.hidden = false; }, LATE_MS);
    else element.hidden = true;
  };
  return element;
}
