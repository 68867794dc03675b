// @ts-check
/**
 * One tab stop for many controls: arrow keys go from one to the next, as they lie on the page. Home and End go to the first
 * and the last.
 */

/** @param {HTMLElement} element that holds the controls @param {string} selector of the controls */
export function roving(element, selector) {
  const controls = () => /** @type {HTMLElement[]} */ ([...element.querySelectorAll(selector)]).filter((each) => !(/** @type {any} */ (each).disabled));

  /**
   * Makes one control the tab stop.
   * @param {HTMLElement | undefined} stop
   */
  function stopAt(stop) {
    const all = /** @type {NodeListOf<HTMLElement>} */ (element.querySelectorAll(selector));
    for (const each of all) each.tabIndex = each === stop ? 0 : -1;
  }

  element.addEventListener('focusin', (event) => {
    const now = /** @type {HTMLElement} */ (event.target);
    if (now.matches?.(selector)) stopAt(now);
  });
  element.addEventListener('keydown', (event) => {
    const now = /** @type {HTMLElement} */ (event.target);
    if (!now.matches?.(selector) || event.ctrlKey || event.altKey || event.metaKey) return;
    const to = target(controls(), now, event.key);
    if (!to) return;
    event.preventDefault();
    to.focus();
  });

  /** Call it after the controls were made anew. */
  return () => stopAt(controls()[0]);
}

/** @param {HTMLElement[]} all @param {HTMLElement} now @param {string} key */
function target(all, now, key) {
  const at = all.indexOf(now);
  switch (key) {
    case 'ArrowRight': return all[at + 1];
    case 'ArrowLeft': return all[at - 1];
    case 'Home': return all[0];
    case 'End': return all[all.length - 1];
    case 'ArrowDown': return nearest(all, now, 1);
    case 'ArrowUp': return nearest(all, now, -1);
    default: return undefined;
  }
}

/**
 * The nearest control of the row below or above.
 * @param {HTMLElement[]} all @param {HTMLElement} now @param {1 | -1} way
 */
function nearest(all, now, way) {
  const box = now.getBoundingClientRect();
  const middle = (/** @type {DOMRect} */ { top, height }) => top + height / 2;
  const boxes = all.map((each) => ({ each, rect: each.getBoundingClientRect() }))
    .filter(({ rect }) => way * (middle(rect) - middle(box)) > 12);
  const row = way * Math.min(...boxes.map(({ rect }) => way * middle(rect)));
  return boxes.filter(({ rect }) => Math.abs(middle(rect) - row) < 12)
    .sort((a, b) => Math.abs(a.rect.left - box.left) - Math.abs(b.rect.left - box.left))[0]?.each;
}
