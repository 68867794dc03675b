// @ts-check
/** Elements made by hand. Data only ever becomes text nodes or attributes, so no file can bring markup with it. */

import { grouped } from '../core/variables.mjs';

/** @typedef {Node | string | number | null | undefined | false} Child */

/**
 * @param {string} tag with classes: `div.card.open`
 * @param {Record<string, any> | null} [props] attributes; `onclick` and so on are listeners; `data`, `style` are objects
 * @param {...(Child | Child[])} children
 * @returns {any}
 */
export function h(tag, props, ...children) {
  return fill(document.createElement(nameOf(tag)), tag, props, children);
}

const SVG = 'http://www.w3.org/2000/svg';
/**
 * The same for SVG.
 * @param {string} tag @param {Record<string, any> | null} [props] @param {...(Child | Child[])} children @returns {any}
 */
export function s(tag, props, ...children) {
  return fill(document.createElementNS(SVG, nameOf(tag)), tag, props, children);
}

/** @param {string} tag */
const nameOf = (tag) => tag.split('.')[0];

/**
 * @param {any} element @param {string} tag @param {Record<string, any> | null | undefined} props
 * @param {any[]} children
 */
function fill(element, tag, props, children) {
  const classes = tag.split('.').slice(1);
  if (classes.length > 0) element.setAttribute('class', classes.join(' '));
  for (const [name, value] of Object.entries(props ?? {})) {
    if (value === null || value === undefined || value === false) continue;
    if (name === 'class') element.setAttribute('class', [...classes, value].join(' '));
    else if (name === 'style') for (const [key, text] of Object.entries(value)) element.style.setProperty(key, text);
    else if (name === 'data') Object.assign(element.dataset, value);
    else if (name.startsWith('on')) element.addEventListener(name.slice(2), value);
    else if (name === 'value') element.value = value;
    else element.setAttribute(name, value === true ? '' : String(value));
  }
  element.append(...kept(children));
  return element;
}

/** @param {any[]} children @returns {(Node | string)[]} */
function kept(children) {
  return children.flat(3)
    .filter((child) => child !== null && child !== undefined && child !== false)
    .map((child) => (child instanceof Node ? child : String(child)));
}

/**
 * Gives an element other children.
 * @param {Element} element @param {...(Child | Child[])} children
 */
export function put(element, ...children) {
  element.replaceChildren(...kept(children));
}

/**
 * Line icons, 16 by 16.
 * @type {Record<string, string>}
 */
const ICONS = {
  undo: 'M6 3 2.5 6.5 6 10M3 6.5h6.5a4 4 0 0 1 0 8H6',
  redo: 'm10 3 3.5 3.5L10 10M13 6.5H6.5a4 4 0 0 0 0 8H10',
  save: 'M3 3h8l2 2v8H3zM5.5 3v3.5h5V3M5.5 13V9.5h5V13',
  open: 'M2 12.5v-9h4l1.5 2H14v7z',
  up: 'M8 13V3.5M4 7l4-4 4 4',
  down: 'M8 3v9.5M4 9l4 4 4-4',
  cross: 'm4 4 8 8m0-8-8 8',
  plus: 'M8 3v10M3 8h10',
  minus: 'M3 8h10',
  jump: 'M5 11 11 5M6 5h5v5',
  copy: 'M5.5 5.5h7v7h-7zM3.5 10.5v-7h7',
  check: 'm3 8.5 3.5 3.5L13 4.5',
  warn: 'M8 2.5 14.5 13.5h-13zM8 6.5v3.5M8 11.8v.2',
  turn: 'M3 6h9L9.5 3.5M13 10H4l2.5 2.5',
  sun: 'M8 5a3 3 0 1 0 0 6 3 3 0 0 0 0-6M8 1.5v1M8 13.5v1M1.5 8h1M13.5 8h1M3.4 3.4l.7.7M11.9 11.9l.7.7M3.4 12.6l.7-.7M11.9 4.1l.7-.7',
  help: 'M8 14A6 6 0 1 0 8 2a6 6 0 0 0 0 12M6 6.3C6 5 7 4.6 8 4.6s2 .6 2 1.7c0 1.5-2 1.5-2 3M8 11.2v.2',
  print: 'M4.5 6V2.5h7V6M4.5 11.5h-2V6h11v5.5h-2M4.5 9.5h7v4h-7z',
  search: 'M7 11.5a4.5 4.5 0 1 0 0-9 4.5 4.5 0 0 0 0 9M10.3 10.3 14 14',
  number: 'M6 2.5 4.5 13.5M11.5 2.5 10 13.5M2.5 6h11M2.5 10h11',
  bits: 'M3 4h2v2H3zM7 4h2v2H7zM11 4h2v2h-2zM3 10h2v2H3zM7 10h2v2H7zM11 10h2v2h-2z',
  fit: 'M2.5 5.5v-3h3M10.5 2.5h3v3M13.5 10.5v3h-3M5.5 13.5h-3v-3',
  form: 'M3 2.5h10v11H3zM5.5 5.5h5M5.5 8h5M5.5 10.5h3',
  text: 'M2.5 4h11M2.5 8h11M2.5 12h7',
  unknown: 'M4 4h8v8H4zM6.5 6.5a1.6 1.6 0 1 1 2 1.8V9M8.2 10.4v.1',
  back: 'M10 3 5 8l5 5',
};
/** @param {string} name */
export function icon(name) {
  return s('svg.icon', { viewBox: '0 0 16 16', width: 16, height: 16, 'aria-hidden': 'true', focusable: 'false' },
    s('path', { d: ICONS[name] ?? '' }));
}

/**
 * A button with an icon, a text, or both; `title` is its name where there is no text.
 * @param {{icon?: string, text?: string, title?: string, class?: string, onclick?: (event: any) => void, [more: string]: any}} options
 */
export function button({ icon: name, text, title, class: className, ...rest }) {
  return h('button', { type: 'button', class: className, title, 'aria-label': text ? undefined : title, ...rest },
    name && icon(name), text && h('span', null, text));
}

/** @param {number} count @param {string} one @param {string} [many] */
export const plural = (count, one, many = one + 's') => `${grouped(count)} ${count === 1 ? one : many}`;
