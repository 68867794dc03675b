// @ts-check
/** What values mean, by data/variables.json. It shows values and reads amounts with units; it decides nothing. */
import { DATA } from './data.mjs';

/**
 * @typedef {object} Variable an entry of data/variables.json
 * @property {number} bits @property {string} what @property {string} section
 * @property {boolean} [steering] not set in place
 * @property {'m'|'km/h'|'‰'|'version'} [unit]
 * @property {number | 'Q_SCALE'} [step] @property {number} [most]
 * @property {Record<string, string>} [values] names of all values
 * @property {Record<string, string>} [special] names of single values
 * @typedef {[name: string, value: number]} Field
 */

/** @type {Record<string, Variable>} */
export const VARIABLES = DATA.variables;

/** The fields of a header in bit order. */
export const HEADER = [
  'Q_UPDOWN', 'M_VERSION', 'Q_MEDIA', 'N_PIG', 'N_TOTAL', 'M_DUP', 'M_MCOUNT', 'NID_C', 'NID_BG', 'Q_LINK',
];
/** The fields of a header that `seth` sets, with their keys in the view. */
export const HEADER_SET = /** @type {const} */ ({ M_DUP: 'm_dup', M_MCOUNT: 'm_mcount', Q_LINK: 'q_link' });

/** @param {number} number */
export const packetName = (number) => DATA.packets[number]?.name ?? 'unknown packet';
/**
 * Whether a packet is known to have numbers of groups.
 * @param {number} number
 */
export const namesGroups = (number) => DATA.packets[number]?.names_groups === true;

/** @param {string} name @param {number} value @param {number} [scale] the packet's Q_SCALE */
function stepOf(name, value, scale) {
  const { step, most = Infinity } = VARIABLES[name] ?? {};
  if (value > most) return undefined;
  return step === 'Q_SCALE' ? VARIABLES.Q_SCALE && DATA.variables.Q_SCALE.metres[scale ?? 3] : step;
}

/** @param {number} steps @param {number | undefined} scale a value of Q_SCALE */
export function metres(steps, scale) {
  const step = DATA.variables.Q_SCALE.metres[scale ?? 3];
  return step === undefined ? null : tidy(steps * step);
}

/**
 * An amount without the digits that binary fractions bring.
 * @param {number} amount
 */
const tidy = (amount) => Math.round(amount * 1000) / 1000;

/**
 * A number with narrow spaces between thousands; `toLocaleString` takes 20 times as long.
 * @param {number} value
 */
export function grouped(value) {
  const [whole, part] = String(value).split('.');
  return whole.replace(/\B(?=(\d{3})+$)/g, '\u202f') + (part ? '.' + part : '');
}

/** @param {number} m metres, in tenths at the finest */
export const metresText = (m) => grouped(Math.round(m * 10) / 10) + ' m';

/**
 * A value in words: `30 km/h`, `450 m`, `nominal`. Empty where nothing certain can be said.
 * @param {string} name @param {number} value @param {number} [scale] the packet's Q_SCALE
 */
export function meaning(name, value, scale) {
  const variable = VARIABLES[name];
  if (!variable) return '';
  const named = variable.values?.[value] ?? variable.special?.[value];
  if (named !== undefined) return named;
  if (variable.unit === 'version') return `${value >> 4}.${value & 15}`;
  const step = stepOf(name, value, scale);
  return step === undefined ? '' : `${grouped(tidy(value * step))} ${variable.unit}`;
}

/** Amounts of one of each unit that a person may type, in the units of the data file. */
const TYPED = /** @type {Record<string, [unit: string, factor: number]>} */ ({
  'km/h': ['km/h', 1], kmh: ['km/h', 1], km: ['m', 1000], m: ['m', 1], cm: ['m', 0.01], '‰': ['‰', 1],
});

/**
 * The raw number that a person meant: `6`, `30 km/h`, `847 m`, `1.2 km`. Exact, or refused in words.
 * @param {string} name @param {string} text @param {number} [scale]
 * @returns {{value: number} | {error: string}}
 */
export function rawValue(name, text, scale) {
  const plain = text.trim();
  if (/^(0|[1-9]\d*)$/.test(plain)) return { value: Number(plain) };
  const found = /^(\d+(?:[.,]\d+)?)\s*(km\/h|kmh|km|m|cm|‰)$/.exec(plain);
  if (!found) return { error: 'a whole number, or one with its unit' };
  const [unit, factor] = TYPED[found[2]];
  if (VARIABLES[name]?.unit !== unit) return { error: `${name} isn’t in ${found[2]}` };
  const step = stepOf(name, 0, scale);
  if (step === undefined) return { error: 'Q_SCALE gives no unit: enter the raw number' };
  const value = Math.round((Number(found[1].replace(',', '.')) * factor * 1e6) / step) / 1e6;
  if (!Number.isInteger(value)) return { error: `no whole number of steps: ${Math.floor(value)} or ${Math.ceil(value)}` };
  if (value > (VARIABLES[name].most ?? Infinity)) return { error: `more than the largest amount, ${meaning(name, /** @type {number} */ (VARIABLES[name].most), scale)}` };
  return { value };
}

/**
 * The largest value of a variable.
 * @param {string} name
 */
export const mostOf = (name) => 2 ** (VARIABLES[name]?.bits ?? 0) - 1;

/**
 * The place of a value for `set`: fields with the occurrence of each name.
 * @param {Field[]} fields
 */
export function occurrences(fields) {
  /** @type {Record<string, number>} */
  const seen = {};
  return fields.map(([name, value], index) => {
    const k = seen[name] ?? 0;
    seen[name] = k + 1;
    return { name, value, k, index };
  });
}

/**
 * A packet's Q_SCALE, or undefined.
 * @param {Field[]} fields
 */
export const scaleOf = (fields) => fields.find(([name]) => name === 'Q_SCALE')?.[1];
