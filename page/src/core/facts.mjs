// @ts-check
/** What the engine says of the edits that stand (docs/FORMATS.md, Facts): here only which depends on which. */

/**
 * @typedef {object} Facts
 * @property {number[]} named later edits that refused strikes name
 * @property {Map<number, number[]>} dependents the later edits that depend on each edit that stands
 */

/**
 * @param {string} text @returns {Facts}
 */
export function factsOf(text) {
  const lines = text.split('\n');
  const first = lines.indexOf('facts 1');
  if (first < 0) throw new Error('an output without facts');
  const named = lines.slice(0, first).filter((line) => line.startsWith('refused 26 ')).map((line) => Number(line.split(' ')[3]));
  /** @type {Map<number, number[]>} */
  const dependents = new Map();
  /** @type {number[]} */
  let last = [];
  for (const line of lines.slice(first + 1)) {
    const [word, serial] = line.split(' ');
    if (word === 'edit') dependents.set(Number(serial), last = []);
    else if (word === 'dependent') last.push(Number(serial));
  }
  return { named, dependents };
}

/**
 * All that depends on some edits, with these.
 * @param {Map<number, number[]>} dependents @param {number[]} serials
 */
export function reached(dependents, serials) {
  const seen = new Set(serials);
  // What is added to a set while it is gone through comes up too.
  for (const serial of seen) for (const later of dependents.get(serial) ?? []) seen.add(later);
  return seen;
}
