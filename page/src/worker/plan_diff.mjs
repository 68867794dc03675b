// @ts-check
/** The groups of two plans that differ, by identity. */
import { diffGroup } from '../core/diff.mjs';
import { identity } from '../core/links.mjs';

/** @typedef {import('../core/diff.mjs').Decoded} Decoded */

/**
 * A group that only one of the plans has.
 * @param {'added'|'removed'} kind @param {Decoded} each
 */
export function loneDiff(kind, { group }) {
  const id = identity(group);
  return { kind, before: kind === 'added' ? '' : id, after: kind === 'added' ? id : '', turned: false, telegrams: [] };
}

/**
 * @param {import('./decoder.mjs').Decoder} decoder @param {string[]} a @param {string[]} b texts of groups
 * @returns {any[]}
 */
export function planDiff(decoder, a, b) {
  const [seen, other] = [new Set(a), new Set(b)];
  const before = decoder.decoded(a.filter((text) => !other.has(text)));
  const after = new Map(decoder.decoded(b.filter((text) => !seen.has(text))).map((each) => [identity(each.group), each]));
  const diffs = before.map((each) => {
    const now = after.get(identity(each.group));
    after.delete(identity(each.group));
    if (!now) return loneDiff('removed', each);
    return { ...diffGroup(each, now), digits: [each.digits, now.digits], views: [each.group, now.group] };
  });
  return [...diffs, ...[...after.values()].map((each) => loneDiff('added', each))];
}
