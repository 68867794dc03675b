// @ts-check
/** The three files of a check. */

/** @type {[import('../worker/checker.mjs').Role, string, string][]} */
export const ROLES = [
  ['base', 'Base plan', 'the plan first delivered'],
  ['journal', 'Journal', 'the list of edits'],
  ['delivered', 'Delivered plan', 'the plan to be checked'],
];
