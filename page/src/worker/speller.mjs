// @ts-check
/** Fields to digits and digits to fields: the engine does both, and no module of the page writes a bit. */
import { STATUS } from '../core/engine.mjs';
import { explainedOf, packetItem, speltOf, textOfItems } from '../core/items.mjs';
import { bytesOf, textOf } from '../core/texts.mjs';

/** @typedef {import('../core/engine.mjs').Engine} Engine */

/**
 * Whether a refusal is of digits: then the engine says where they are refused.
 * @param {number} number
 */
export const isOfDigits = (number) => number >= 2 && number <= 9;

/** @param {import('../core/engine.mjs').Run} run */
function printed({ status, output }) {
  if (status !== STATUS.accepted && status !== STATUS.refused) throw new Error(`the engine ended with fault ${status}`);
  return textOf(output);
}

/**
 * The digits of items, or why there are none.
 * @param {Engine} engine @param {string[][]} items
 */
export const spell = (engine, items) => speltOf(printed(engine.spell(bytesOf(textOfItems(items)))), items);

/**
 * The fields of a line of digits: a telegram, or `packet VERSION HEX`.
 * @param {Engine} engine @param {string} line
 */
export const explain = (engine, line) => explainedOf(printed(engine.explain(bytesOf(line + '\n'))), line);

/**
 * The digits of each packet of a telegram, as `insert` takes them.
 * @param {Engine} engine @param {string} telegram its digits
 */
export function packetDigits(engine, telegram) {
  const { header, packets } = explain(engine, telegram);
  const version = header.find(({ name }) => name === 'M_VERSION')?.value ?? 0;
  const items = packets.map(({ fields, rest }) => packetItem(version, fields.map(({ name, value }) => [name, value]), rest));
  return spell(engine, items).map(({ digits, bad }) => {
    if (bad) throw new Error(`the engine refuses its own fields: ${bad.name}`);
    return digits;
  });
}

/**
 * The fields of a line that was refused with a number, up to its fault; nothing where the refusal isn't of its digits.
 * @param {Engine} engine @param {number} number @param {string} line
 */
export function explainRefused(engine, number, line) {
  if (!isOfDigits(number)) return undefined;
  const explained = explain(engine, line);
  return explained.fault?.number === number ? explained : undefined;
}

/**
 * The same for a command: of an `add` the first telegram that is refused so, of an `insert` its packet.
 * @param {Engine} engine @param {number} number @param {string} command
 * @param {(id: string, pig: number) => number | undefined} versionOf the M_VERSION of a telegram, where it is known
 */
export function explainCommand(engine, number, command, versionOf) {
  const [kind, id, ...words] = command.split(' ');
  const version = kind === 'insert' ? versionOf(id, Number(words[0])) : undefined;
  const lines = kind === 'add' ? words : version === undefined ? [] : [`packet ${version} ${words[2]}`];
  for (const [i, line] of lines.entries()) {
    const explained = explainRefused(engine, number, line);
    if (explained) return lines.length > 1 ? { ...explained, balise: i } : explained;
  }
  return undefined;
}
