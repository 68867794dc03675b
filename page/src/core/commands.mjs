// @ts-check
/** The commands with the words that they take, and texts of several commands. */

/** @type {Record<string, {words: string[], what: string}>} */
export const COMMANDS = {
  set: { words: ['C.N', 'PIG', 'PKT', 'VAR', 'K', 'VALUE'], what: 'set a variable of a packet' },
  seth: { words: ['C.N', 'PIG', 'HVAR', 'VALUE'], what: 'set M_DUP, M_MCOUNT or Q_LINK of a header' },
  insert: { words: ['C.N', 'PIG', 'AT', 'HEX'], what: 'put a packet in' },
  delete: { words: ['C.N', 'PIG', 'PKT'], what: 'take a packet out' },
  move: { words: ['C.N', 'PIG', 'PKT', 'AT'], what: 'move a packet in its telegram' },
  add: { words: ['AT', 'HEX ..'], what: 'add a group' },
  drop: { words: ['C.N'], what: 'take a group out' },
  renumber: { words: ['C.N', 'M'], what: 'give a group another number, in all links too' },
  turn: { words: ['C.N'], what: 'turn a group round' },
  undo: { words: [], what: 'undo the last edit' },
  redo: { words: [], what: 'do again what was undone or struck last' },
  strike: { words: ['S'], what: 'undo one edit and keep the later ones' },
};

/**
 * The commands of a text: its lines without blanks at the ends, empty ones left out.
 * @param {string} text
 */
export const commandsOf = (text) => text.split('\n').map((line) => line.trim()).filter((line) => line !== '');

/**
 * Runs of commands that end with a turn: a review line names places as they are after its own turn.
 * @param {string[]} commands
 */
export function splitAtTurns(commands) {
  /** @type {string[][]} */
  const pieces = [[]];
  for (const [i, command] of commands.entries()) {
    pieces[pieces.length - 1].push(command);
    if (command.startsWith('turn ') && i < commands.length - 1) pieces.push([]);
  }
  return pieces;
}
