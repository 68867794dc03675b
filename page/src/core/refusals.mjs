// @ts-check
/** The refusals of docs/FORMATS.md, in words for a person. The engine decides; this only explains. */

import { VARIABLES } from './variables.mjs';

/** @type {Record<number, [name: string, what: string, usually: string]>} */
const REFUSALS = {
  1: ['BadLine', 'the line has no form that is allowed there',
    'A misspelt variable, K left out, two blanks, or a blank at the end. In a file: carriage returns or a byte-order mark.'],
  2: ['BadHex', 'a digit isn’t hexadecimal, or the number of digits is odd',
    'A blank or a carriage return at the end of the line.'],
  3: ['BadLength', 'there are more or fewer digits than there must be',
    'A packet has as many bytes as its L_PACKET needs, a telegram 54 or 208 digits.'],
  4: ['SpareBits', 'a bit after the last one isn’t zero', ''],
  5: ['NotABalise', 'the telegram isn’t one from a balise to a train', 'Q_UPDOWN is 0, or Q_MEDIA is 1.'],
  6: ['NoEnd', 'the telegram ends without packet 255', ''],
  7: ['PacketCut', 'L_PACKET is below 23, or leads past the end', ''],
  8: ['LayoutMismatch', 'the fields of a known packet don’t end at its L_PACKET',
    'Or Q_DIFF is 3, or an insert has packet 255.'],
  9: ['PacketZero', 'NID_PACKET is 0', ''],
  10: ['GroupSize', 'a group has no telegram, or a ninth', ''],
  11: ['HeaderDisagrees', 'N_PIG, N_TOTAL, NID_C or NID_BG don’t fit the group', ''],
  12: ['NumberReserved', '16383 is no number for a group', ''],
  13: ['GroupTwice', 'the plan has a group with this identity already', ''],
  14: ['NoSuchGroup', 'no group has this identity', ''],
  15: ['NoSuchTelegram', 'the group has no such balise (N_PIG)', 'After a turn the balises count from the other end.'],
  16: ['NoSuchPacket', 'the telegram has no such packet, or no such place for one', 'Packets count from 0.'],
  17: ['NoSuchVariable', 'the packet or header has no such variable, or not this occurrence',
    'Another packet than you think?'],
  18: ['Steering', 'the variable says what follows it, so it isn’t set in place',
    'Delete the packet, and insert one with other digits.'],
  19: ['ValueTooWide', 'the value doesn’t fit the bits of the variable', ''],
  20: ['NoRoom', 'the telegram has too little room for the packet', ''],
  21: ['NumberTaken', 'a group or a link has this number already', 'A link may name it though no group has it.'],
  22: ['SamePlace', 'the packet stands there already', ''],
  23: ['NothingToUndo', 'no edit stands', ''],
  24: ['NothingToRedo', 'nothing was undone or struck, or a new edit discarded it', ''],
  25: ['NoSuchEdit', 'no standing edit has this serial', ''],
  26: ['DependsOn', 'a later edit depends on it', 'Strike the later ones first, or leave it.'],
  27: ['JournalMismatch', 'the journal doesn’t fit the plan',
    'It belongs to the plan first read (base), not to one printed later; or it was changed.'],
  28: ['Worn', 'this run has accepted 1,000,000 commands', 'Save, and open the files again.'],
  29: ['InputTooLong', 'a line has more than 4,096 bytes, or the input more than 64 MiB', ''],
  30: ['OutOfMemory', 'memory ran out', 'Close other tabs, and try again. Nothing was changed.'],
  31: ['ReadFault', 'a read failed', ''],
  32: ['WriteFault', 'the output is too small', ''],
};

/** @param {number} number */
export function explain(number) {
  const [name, what, usually] = REFUSALS[number] ?? ['Unknown', 'the engine answered ' + number, ''];
  return { name, what, usually };
}

/**
 * What is wrong with a command that has no allowed form, where its variable says that; else nothing.
 * @param {string} command
 */
export function unknownVariable(command) {
  const [kind, , , ...words] = command.split(' ');
  const name = kind === 'set' ? words[1] : kind === 'seth' ? words[0] : undefined;
  return !name || name in VARIABLES ? ''
    : `the engine knows no variable ${name}. It is misspelt, or of a packet that is kept bit for bit`;
}

/**
 * A failure in words.
 * @param {{number: number, name: string, file: 'base'|'journal'|'end'|'', line: number, text: string}} failure
 */
export function failureText(failure) {
  const { name, what, usually } = explain(failure.number);
  const file = { base: 'the plan', journal: 'the journal', end: '', '': '' }[failure.file];
  const title = file ? `Line ${failure.line} of ${file}: ${what}` : what;
  return { title, name: `${failure.number} ${name}`, usually, line: failure.text };
}
