// @ts-check
// Modules without engine or page.
import assert from 'node:assert/strict';
import fs from 'node:fs';
import path from 'node:path';
import test from 'node:test';
import { commandsOf, splitAtTurns } from '../src/core/commands.mjs';
import { clean, damageOf } from '../src/core/damage.mjs';
import { DATA } from '../src/core/data.mjs';
import { kindOf, partsOf, placeOfLine } from '../src/core/files.mjs';
import { LAYOUTS } from '../src/core/layouts.mjs';
import { explain, unknownVariable } from '../src/core/refusals.mjs';
import { bytesOf, textOf } from '../src/core/texts.mjs';
import { HEADER, VARIABLES, grouped, meaning, metresText, rawValue } from '../src/core/variables.mjs';
import { TOP } from './setup.mjs';

test('files are told apart', () => {
  /** @type {[string, string][]} */
  const files = [
    ['plan 1\ngroup\n', 'plan'], ['journal 2 1\n', 'journal'], ['plan 1\nedits\nundo\n',
      'input'], ['ok 1\nplan 1\n', 'output'],
    ['set 5.200 1 0 V_TSR 0 6\n',
      'commands'], ['undo\n', 'commands'], ['hello\n', 'unknown'], ['', 'unknown'], ['plan 1\nedits', 'input'],
    ['\ufeffplan 1\r\n', 'plan'], ['\ufeffjournal 2 1\r\n', 'journal'],
  ];
  for (const [text, kind] of files) assert.equal(kindOf(bytesOf(text)).kind, kind, JSON.stringify(text));
});

test('an input is taken apart', () => {
  const { plan, journal, commands } = partsOf(bytesOf('plan 1\njournal 2 1\nedits\nundo\n'));
  assert.deepEqual([plan, journal, commands].map(textOf), ['plan 1\n', 'journal 2 1\n', 'undo\n']);
  assert.equal(textOf(partsOf(bytesOf('plan 1\nedits')).plan), 'plan 1\n');
});

test('damage is named, and taken away where it can be', () => {
  /** @param {string | Uint8Array} text */
  const kinds = (text) => damageOf(typeof text === 'string' ? bytesOf(text) : text).map(({ kind }) => kind);
  assert.deepEqual(kinds('plan 1\n'), []);
  assert.deepEqual(kinds('\ufeffplan 1\r\ngroup\r\n'), ['mark', 'returns']);
  assert.deepEqual(kinds('plan 1 \n'), ['blanks']);
  assert.deepEqual(kinds('plan 1'), ['cut']);
  assert.deepEqual(kinds(''), ['empty']);
  assert.deepEqual(kinds(new Uint8Array([0xff, 0xfe, 112, 0])), ['utf16']);
  assert.match(damageOf(bytesOf('plan 1\r\ngroup\r\n'))[0].text, /2 lines, the first is line 1/);
  assert.equal(textOf(clean(bytesOf('\ufeffplan 1\r\nedits \r\n'))), 'plan 1\nedits\n');
  assert.equal(textOf(clean(bytesOf('plan 1\na1\n'))), 'plan 1\na1\n');
});

test('a line of the input is one of a file', () => {
  const [base, journal] = [bytesOf('plan 1\n'), bytesOf('journal 2 1\nx\n')];
  assert.deepEqual(placeOfLine(1, base, journal), { file: 'base', line: 1 });
  assert.deepEqual(placeOfLine(3, base, journal), { file: 'journal', line: 2 });
  assert.deepEqual(placeOfLine(4, base, journal), { file: 'end', line: 1 });
});

test('values with units', () => {
  /** @type {[string, number, number | undefined, string][]} */
  const cases = [
    ['V_TSR', 6, undefined, '30 km/h'], ['V_TSR', 121, undefined, ''], ['V_STATIC', 127, undefined,
      'end of the profile'],
    ['D_LINK', 600, 1, '600 m'], ['D_LINK', 605, 0, '60.5 m'], ['D_LINK', 605, 2,
      '6\u202f050 m'], ['D_LINK', 605, 3, ''], ['D_LINK', 3, 0, '0.3 m'],
    ['D_LEVELTR', 32767, 1, 'now'], ['G_A', 12, undefined, '12 ‰'], ['G_A', 255, undefined,
      'end of the profile'], ['M_VERSION', 33, undefined, '2.1'],
    ['Q_LOCACC', 12, 1, '12 m'], ['Q_DIR', 1, undefined, 'nominal'], ['NID_TSR', 255, undefined,
      'not revocable'], ['NID_TSR', 7, undefined, ''],
    ['NID_BG', 16383, undefined, 'unknown'], ['NOTHING', 1, undefined, ''],
  ];
  for (const [name, value, scale, words] of cases) assert.equal(meaning(name, value, scale), words, `${name} ${value}`);
});

test('amounts that a person types', () => {
  assert.deepEqual(rawValue('V_TSR', '30 km/h'), { value: 6 });
  assert.deepEqual(rawValue('D_LINK', '84.7 m', 0), { value: 847 });
  assert.deepEqual(rawValue('D_LINK', '1,2 km', 1), { value: 1200 });
  assert.deepEqual(rawValue('D_LINK', ' 12 ', 1), { value: 12 });
  assert.deepEqual(rawValue('Q_LOCACC', '5 m', 0), { value: 5 });
  for (const [name, text, scale] of /** @type {[string, string, number?][]} */ ([
    ['V_TSR', '33 km/h'], ['V_TSR', '33 m'], ['V_TSR', '605 km/h'], ['D_LINK', '5 m', 3], ['D_LINK', '5 m'], ['D_LINK', '0.05 m', 0], ['V_TSR', '-1'], ['V_TSR', '06'], ['V_TSR', ''],
  ])) assert.ok('error' in rawValue(name, text, scale), `${name} ${text}`);
});

test('numbers with thousands', () => {
  assert.deepEqual([0, 999, 1000, 1450.5, 1985047].map(grouped),
    ['0', '999', '1\u202f000', '1\u202f450.5', '1\u202f985\u202f047']);
  assert.equal(metresText(60.5), '60.5 m');
});

test('the data file has every variable, each with width and section', () => {
  for (const name of HEADER) assert.ok(VARIABLES[name], name);
  const known = new Set(['bits', 'section', 'what', 'steering', 'unit', 'step', 'most', 'values', 'special', 'metres']);
  for (const [name, variable] of Object.entries(VARIABLES)) {
    assert.ok(variable.bits >= 1 && variable.section && variable.what, name);
    for (const key of Object.keys(variable)) assert.ok(known.has(key), `${name}: ${key}`);
    const most = 2 ** variable.bits - 1;
    for (const value of Object.keys({ ...variable.values, ...variable.special })) assert.ok(Number(value) <= most, `${name} ${value}`);
    if (variable.values) assert.equal(Object.keys(variable.values).length, most + 1, `${name} names all values`);
  }
  for (const number of Object.keys(LAYOUTS)) assert.ok(DATA.packets[number], number);
});

test('widths and what is set in place are those of docs/FORMATS.md', () => {
  /** @type {string} */
  const page = fs.readFileSync(path.join(TOP, 'docs/FORMATS.md'), 'utf8');
  const rows = page.split('## Variables')[1].split('\n## ')[0].split('\n').map((line) => line.split('|').map((cell) => cell.trim())).filter((cells) => /^\d+$/.test(cells[1]));
  /** @type {Map<string, {bits: number, steering: boolean}>} */
  const wanted = new Map();
  for (const [, bits, inPlace, steering] of rows)
    for (const [cell, is] of /** @type {[string, boolean][]} */ ([[steering, true], [inPlace, false]]))
      for (const [name] of cell.matchAll(/[A-Z]+_[A-Z_]+/g)) wanted.set(name, { bits: Number(bits), steering: is });
  assert.equal(rows.length, 12);
  const found = Object.entries(VARIABLES).map(([name, { bits, steering = false }]) => /** @type {const} */ ([name, { bits, steering }]));
  assert.deepEqual(new Map(found.sort()), new Map([...wanted].sort()));
});

test('a text of commands, and its runs that end with a turn', () => {
  assert.deepEqual(commandsOf('undo\n\n  redo \r\n'), ['undo', 'redo']);
  assert.deepEqual(splitAtTurns(['a', 'turn 5.1', 'b', 'turn 5.2']), [['a', 'turn 5.1'], ['b', 'turn 5.2']]);
  assert.deepEqual(splitAtTurns(['a']), [['a']]);
});

test('each refusal has words', () => {
  for (let number = 1; number <= 32; number += 1) assert.ok(explain(number).what.length > 5
    && /^[A-Z]\w+$/.test(explain(number).name));
  assert.match(explain(99).what, /99/);
  assert.match(unknownVariable('set 5.200 0 2 D_TRACKCOND 0 300'), /knows no variable D_TRACKCOND\. It is misspelt/);
  assert.match(unknownVariable('seth 5.200 0 M_DOUBLE 1'), /M_DOUBLE/);
  for (const command of ['set 5.200 0 2 V_TSR 0', 'seth 5.200 0 M_DUP 9 9', 'set 5.200', 'sett 5.200 0 0 V_TRS 0 1', ''])
    assert.equal(unknownVariable(command), '');
});
