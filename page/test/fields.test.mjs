// @ts-check
// Fields to digits and digits to fields, as the engine in the page does both: beside the reference, docs/FIELDS.md and
// docs/FORMATS.md; and what the page says of them in words.
import assert from 'node:assert/strict';
import { spawnSync } from 'node:child_process';
import fs from 'node:fs';
import path from 'node:path';
import test from 'node:test';
import { bitsOf, digitsOf } from '../src/core/bits.mjs';
import { STATUS } from '../src/core/engine.mjs';
import { badWords, faultWords } from '../src/core/faults.mjs';
import { groupItems, packetItem } from '../src/core/items.mjs';
import { blankFields } from '../src/core/layouts.mjs';
import { bytesOf, textOf } from '../src/core/texts.mjs';
import { Refused, Session } from '../src/worker/session.mjs';
import { explain, explainRefused, packetDigits, spell } from '../src/worker/speller.mjs';
import { TOP, base, engine, none, opened, packetOf, telegramsOf } from './setup.mjs';

/** The digits of a plan that the engine refuses: one bit of the first L_PACKET of 5.200 is another (docs/GUIDE.md). */
const WRONG = textOf(base).replace('5023a0', '502320');
const RESTRICTION = '41408e000000000000';

/**
 * The examples of a kind in docs/FIELDS.md: input and output.
 * @param {string} kind @returns {[string, string][]}
 */
function examples(kind) {
  const page = fs.readFileSync(path.join(TOP, 'docs/FIELDS.md'), 'utf8');
  const blocks = [...page.matchAll(new RegExp(`^\`\`\`${kind}\\n([^]*?)^\`\`\`$`, 'gm'))].map(([, block]) => block);
  return blocks.join('').trim().split('\n').map((/** @type {string} */ line) => {
    const [input, output] = line.split(' => ').map((side) => side.split(' | ').join('\n') + '\n');
    return [input, output];
  });
}

test('the examples of docs/FIELDS.md', () => {
  for (const [kind, way] of /** @type {const} */ ([['fields', 'explain'], ['spell', 'spell']])) {
    const rows = examples(kind);
    assert.ok(rows.length > 5, kind);
    for (const [input, output] of rows) assert.equal(textOf(engine[way](bytesOf(input)).output), output, input);
  }
});

test('random items are answered as the reference does', () => {
  const script = path.join(TOP, 'page/check/print_random_fields.py');
  const made = spawnSync('python3', [script, '200'], { maxBuffer: 1 << 28, encoding: 'utf8' });
  assert.equal(made.status, 0, made.stderr);
  const seen = new Set();
  for (const line of made.stdout.trim().split('\n')) {
    const [way, status, input, output] = line.split(' ');
    const given = new Uint8Array(Buffer.from(input, 'base64'));
    const run = engine[/** @type {'explain' | 'spell'} */ (way)](given);
    assert.equal(run.status >= STATUS.tooLong ? 3 : run.status, Number(status), textOf(given));
    assert.ok(Buffer.from(output, 'base64').equals(run.output), textOf(given));
    seen.add(`${way} ${status}`);
  }
  assert.deepEqual([...seen].sort(), ['explain 0', 'explain 1', 'explain 3', 'spell 0', 'spell 1', 'spell 3']);
});

test('an output that needs more room', () => {
  const item = groupItems({ country: 5, number: 1, balises: 1, version: 33, long: false })[0];
  const many = Array.from({ length: 20000 }, () => 'a'); // a fault is much longer than these lines
  assert.equal(textOf(engine.explain(bytesOf(many.join('\n'))).output).split('\n').length, many.length + 1);
  assert.equal(spell(engine, Array.from({ length: 3000 }, () => item)).length, 3000);
});

test('blank packets are those of docs/FORMATS.md', () => {
  const texts = {
    5: '05408a000000000000', 21: '15406c00000000', 27: '1b40740000000000', 41: '29407e0000000000',
    65: RESTRICTION, 66: '42403e00', 136: '88404c0000',
  };
  for (const [number, digits] of Object.entries(texts)) assert.equal(packetOf(blankFields(Number(number))), digits);
});

test('the digits of each packet of a telegram, also of one that isn’t known', () => {
  const digits = textOf(base).split('\n').filter((line) => /^[0-9a-f]+$/.test(line));
  for (const telegram of digits) {
    const { packets, fault } = explain(engine, telegram);
    assert.equal(fault, null);
    const made = packetDigits(engine, telegram);
    assert.equal(made.length, packets.length);
    for (const [i, hex] of made.entries()) {
      const [own] = explain(engine, `packet 33 ${hex}`).packets;
      assert.deepEqual(own.fields.map(({ name, value }) => [name, value]), packets[i].fields.map(({ name, value }) => [name, value]));
      assert.equal(own.rest, packets[i].rest);
    }
  }
});

test('fields that give no digits are refused at their line, in words', () => {
  const fields = blankFields(65);
  const without = (/** @type {string} */ name) => packetItem(33, fields.filter(([each]) => each !== name));
  /** @param {string} name @param {number} value */
  const withValue = (name, value) => packetItem(33, fields.map(([each, old]) => [each, each === name ? value : old]));
  const group = (/** @type {object} */ more) => groupItems({ country: 5, number: 1, balises: 2, version: 33, long: false, ...more })[1];
  /** @type {[string[], number, string][]} */
  const rows = [
    [without('V_TSR'), 9, 'V_TSR is missing.'], [without('D_TSR'), 6, 'L_TSR 0: D_TSR is due there.'],
    [withValue('V_TSR', 128), 9, 'V_TSR 128: the value doesn’t fit the bits of the variable.'],
    [withValue('NID_PACKET', 255), 2, 'NID_PACKET 255: no packet has this number.'],
    [withValue('Q_FRONT', NaN), 8, 'Q_FRONT NaN: the engine knows no such line.'],
    [packetItem(33, [...fields, ['V_MORE', 1]]), 10, 'V_MORE 1: no variable has this name.'],
    [packetItem(33, [...fields, ['V_TSR', 1]]), 10, 'V_TSR 1: the packet ends before this field.'],
    [packetItem(16, blankFields(27)), 4, 'The engine doesn’t know packet 27 in a telegram of version 1.0: insert its digits.'],
    [group({ country: 1024 }), 9, 'NID_C 1024: the value doesn’t fit the bits of the variable.'],
    [group({ number: 1.5 }), 10, 'NID_BG 1.5: the engine knows no such line.'],
  ];
  const spelt = spell(engine, rows.map(([item]) => item));
  for (const [i, { bad }] of spelt.entries()) {
    assert.deepEqual([bad?.line, bad && badWords(bad, rows[i][0])], rows[i].slice(1));
  }
  assert.equal(spell(engine, [rows[0][0], packetItem(33, fields)])[1].digits, RESTRICTION);
});

test('digits that are refused: where, and what was due, in words', () => {
  const telegram = textOf(base).split('\n')[2];
  // Packet 44 takes all but three bits.
  const noEnd = `${bitsOf(telegram).slice(0, 50)}0010110000${(157).toString(2).padStart(13, '0')}`.padEnd(207, '0') + '111';
  /** @type {[string, number, string][]} */
  const rows = [
    [WRONG.split('\n')[5], 8, 'In packet 0, at bit 114, V_TSR is due, and too few bits are left for it.'],
    ['packet 33 42404000', 8, 'In the packet, at bit 31, the last field ends, and L_PACKET leaves more bits.'],
    ['packet 33 424040', 7, 'In the packet, at bit 23, L_PACKET 32 leads past the end.'],
    ['packet 33 42402c', 7, 'In the packet, at bit 23, no packet has L_PACKET 22.'],
    ['packet 33 00', 9, 'In the packet, at bit 8, no packet has NID_PACKET 0.'],
    ['packet 33 ff', 8, 'In the packet, at bit 8, no packet has NID_PACKET 255.'],
    [digitsOf(noEnd), 6, 'Packet 255 is due at bit 207, after 1 packet, and too few bits are left.'],
    ['packet 33 42403e01', 4, 'Bit 31 isn’t zero, and stands after the last one.'],
    ['packet 33 42403e0000', 3, 'There are 40 bits. L_PACKET says how many a packet takes, filled up to a whole byte.'],
    ['packet 33 42403e0', 2, 'There are 7 digits, an odd number: one is missing at the end.'],
    [telegram.replace('f', 'g'), 2, `Character ${telegram.indexOf('f') + 1} isn’t a hexadecimal digit.`],
    [telegram.slice(2), 3, 'There are 208 bits. A telegram takes 54 digits for its 210 bits, or 208 for 830.'],
    ['2' + telegram.slice(1), 5, 'Bit 0, Q_UPDOWN, has to be 1.'],
  ];
  for (const [line, number, words] of rows) {
    const explained = explainRefused(engine, number, line);
    assert.equal(explained && faultWords(explained), words, line);
  }
  assert.equal(explainRefused(engine, 7, rows[0][0]), undefined);
  assert.equal(explainRefused(engine, 11, telegram), undefined);
});

test('a bad plan is shown by the fields of its line', () => {
  assert.throws(() => new Session(engine).open(bytesOf(WRONG), none), (/** @type {any} */ error) => {
    const { number, line, text, explained } = /** @type {Refused} */ (error).failure;
    assert.deepEqual([number, line, text], [8, 6, WRONG.split('\n')[5]]);
    assert.deepEqual(explained?.fault, { number: 8, name: 'LayoutMismatch', packet: 0, bit: 114, due: 'V_TSR' });
    assert.deepEqual([explained?.header.length, explained?.packets.length, explained?.packets[0].fields.length], [10, 1, 8]);
    return true;
  });
  assert.throws(() => new Session(engine).open(bytesOf('plan 1\ngroup\n'), none),
    (/** @type {any} */ error) => error.failure.number === 10 && error.failure.explained === undefined);
});

test('a refused insert or add is shown by the fields of its digits', () => {
  const session = opened();
  const wrong = '41408e0000000000';
  const [, , , , , telegram] = WRONG.split('\n');
  const commands = [`insert 5.200 0 0 ${wrong}`, `add 0 ${telegram}`, 'drop 9.9', `insert 9.9 0 0 ${wrong}`,
    `add 0 ${telegramsOf({ country: 5, number: 9, balises: 2, version: 33, long: false })[0]} ${telegram}`];
  for (const { replies } of [session.run(commands), session.try(commands)]) {
    const words = replies.map(({ explained }) => explained && faultWords(explained));
    assert.match(words[0] ?? '', /^In the packet, at bit 23, L_PACKET 71 leads past the end/);
    assert.match(words[1] ?? '', /^In packet 0, at bit 114, V_TSR is due/);
    assert.deepEqual(words.slice(2, 4), [undefined, undefined]);
    assert.match(words[4] ?? '', /^Balise 1: In packet 0, at bit 114/);
  }
});

test('bits become digits for showing alone', () => {
  const source = path.join(TOP, 'page/src');
  const users = ['core', 'ui', 'worker'].flatMap((folder) => fs.readdirSync(path.join(source, folder)).map((/** @type {string} */ name) => `${folder}/${name}`))
    .filter((/** @type {string} */ name) => /\bdigitsOf\b/.test(fs.readFileSync(path.join(source, name), 'utf8')));
  assert.deepEqual(users, ['core/bits.mjs', 'ui/packet_card.mjs']);
});
