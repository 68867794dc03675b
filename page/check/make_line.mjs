#!/usr/bin/env node
// @ts-check
/**
 * Prints a plan of COUNT groups that are one line: node page/check/make_line.mjs COUNT
 * Each group links to the next two and to the one before; each fifth lies the other way round; some have speed profiles,
 * gradients, restrictions and packets that the engine doesn't know. The same COUNT gives the same plan.
 */
import { digitsOf } from '../src/core/bits.mjs';

const count = Number(process.argv[2] ?? 5);
/** Numbers of a country before the next one begins. */
const NUMBERS = 16000;
let seed = 7;
/** @param {number} most */
const random = (most) => (seed = (seed * 1103515245 + 12345) % 2147483648) % most;
/** @param {number} value @param {number} width */
const binary = (value, width) => value.toString(2).padStart(width, '0');
/** @param {number} number @param {number} direction @param {string} body */
const packet = (number, direction, body) => binary(number, 8) + binary(direction, 2) + binary(23 + body.length, 13) + body;

const groups = Array.from({ length: count }, (_, i) => ({
  country: 1 + Math.floor(i / NUMBERS), number: 1 + (i % NUMBERS), turned: i % 5 === 3, gap: 400 + random(1200),
}));

/**
 * The packet 5 of a group, for trains that run up (1) or down (-1) the line.
 * @param {number} i @param {1 | -1} way
 */
function linking(i, way) {
  const named = (way > 0 ? [i + 1, i + 2] : [i - 1]).filter((j) => j >= 0 && j < count);
  if (named.length === 0) return '';
  let [before, country] = [i, groups[i].country];
  const links = named.map((j) => {
    const { number, country: own, turned } = groups[j];
    const text = binary(groups[Math.min(before, j)].gap, 15) + (own === country ? '0' : '1' + binary(own, 10))
      + binary(number, 14) + binary(Number((way > 0) !== turned), 1) + '01' + binary(5, 6);
    [before, country] = [j, own];
    return text;
  });
  const direction = Number((way > 0) !== groups[i].turned);
  return packet(5, direction, '01' + links[0] + binary(links.length - 1, 5) + links.slice(1).join(''));
}

/** @param {number} i */
function extra(i) {
  if (i % 4 === 0)
    return packet(21, 1,
      `01${binary(0, 15)}1${binary(random(12), 8)}${binary(1, 5)}${binary(500, 15)}0${binary(random(12), 8)}`)
      + packet(27, 1,
        `01${binary(0, 15)}${binary(24, 7)}0${binary(0, 5)}${binary(1, 5)}${binary(900, 15)}${binary(16 + random(8), 7)}1${binary(0, 5)}`);
  if (i % 7 === 2) return packet(65, 1,
    `01${binary(i % 255, 8)}${binary(100 + random(400), 15)}${binary(300, 15)}0${binary(8, 7)}`);
  return i % 11 === 5 ? packet(44, 1, binary(random(65536), 16)) : '';
}

const lines = ['plan 1'];
for (const [i, { country, number }] of groups.entries()) {
  lines.push('group');
  for (const [pig, packets] of [linking(i, 1), linking(i, -1) + extra(i)].entries()) {
    const header = `1${binary(33, 7)}0${binary(pig, 3)}${binary(1, 3)}00${binary(255, 8)}${binary(country, 10)}${binary(number, 14)}1`;
    lines.push(digitsOf(`${header}${packets}11111111`.padEnd(pig === 1 && i % 4 === 0 ? 830 : 210, '1')));
  }
}
process.stdout.write(lines.join('\n') + '\n');
