#!/usr/bin/env node
// @ts-check
/**
 * Compares the engine of the page with the program: worked rows and examples with every set of flags, and random inputs.
 * usage: node page/check/compare_engine.mjs PROGRAM [RANDOM]     (RANDOM inputs, each with its own flags)
 * The engine is that of the stored page, or the one that ENGINE names. Ends with 1 where one differs.
 */
import { spawn, spawnSync } from 'node:child_process';
import fs from 'node:fs';
import path from 'node:path';
import readline from 'node:readline';
import { FLAG } from '../src/core/engine.mjs';
import { TOP, engine } from '../test/setup.mjs';

const NAMES = /** @type {(keyof FLAG)[]} */ (['quiet', 'stop', 'journal', 'json']);
/** A bit that no flag has. */
const UNKNOWN = 1 << NAMES.length;
const [program, random = '0'] = process.argv.slice(2);
let [runs, differ] = [0, 0];
/** @type {Record<number, number>} */
const statuses = {};

/**
 * The flags of a call for the arguments of the program; an argument that it doesn't know is a bit that the call doesn't know.
 * @param {string[]} words
 */
const flagsOf = (words) => words.reduce((sum, word) => sum | (FLAG[/** @type {keyof FLAG} */ (word.slice(2))] ?? UNKNOWN),
  0);
/** @param {number} flags */
const wordsOf = (flags) => (flags & UNKNOWN ? ['--unknown']
  : NAMES.filter((name) => flags & FLAG[name]).map((name) => '--' + name));

/** @param {string} name @param {Uint8Array} input @param {number} flags */
function compare(name, input, flags) {
  const native = spawnSync(program, wordsOf(flags), { input, maxBuffer: 1 << 28 });
  if (native.error && /** @type {any} */ (native.error).code !== 'EPIPE') throw native.error;
  const { status, output } = engine.run(input, flags);
  runs += 1;
  statuses[status] = (statuses[status] ?? 0) + 1;
  // Help and usage go to other streams; the call answers 64 and writes nothing.
  const same = native.stdout.equals(output) && native.status === (status >= 29 && status <= 32 ? 3 : status);
  if (same) return;
  differ += 1;
  if (differ <= 10) console.log(`differs: ${name}, flags ${flags}: engine ${status}, program ${native.status}`);
}

/** @param {string} folder @param {string} extension */
function compareFolder(folder, extension) {
  for (const name of fs.readdirSync(path.join(TOP, folder)).filter((/** @type {string} */ each) => each.endsWith(extension)).sort()) {
    const file = path.join(TOP, folder, name);
    const own = file.slice(0, -extension.length) + '.flags';
    const words = fs.existsSync(own) ? fs.readFileSync(own, 'utf8').split(/\s+/).filter(Boolean) : [];
    if (words.includes('--help') || words.includes('-h')) continue;
    let input = new Uint8Array(fs.readFileSync(file));
    if (extension === '.base') input = Buffer.concat([input,
      Buffer.from('edits\nturn 5.300\nrenumber 5.200 250\nstrike 1\n')]);
    for (const flags of new Set([flagsOf(words), ...Array(17).keys()])) compare(name, input, flags);
  }
}

/** @param {number} count */
async function compareRandom(count) {
  const maker = spawn('python3', [path.join(TOP, 'page/check/print_random_inputs.py'), String(count)],
    { stdio: ['ignore', 'pipe', 'inherit'] });
  let made = 0;
  for await (const line of readline.createInterface({ input: maker.stdout })) {
    const [seed, flags, digits] = line.split(' ');
    compare(`random input ${seed}`, new Uint8Array(Buffer.from(digits, 'base64')), Number(flags));
    made += 1;
  }
  if (made !== count) throw new Error(`${made} random inputs instead of ${count}`);
}

compareFolder('checks/rows', '.in');
compareFolder('examples', '.plan');
compareFolder('examples', '.base');
const stored = runs;
await compareRandom(Number(random));
console.log(`${stored} runs over rows and examples, ${runs - stored} over random inputs: ${differ} differ; statuses ${JSON.stringify(statuses)}`);
if (runs < 500 || differ > 0) process.exit(1);
