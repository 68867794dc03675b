// @ts-check
// What depends on an edit, as the engine in the page says it: beside the reference, and what a strike takes with it.
import assert from 'node:assert/strict';
import { spawnSync } from 'node:child_process';
import path from 'node:path';
import test from 'node:test';
import { FACTS } from '../src/core/engine.mjs';
import { factsOf, reached } from '../src/core/facts.mjs';
import { bytesOf, inputOf, textOf } from '../src/core/texts.mjs';
import { TOP, base, done, engine, none, opened } from './setup.mjs';

/** Two packets put in first, and one after the second of these. */
const INSERTS = ['insert 5.300 1 0 42403e02', 'insert 5.300 1 0 42403e04', 'insert 5.300 1 1 42403e06'];

/** @param {Uint8Array} input @param {string[]} [flags] */
const byReference = (input, flags = []) => spawnSync('python3', ['-B', path.join(TOP, 'reference/balisefacts.py'), ...flags], { input });

test('facts of the worked line are those of the reference', () => {
  const commands = ['turn 5.300', 'renumber 5.200 250', 'drop 5.400', 'strike 2', 'strike 9', ...INSERTS];
  for (const given of [commands, [], ['undo']]) {
    const input = inputOf(base, none, given);
    const { status, output } = engine.facts(input);
    const due = byReference(input);
    assert.equal(textOf(output), due.stdout.toString());
    assert.equal(status, due.status);
  }
});

test('facts of random inputs are those of the reference, and tags', () => {
  const made = spawnSync('python3', [path.join(TOP, 'page/check/print_random_inputs.py'), '60'], { maxBuffer: 1 << 28, encoding: 'utf8' });
  assert.equal(made.status, 0, made.stderr);
  for (const line of made.stdout.trim().split('\n')) {
    const input = new Uint8Array(Buffer.from(line.split(' ')[2], 'base64'));
    for (const [what, flags] of /** @type {[number, string[]][]} */ ([[FACTS.edits, []], [FACTS.tags, ['--tags']]])) {
      const { status, output } = engine.facts(input, what);
      const due = byReference(input, flags);
      assert.equal(textOf(output), due.stdout.toString(), line.split(' ')[0]);
      assert.equal(status >= 29 ? 3 : status, due.status);
    }
  }
});

test('an output that needs more room', () => {
  const commands = Array.from({ length: 300 }, () => 'seth 5.100 0 M_MCOUNT 7');
  const { dependents } = factsOf(textOf(engine.facts(inputOf(base, none, commands)).output));
  assert.deepEqual([...dependents.values()].map(({ length }) => length), commands.map((_, i) => 299 - i));
});

test('lines of facts', () => {
  const { named, dependents } = factsOf('refused 25 NoSuchEdit\nrefused 26 DependsOn 7\nfacts 1\nedit 1\nchanges b0\nneeds #5.1\ndependent 3\ndependent 9\nedit 3\nchanges b1\ndependent 4\n');
  assert.deepEqual(named, [7]);
  assert.deepEqual([...dependents], [[1, [3, 9]], [3, [4]]]);
  assert.deepEqual([...reached(dependents, [1])].sort(), [1, 3, 4, 9]);
  assert.throws(() => factsOf('bad 1 1 BadLine\n'), /without facts/);
});

test('a strike that moves an anchor takes what it brings up with it', () => {
  const session = opened();
  done(session, INSERTS);
  assert.deepEqual(session.chain(1), { strikes: [3, 2, 1], whole: true, first: 2 });
  assert.deepEqual(session.chain(1, 1), { strikes: [2], whole: false, first: 2 });
  assert.deepEqual(session.chain(2), { strikes: [2], whole: true, first: 0 });
  assert.deepEqual(done(session, ['strike 3', 'strike 2', 'strike 1']).stack, [3, 2, 1]);
  assert.equal(session.plan, textOf(base));
});

test('each chain of a session is taken by the engine, and no edit of it may stay', () => {
  const session = opened();
  done(session, [...INSERTS, 'move 5.300 1 3 0', 'turn 5.300', 'set 5.300 0 0 Q_DIR 0 1', 'renumber 5.200 250', 'drop 5.100', 'set 5.250 1 0 V_TSR 0 9']);
  for (let serial = 1; serial <= 9; serial += 1) {
    const { strikes, whole, first } = session.chain(serial);
    const commands = strikes.map((s) => 'strike ' + s);
    assert.ok(whole && session.trial(commands).replies.every(({ kind }) => kind === 'struck'), `${strikes}`);
    assert.equal(first, session.trial(['strike ' + serial]).replies[0].first);
    // The last of them depends on none but those that go, so without its strike one is refused.
    if (strikes.length > 1) assert.ok(session.trial(commands.slice(1)).replies.some(({ number }) => number === 26), `${strikes}`);
  }
});

test('an input that is refused has no facts', () => {
  const { status, output } = engine.facts(bytesOf('plan 1\ngroup\nedits\n'));
  assert.deepEqual([status, textOf(output)], [2, 'bad 2 10 GroupSize\n']);
});
