// @ts-check
// The engine in the page: what it may reach, and what it answers where it can't run.
import assert from 'node:assert/strict';
import test from 'node:test';
import { FLAG, STATUS } from '../src/core/engine.mjs';
import { bytesOf, groupTexts, inputOf, repliesOf, splitOutput, textOf } from '../src/core/texts.mjs';
import { base, engine, none } from './setup.mjs';

test('it reaches nothing but its own memory', () => {
  assert.deepEqual(WebAssembly.Module.imports(engine.module), []);
  const names = WebAssembly.Module.exports(engine.module).map(({ name }) => name);
  for (const name of ['baliseplan_abi', 'baliseplan_explain', 'baliseplan_facts', 'baliseplan_run', 'baliseplan_spell', 'malloc', 'memory'])
    assert.ok(names.includes(name), name);
  const { exports } = new WebAssembly.Instance(engine.module, {});
  assert.equal(/** @type {any} */ (exports).baliseplan_abi(), 1);
});

test('an output is taken apart', () => {
  const commands = ['turn 5.300', 'drop 9.9'];
  const { status, output } = engine.run(inputOf(base, none, commands), FLAG.journal | FLAG.json);
  const parts = splitOutput(textOf(output)) ?? assert.fail('no plan');
  assert.equal(status, STATUS.refused);
  const replies = repliesOf(parts.replies);
  assert.deepEqual(replies.map(({ kind, number, name }) => [kind, number, name]), [['ok', 0, ''], ['refused', 14, 'NoSuchGroup']]);
  assert.equal(replies[0].reviews.length, 6);
  assert.equal(groupTexts(parts.plan).length, 5);
  assert.equal(parts.view.length, 5);
  assert.match(parts.journal, /^journal 2 2\n1 turn b2\n$/);
});

test('an unknown flag, a line that is too long, an output that needs more room', () => {
  assert.equal(engine.run(base, 16).status, STATUS.usage);
  assert.equal(engine.run(bytesOf(`plan 1\nedits\n${'x'.repeat(4097)}\n`), 0).status, STATUS.tooLong);
  const many = Array.from({ length: 20000 }, () => 'undo'); // replies are much longer than these lines
  const { status, output } = engine.run(inputOf(base, none, many), 0);
  assert.equal(status, STATUS.refused);
  assert.equal(repliesOf(splitOutput(textOf(output))?.replies ?? []).length, many.length);
});

test('one run knows nothing of another', () => {
  const input = inputOf(base, none, ['drop 5.100']);
  assert.deepEqual(engine.run(input, 0).output, engine.run(input, 0).output);
});
