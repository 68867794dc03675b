// @ts-check
// Where tags stand: the lines of the engine read, and that a session asks for them once, and only where something needs them.
import assert from 'node:assert/strict';
import { spawnSync } from 'node:child_process';
import path from 'node:path';
import test from 'node:test';
import { Engine, FACTS } from '../src/core/engine.mjs';
import { Tags } from '../src/core/tags.mjs';
import { bytesOf, inputOf, textOf } from '../src/core/texts.mjs';
import { withLastWords } from '../src/core/words.mjs';
import { Session } from '../src/worker/session.mjs';
import { TOP, base, done, engine, none } from './setup.mjs';

const EDITS = ['insert 5.300 1 1 42403e02', 'move 5.300 1 0 1', 'turn 5.300', 'delete 5.400 0 0', 'renumber 5.200 250', 'drop 5.100'];

/** @param {Uint8Array} input */
const byReference = (input) => spawnSync('python3', ['-B', path.join(TOP, 'reference/balisefacts.py'), '--tags'], { input });

/** The engine with tags by the reference, which counts how often it is asked. */
class Counted extends Engine {
  asked = 0;
  change = (/** @type {string} */ text) => text;

  /** @param {Uint8Array} input @param {number} [what] */
  facts(input, what) {
    assert.equal(what, FACTS.tags);
    this.asked += 1;
    const { status, stdout } = byReference(input);
    return { status: Number(status), output: bytesOf(this.change(stdout.toString())), ms: 0 };
  }
}

function counted() {
  const counting = new Counted(engine.module);
  const session = new Session(counting);
  session.open(base, none);
  return { counting, session };
}

test('tags of the engine are those of the reference', () => {
  for (const given of [EDITS, [], [...EDITS, 'undo', 'strike 2', 'turn 9.9']]) {
    const input = inputOf(base, none, given);
    const { status, output } = engine.facts(input, FACTS.tags);
    const due = byReference(input);
    assert.equal(textOf(output), due.stdout.toString());
    assert.equal(status, due.status);
  }
});

test('lines of tags', () => {
  const tags = new Tags('facts 1\ngroup 5.1 b1\ntelegram 5.1 0 1\npacket 5.1 0 0 n4\npacket 5.1 0 1 b0\ntelegram 5.1 1 0\ngroup 7.2 n3\ntelegram 7.2 0 0\n');
  assert.deepEqual(tags.order, ['b1', 'n3']);
  assert.deepEqual(tags.shape(0), [{ telegram: '1', packets: ['n4', 'b0'] }, { telegram: '0', packets: [] }]);
  assert.deepEqual(['b1/1/b0', 'b1/0', 'n3'].map((each) => tags.find(each)),
    [{ group: 0, pig: 0, pkt: 1 }, { group: 0, pig: 1, pkt: null }, { group: 1, pig: null, pkt: null }]);
  for (const gone of ['b0', 'b0/0', 'b1/2', 'b1/1/b1', 'n3/0/b0']) assert.equal(tags.find(gone), null, gone);
  assert.equal(tags.pathOf(0, 0, 0), 'b1/1/n4');
  assert.deepEqual(new Tags('facts 1\n').order, []);
});

test('what isn’t tags is refused', () => {
  for (const text of ['', 'bad 1 1 BadLine\n', 'facts 2\n', 'facts 1\nedit 1\n', 'facts 1\ngroup 5.1\n', 'facts 1\ngroup 5.1 b0 b0\n'])
    assert.throws(() => new Tags(text), JSON.stringify(text));
  for (const lines of ['packet 5.1 0 0 b0', 'telegram 5.1 1 0', 'telegram 5.1 0 0\npacket 5.1 0 1 b1', 'telegram 5.1 0', 'edit 1', ''])
    assert.throws(() => new Tags(`facts 1\ngroup 5.1 b0\n${lines}\n`).shape(0), lines);
});

test('a session asks once for a plan and journal, and only where something needs it', () => {
  const { counting, session } = counted();
  session.changes();
  session.look([0]);
  assert.equal(counting.asked, 0);
  const { edits } = done(session, EDITS.slice(3));
  assert.equal(counting.asked, 1);
  assert.deepEqual(edits.map(({ where, place }) => [where, place?.group]), [['5.400', undefined], ['5.250', 0], ['5.100', undefined]]);
  session.find(['b2', 'b2/1/b0']);
  session.words();
  session.changes();
  assert.equal(counting.asked, 1);
});

test('with many groups the words come after the update', () => {
  const { counting, session } = counted();
  session.mostAtOnce = 3;
  const first = done(session, ['set 5.200 1 0 V_TSR 0 6']);
  assert.deepEqual([first.inWords, counting.asked, first.edits[0].what], [false, 0, '1 set b1/1/b0 V_TSR 0 6 8']);
  const words = session.words();
  assert.deepEqual([counting.asked, words[0].where, words[0].path, words[0].path], [1, '5.200', 'b1/1/b0.V_TSR.0', first.edits[0].path]);
  const next = done(session, ['renumber 5.200 250']);
  const shown = withLastWords(next.edits, words);
  assert.deepEqual(shown.map(({ where, place }) => [where, place]), [['5.200', null], ['', null]]);
  assert.deepEqual(session.words().map(({ where }) => where), ['5.250', '5.250']);
  assert.equal(counting.asked, 2);
});

test('tags that don’t fit the plan are refused', () => {
  for (const [from, to] of [['group 5.300 b2', 'group 5.300 b9'], ['facts 1', 'facts 2'], ['group 5.300 b2\n', '']]) {
    const { counting, session } = counted();
    counting.change = (text) => text.replace(from, to);
    assert.throws(() => session.run(['turn 5.300']), /tags/);
    assert.deepEqual([session.plan, session.words()], [textOf(base), []]);
  }
});
