// @ts-check
// Deliveries that were tampered with, each named for what it is.
import assert from 'node:assert/strict';
import test from 'node:test';
import { bytesOf, textOf } from '../src/core/texts.mjs';
import { Checker } from '../src/worker/checker.mjs';
import { base, done, engine, none, opened } from './setup.mjs';

const session = opened();
done(session,
  ['set 5.200 1 0 V_TSR 0 6', 'set 5.200 1 0 L_TSR 0 450', 'insert 5.200 1 1 41408e000000000000', 'set 5.200 1 1 NID_TSR 0 6', 'turn 5.300', 'drop 5.400']);
const { journal, plan } = session;

/** @param {string} delivered @param {string} [withJournal] @param {string} [onBase] */
const check = (delivered, withJournal = journal, onBase = textOf(base)) =>
  new Checker(engine, { base: bytesOf(onBase), journal: bytesOf(withJournal), delivered: bytesOf(delivered) }).check();
/** @param {string} text @param {RegExp} line */
const without = (text, line) => text.split('\n').filter((each) => !line.test(each)).join('\n');

test('a delivery that belongs together', () => {
  const answer = check(plan);
  assert.deepEqual([answer.verdict, answer.finding.kind, answer.groups], ['yes', 'same', 4]);
  assert.deepEqual(answer.changes.map(({ before, after }) => before || after).sort(),
    ['5.100', '5.200', '5.300', '5.400']);
  assert.equal(new Checker(engine, { base, journal: none, delivered: base }).check().verdict, 'yes');
});

test('a bit', () => {
  const answer = check(plan.replace('a1007f80a0fa', 'a1007f00a0fa'));
  assert.deepEqual([answer.verdict, answer.finding.kind, answer.finding.title],
    ['no', 'bits', 'One bit of 5.500 was changed.']);
  assert.deepEqual(answer.differs[0].telegrams[0].header, [{ name: 'M_MCOUNT', k: 0, before: 255, after: 254 }]);
  assert.deepEqual(answer.differs[0].telegrams[0].bits, [24]);
  assert.deepEqual(answer.finding.commands, ['seth 5.500 0 M_MCOUNT 254']);
});

test('a bit of the padding and of an unknown packet', () => {
  for (const [from, to] of [['fffffc0\n', 'ffffec0\n']]) {
    const at = plan.indexOf(from);
    const answer = check(plan.slice(0, at) + to + plan.slice(at + from.length));
    assert.deepEqual([answer.finding.kind, answer.differs[0].telegrams[0].padding], ['bits', true]);
  }
  const opaque = plan.replace(/1600fa51/, '1600fa51');
  assert.equal(check(opaque).verdict, 'yes');
});

test('a missing entry', () => {
  const set = check(plan, without(journal, /^2 set/));
  assert.deepEqual([set.verdict, set.finding.kind], ['no', 'missing']);
  assert.match(set.finding.details[0], /no entry 2/);
  assert.deepEqual(set.finding.commands, ['set 5.200 1 0 L_TSR 0 450']);
  const insert = check(plan, without(journal, /^3 insert/));
  assert.deepEqual([insert.finding.kind, insert.failures.journal?.number], ['missing', 27]);
  assert.match(insert.finding.details[0], /Entry 4 names what edit 3 put in/);
  const both = without(without(journal, /^3 insert/), /^4 set/);
  assert.equal(check(plan, both).finding.kind, 'missing');
});

test('an entry more', () => {
  const less = opened();
  done(less,
    ['set 5.200 1 0 V_TSR 0 6', 'insert 5.200 1 1 41408e000000000000', 'set 5.200 1 1 NID_TSR 0 6', 'turn 5.300', 'drop 5.400']);
  const middle = check(less.plan);
  assert.deepEqual([middle.verdict, middle.finding.kind], ['no', 'more']);
  assert.match(middle.finding.details[0], /Without edit 2/);
  const last = session.trial(['undo']).parts.plan;
  assert.match(check(last).finding.details[0], /Without edit 6/);
  const older = check(session.trial(['undo', 'undo']).parts.plan);
  assert.deepEqual([older.finding.kind, older.finding.title],
    ['older', 'The journal has 2 entries more than the delivered plan.']);
});

test('another journal', () => {
  const other = check(plan, journal.replace(' 6 8', ' 6 9'));
  assert.deepEqual([other.verdict, other.finding.kind, other.failures.journal?.line], ['no', 'other', 2]);
  assert.match(other.finding.details[1],
    /It notes 9 as the old value of V_TSR, and 5.200, balise 1, packet 0 has 8 there/);
  assert.equal(check(plan, journal.replace('450 300', '450 301')).finding.kind, 'changed');
  assert.equal(check(textOf(base), journal, plan).finding.kind, 'swapped');
  assert.equal(check(plan, journal.slice(0, 40)).finding.kind, 'journal');
});

test('what a transfer does: CRLF, a byte-order mark, a cut, capitals', () => {
  const crlf = check(plan.replaceAll('\n', '\r\n'));
  assert.deepEqual([crlf.verdict, crlf.finding.kind], ['bytes', 'transfer']);
  assert.match(crlf.finding.details[0], /delivered plan: Lines end in a carriage return/);
  const mark = check(plan, '\ufeff' + journal);
  assert.deepEqual([mark.verdict, mark.finding.kind, mark.damage.journal[0].kind], ['bytes', 'transfer', 'mark']);
  assert.match(mark.finding.details[0], /The journal: A byte-order mark/);
  assert.match(check(plan, journal, textOf(base).replaceAll('\n', '\r\n')).finding.details[0],
    /The base plan: Lines end/);
  const cut = check(plan.slice(0, -20));
  assert.deepEqual([cut.finding.kind, cut.damage.delivered[0].kind], ['delivered', 'cut']);
  const capitals = check(plan.replaceAll('ffffc0', 'FFFFC0'));
  assert.deepEqual([capitals.verdict, capitals.finding.kind], ['bytes', 'letters']);
  const both = check(plan.replace('a1007f80a0fa', 'a1007f00a0fa').replaceAll('\n', '\r\n'));
  assert.deepEqual([both.verdict, both.finding.kind, both.damage.delivered[0].kind], ['no', 'bits', 'returns']);
});

test('another order, and groups more or less', () => {
  const groups = plan.split('group\n');
  const moved = [groups[0], groups[2], groups[1], ...groups.slice(3)].join('group\n');
  assert.equal(check(moved).finding.kind, 'order');
  const lost = [groups[0], ...groups.slice(2)].join('group\n');
  const answer = check(lost);
  assert.deepEqual([answer.finding.kind, answer.differs.map(({ kind }) => kind)], ['groups', ['removed']]);
});

test('the links and unknown packets of a delivered plan', () => {
  const checker = new Checker(engine, { base, journal: bytesOf(journal), delivered: bytesOf(plan) });
  checker.check();
  const { dangling, unknown } = checker.links();
  assert.deepEqual(dangling.map(({ from, to }) => [from, to]),
    [['5.300', '5.400'], ['5.500', '6.20'], ['5.500', '5.400']]);
  assert.deepEqual(unknown.map(([id]) => id), ['5.300']);
});
