// @ts-check
// The session over the engine: what the page says of a plan is compared with what the engine printed.
import assert from 'node:assert/strict';
import test from 'node:test';
import { spansOf } from '../src/core/bits.mjs';
import { complete } from '../src/core/complete.mjs';
import { packetItem } from '../src/core/items.mjs';
import { LAYOUTS, blankFields } from '../src/core/layouts.mjs';
import { layOut } from '../src/core/line.mjs';
import { linksOf, pendingSummaries, summaryOf, unknownPackets } from '../src/core/links.mjs';
import { bytesOf } from '../src/core/texts.mjs';
import { packSplices } from '../src/worker/overview.mjs';
import { Refused, Session } from '../src/worker/session.mjs';
import { base, digitsOfItems, done, engine, none, opened, packetOf, telegramsOf } from './setup.mjs';

const MONDAY = [
  'set 5.200 1 0 V_TSR 0 6', 'set 5.200 1 0 L_TSR 0 450', 'insert 5.200 1 1 41408e000000000000', 'set 5.200 1 1 Q_SCALE 0 1',
  'set 5.200 1 1 NID_TSR 0 6', 'set 5.200 1 1 D_TSR 0 700', 'set 5.200 1 1 L_TSR 0 100', 'set 5.200 1 1 V_TSR 0 12',
];

test('spans cover each bit and agree with the engine', () => {
  const session = opened();
  for (const { group, digits } of session.decoder.decoded(session.groups))
    group.telegrams.forEach((telegram, i) => {
      const spans = spansOf(telegram, digits[i]);
      assert.equal(spans.reduce((sum, span) => sum + span.bits.length, 0), telegram.bits);
      assert.ok(spans.every((span) => span.agrees));
    });
});

test('links are those of docs/GUIDE.md, and the line is laid out by them', () => {
  const session = opened();
  const groups = session.decoder.views(session.groups);
  const links = groups.flatMap((group) => linksOf(group).map((link) =>
    `${group.country}.${group.number} ${link.pig} ${link.pkt} NID_BG ${link.k}: ${link.to} ${link.metres} m ${link.nominal ? 'nominal' : 'reverse'}`));
  assert.equal(links[1], '5.100 0 0 NID_BG 1: 5.300 1450 m reverse');
  assert.equal(links.length, 10);
  assert.deepEqual(session.overview.danglingLinks().map(({ from, to }) => [from, to]), [['5.500', '6.20']]);
  assert.deepEqual(session.overview.dangling(), [4]);
  assert.deepEqual(session.overview.naming('5.200').map(({ from }) => from), ['5.100', '5.300']);
  const line = session.overview.layOut();
  assert.deepEqual([line.groups, line.missing, [...line.lineStart]], [5, ['6.20'], [0, 6]]);
  assert.deepEqual([...line.order].map((n) => [n, line.metre[n], line.heading[n]]),
    [[0, 0, 1], [1, 600, 1], [2, 1450, -1], [3, 2150, 1], [4, 3050, 1], [5, 3550, 1]]);
  assert.ok(line.edges.off.every((off) => off === 0));
});

test('a wrong distance shows at the links across it alone', () => {
  const session = opened();
  done(session, ['set 5.200 0 0 D_LINK 0 900']);
  const { edges, metre } = session.overview.layOut();
  assert.equal(metre[2], 1450);
  assert.deepEqual([...edges.off].flatMap((off, e) => (off === 0 ? [] : [[session.overview.ids[edges.from[e]], off]])),
    [['5.200', -50]]);
});

test('of two links that contradict each other the one that a third group bears out is drawn', () => {
  const session = opened();
  done(session, ['set 5.200 0 1 D_LINK 0 300']);
  const { edges, metre } = session.overview.layOut();
  assert.equal(metre[1], 600);
  assert.deepEqual([...edges.off].filter((off) => off !== 0), [300]);
});

test('many groups that aren’t decoded yet go as one text', () => {
  const groups = Array.from({ length: 5000 }, (_, i) => ({ id: `5.${i}`, balises: 1 + (i % 8), packets: '', pending: true }));
  const [{ ids = '', balises = new Uint8Array(0), ...rest }] = /** @type {any[]} */ (packSplices([{ at: 0, removed: 3, groups }]));
  assert.deepEqual(rest, { at: 0, removed: 3 });
  assert.deepEqual(pendingSummaries({ ids, balises }), groups);
  assert.deepEqual(packSplices([{ at: 0, removed: 3, groups: groups.slice(0, 9) }]), [{ at: 0, removed: 3, groups: groups.slice(0, 9) }]);
});

test('groups without links share the last line', () => {
  const { lineStart, order } = layOut(['1.1', '1.2', '1.3'], [[], [], []]);
  assert.deepEqual([[...lineStart], [...order]], [[0, 3], [0, 1, 2]]);
});

test('packets that the engine doesn’t know are marked', () => {
  const summaries = opened().decoder.views(opened().groups).map(summaryOf);
  assert.deepEqual(summaries.map(unknownPackets), [[], [], [44], [], []]);
});

test('the session of docs/GUIDE.md: turn, reviews, strike with its chain', () => {
  const session = opened();
  done(session, MONDAY);
  done(session, ['renumber 5.200 250']);
  const turned = done(session, ['turn 5.300']);
  assert.equal(turned.reviews.length, 6);
  assert.deepEqual(session.find(turned.reviews.map(({ path }) => path)).map((place) => `${place?.id} ${place?.pig} ${place?.pkt}`),
    ['5.300 0 0', '5.300 1 0', '5.300 1 1', '5.100 0 0', '5.250 0 0', '5.400 0 1']);
  const later = done(session, ['set 5.300 1 0 D_LINK 0 847']);
  assert.equal(later.edits[later.edits.length - 1].path, turned.reviews[1].path + '.D_LINK.0');
  assert.equal(later.edits[0].what, 'V_TSR 8 → 6 (40 km/h → 30 km/h)');
  assert.equal(later.edits[0].where, '5.250');
  assert.deepEqual(session.chain(3), { strikes: [8, 7, 6, 5, 4, 3], whole: true, first: 4 });
  assert.deepEqual(done(session, ['strike 1']).replies.map(({ text }) => text), ['struck 1']);
  assert.deepEqual(session.run(['strike 3']).replies.map(({ text }) => text), ['refused 26 DependsOn 4']);
  const changes = session.changes();
  assert.deepEqual(changes.map(({ before, after }) => [before, after]),
    [['5.100', '5.100'], ['5.200', '5.250'], ['5.300', '5.300'], ['5.400', '5.400']]);
  assert.ok(changes[2].turned);
});

test('several commands are one step: all or nothing', () => {
  const session = opened();
  const before = [session.plan, session.journal];
  const refused = session.run(['renumber 5.200 250', 'drop 9.9', 'set 5.100 0 0 D_LINK 0 99999']);
  assert.equal(refused.kept, false);
  assert.deepEqual(refused.replies.map(({ text }) => text),
    ['ok 1', 'refused 14 NoSuchGroup', 'refused 19 ValueTooWide']);
  assert.deepEqual([session.plan, session.journal], before);
  const kept = session.run(['renumber 5.200 250', 'drop 9.9'], true);
  assert.equal(kept.kept, true);
  assert.notEqual(session.plan, before[0]);
  assert.equal(session.run(['drop 9.9'], true).kept, false);
});

test('a batch with turns gives the reviews of each, at their places', () => {
  const session = opened();
  const { replies, reviews } = done(session,
    ['turn 5.300', 'set 5.300 1 0 D_LINK 0 847', 'turn 5.200', 'renumber 5.200 250']);
  assert.deepEqual(replies.map(({ text }) => text), ['ok 1', 'ok 2', 'ok 3', 'ok 4']);
  assert.equal(reviews.length, replies[0].reviews.length + replies[2].reviews.length);
  assert.deepEqual(new Set(reviews.map(({ turn }) => turn)), new Set([1, 3]));
});

test('a trial keeps nothing', () => {
  const session = opened();
  const before = [session.plan, session.journal];
  const tried = session.try(['renumber 5.200 250', 'drop 9.9']);
  assert.deepEqual(tried.replies.map(({ text }) => text), ['ok 1', 'refused 14 NoSuchGroup']);
  assert.deepEqual(tried.diffs.map(({ before: from, after }) => [from, after]),
    [['5.100', '5.100'], ['5.200', '5.250'], ['5.300', '5.300']]);
  assert.deepEqual(session.try(['drop 5.200']).diffs.map(({ kind, before: from }) => [kind, from]),
    [['removed', '5.200']]);
  assert.deepEqual([session.plan, session.journal], before);
});

test('a new group is what the engine takes', () => {
  const session = opened();
  const digits = telegramsOf({ country: 5, number: 600, balises: 2, version: 33, long: true });
  const { replies, edits } = done(session, ['add 5 ' + digits.join(' '), 'insert 5.600 0 0 ' + packetOf(blankFields(5))]);
  assert.deepEqual(replies.map(({ text }) => text), ['ok 1', 'ok 2']);
  assert.equal(edits[1].where, '5.600');
});

test('a bad journal is shown with its own line, and the session stays', () => {
  const session = opened();
  const before = session.plan;
  assert.throws(() => session.open(base, bytesOf('journal 2 2\n1 set b1/1/b0 V_TSR 0 6 9\n')),
    (/** @type {any} */ error) => error instanceof Refused && error.failure.file === 'journal' && error.failure.line === 2 && error.failure.number === 27);
  assert.equal(session.plan, before);
  assert.throws(() => new Session(engine).open(bytesOf('plan 1\ngroup\nzz\n'), none),
    (/** @type {any} */ error) => error instanceof Refused && error.failure.file === 'base' && error.failure.line === 3);
});

test('completion', () => {
  const session = opened();
  const groups = session.decoder.views(session.groups);
  const look = {
    identities: (/** @type {string} */ start) => session.overview.ids.filter((id) => id.startsWith(start)),
    group: (/** @type {string} */ id) => groups[session.overview.ids.indexOf(id)],
    standing: () => [{ s: 4, what: 'turned round', where: '5.300' }],
    blanks: (/** @type {number} */ version) => Object.keys(LAYOUTS).map(Number).map((number) =>
      ({ number, digits: digitsOfItems([packetItem(version, blankFields(number))])[0] })),
  };
  const texts = (/** @type {string} */ line) => complete(line, look).choices.map(({ text }) => text);
  assert.deepEqual(new Set(texts('re')), new Set(['renumber', 'redo']));
  assert.deepEqual(texts('set 5.2'), ['5.200']);
  assert.deepEqual(texts('set 5.200 '), ['0', '1']);
  assert.ok(texts('set 5.200 1 0 ').includes('V_TSR') && !texts('set 5.200 1 0 ').includes('L_PACKET'));
  assert.deepEqual(texts('set 5.200 1 0 V_TSR '), ['0']);
  assert.equal(texts('set 5.200 1 0 V_TSR 0 ')[0], '8');
  assert.deepEqual(texts('seth 5.200 0 M_DUP '), ['0', '1', '2', '3']);
  assert.equal(texts('insert 5.200 1 1 ').length, 7);
  assert.deepEqual(texts('insert 5.200 1 1 42'), ['42403e00']);
  assert.deepEqual(texts('strike '), ['4']);
  assert.deepEqual(texts('undo '), []);
});
