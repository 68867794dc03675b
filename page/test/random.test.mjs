// @ts-check
// Random sessions: what the page says of each edit has to agree with the plan that the engine printed.
import assert from 'node:assert/strict';
import fs from 'node:fs';
import test from 'node:test';
import { digitsOf, packetBits, spansOf } from '../src/core/bits.mjs';
import { diffGroup } from '../src/core/diff.mjs';
import { packetItem } from '../src/core/items.mjs';
import { blankFields, formOf, packetFields } from '../src/core/layouts.mjs';
import { linksOf, summaryOf } from '../src/core/links.mjs';
import { bytesOf } from '../src/core/texts.mjs';
import { occurrences } from '../src/core/variables.mjs';
import { Checker } from '../src/worker/checker.mjs';
import { base, digitsOfItems, engine, none, packetOf, telegramsOf } from './setup.mjs';
import { Session } from '../src/worker/session.mjs';
import { packetDigits } from '../src/worker/speller.mjs';

const PLAIN = /^(D_|L_TSR|V_TSR|NID_TSR|Q_LOCACC|Q_SCALE)/; // no other edit changes these

/** @param {number} seed */
function randomness(seed) {
  let state = seed;
  return (/** @type {number} */ most) => (state = (Math.imul(state, 1103515245) + 12345) >>> 1) % most;
}

/**
 * A form with random values and parts, of a packet that the engine knows.
 * @param {(most: number) => number} random @param {number} number
 */
function randomPacket(random, number) {
  const form = formOf(number, []);
  /** @param {import('../src/core/layouts.mjs').Node[]} nodes */
  const fill = (nodes) => {
    for (const node of nodes) {
      if ('name' in node) node.value = random(node.name === 'Q_DIFF' ? 3 : 2);
      else if ('when' in node) fill(node.nodes);
      else {
        for (let more = random(3); more > 0; more -= 1) node.list.push(formOf(number, []).flatMap((each) => ('part' in each && each.part === node.part ? each.list[0] ?? [] : [])));
        node.list = node.list.filter((part) => part.length > 0);
        node.list.forEach(fill);
      }
    }
  };
  fill(form);
  return packetOf(packetFields(number, 1, form));
}

/**
 * A command that is mostly accepted.
 * @param {(most: number) => number} random @param {Session} session @param {any} update
 */
function command(random, session, update) {
  const [{ group }] = session.look([random(session.groups.length)]);
  const id = `${group.country}.${group.number}`;
  const pig = random(group.telegrams.length);
  const { packets } = group.telegrams[pig];
  const pkt = random(Math.max(1, packets.length));
  const kind = random(21);
  if (kind < 8) {
    const fields = occurrences(packets[pkt]?.fields ?? []).filter(({ name }) => PLAIN.test(name));
    if (fields.length > 0) {
      const { name, k } = fields[random(fields.length)];
      return `set ${id} ${pig} ${pkt} ${name} ${k} ${random(4)}`;
    }
  }
  switch (kind) {
    case 8: case 9: return `insert ${id} ${pig} ${random(packets.length + 1)} ${packetOf(blankFields([65, 66, 136][random(3)]))}`;
    case 10: return `delete ${id} ${pig} ${pkt}`;
    case 11: case 12: return `move ${id} ${pig} ${pkt} ${random(Math.max(1, packets.length))}`;
    case 13: case 14: return `turn ${id}`;
    case 15: return `renumber ${id} ${1 + random(900)}`;
    case 16: return random(3) ? 'undo' : 'redo';
    case 17: return update.edits.length > 0 ? `strike ${update.edits[random(update.edits.length)].s}` : 'undo';
    case 18: return `add ${random(session.groups.length + 1)} ${telegramsOf({ country: 5, number: 1000 + random(500), balises: 1 + random(3), version: 33, long: random(2) === 1 }).join(' ')}`;
    case 19: return session.groups.length > 3 && random(3) === 0 ? `drop ${id}` : 'redo';
    case 20: return `insert ${id} ${pig} ${random(packets.length + 1)} ${randomPacket(random, [5, 21, 27, 41][random(4)])}`;
    default: return `seth ${id} ${pig} M_MCOUNT ${random(256)}`;
  }
}

/**
 * The last standing set of a place is what the plan has there.
 * @param {any} update @param {any[]} views @param {any[]} list
 */
function placesAgree(update, views, list) {
  const standing = update.edits.filter((/** @type {any} */ edit) => edit.stands && edit.kind === 'set'
    && PLAIN.test(edit.place?.name ?? ''));
  for (const { place, line, where } of new Map(standing.map((/** @type {any} */ edit) => [edit.path, edit])).values()) {
    const fields = occurrences(views[place.group].telegrams[place.pig].packets[place.pkt].fields);
    assert.equal(fields.find(({ name, k }) => name === place.name && k === place.k)?.value, Number(line.split(' ')[5]),
      line);
    assert.equal(where, list[place.group].id);
  }
}

/**
 * A review line of a standing turn leads to its variable.
 * @param {Session} session @param {any} update @param {any[]} views @param {any[]} reviews
 */
function reviewsAgree(session, update, views, reviews) {
  const standing = new Set(update.edits.filter((/** @type {any} */ { stands }) => stands).map((/** @type {any} */ { s }) => s));
  for (const [i, place] of session.find(reviews.map(({ path }) => path)).entries()) {
    const { turn, name, k, opaque, value } = reviews[i];
    if (!place || !standing.has(turn)) continue;
    const { fields } = views[place.group].telegrams[/** @type {number} */ (place.pig)].packets[/** @type {number} */ (place.pkt)];
    assert.ok(opaque ? fields[0][1] === value
      : occurrences(fields).some((field) => field.name === name && field.k === k));
  }
}

/**
 * Bits lie where their values say, the engine makes the digits of a packet of what its form shows, and a group doesn't
 * differ from itself.
 * @param {Session} session
 */
function bitsAgree(session) {
  /** @type {string[][]} */
  const items = [];
  /** @type {string[]} */
  const due = [];
  for (const each of session.decoder.decoded(session.groups)) {
    each.group.telegrams.forEach((telegram, pig) => {
      assert.ok(spansOf(telegram, each.digits[pig]).every(({ agrees }) => agrees));
      const bits = packetBits(telegram, each.digits[pig]);
      telegram.packets.forEach(({ fields: [[, number], [, direction], , ...fields], known }, pkt) => {
        if (!known) return;
        items.push(packetItem(telegram.m_version, packetFields(number, direction, formOf(number, fields))));
        due.push(digitsOf(bits[pkt]));
      });
    });
    assert.equal(diffGroup(each, each), null);
  }
  assert.deepEqual(digitsOfItems(items), due);
}

/**
 * The engine makes the digits of every packet of a plan again, also of those that it doesn't know.
 * @param {Session} session
 */
function packetsAgree(session) {
  for (const { group, digits } of session.decoder.decoded(session.groups))
    for (const [pig, telegram] of group.telegrams.entries())
      assert.deepEqual(packetDigits(engine, digits[pig]), packetBits(telegram, digits[pig]).map(digitsOf));
}

for (let seed = 1; seed <= 12; seed += 1)
  test(`random session ${seed}`, () => {
    const random = randomness(seed);
    const session = new Session(engine);
    let update = session.open(base, none);
    const list = update.splices.flatMap(({ groups }) => groups);
    /** @type {any[]} */
    const reviews = [];
    for (let step = 0; step < 60; step += 1) {
      const next = session.run([command(random, session, update)]);
      if (!next.kept) continue;
      update = next;
      for (const { at, removed, groups } of update.splices) list.splice(at, removed, ...groups);
      reviews.push(...update.reviews);
      const views = session.decoder.views(session.groups);
      assert.deepEqual(list, views.map(summaryOf), 'the list on the page is the plan');
      assert.deepEqual(session.overview.links, views.map(linksOf));
      assert.deepEqual(session.overview.ids, list.map(({ id }) => id));
      assert.deepEqual(session.overview.packets, list.map(({ packets }) => packets));
      placesAgree(update, views, list);
      reviewsAgree(session, update, views, reviews);
      bitsAgree(session);
      assert.deepEqual(new Set(session.changes().filter(({ index }) => index >= 0).map(({ index }) => index)),
        new Set(update.changed));
    }
    packetsAgree(session);
    for (const { s } of update.edits.filter(({ stands }) => stands).slice(0, 4)) {
      const { strikes, whole } = session.chain(s);
      assert.ok(whole && strikes[strikes.length - 1] === s);
    }
    const files = { base, journal: bytesOf(session.journal), delivered: bytesOf(session.plan) };
    assert.equal(new Checker(engine, files).check().verdict, 'yes');
  });

test('no data becomes markup', () => {
  for (const name of fs.readdirSync(new URL('../src/ui', import.meta.url)))
    assert.doesNotMatch(fs.readFileSync(new URL('../src/ui/' + name, import.meta.url), 'utf8'),
      /innerHTML|outerHTML|insertAdjacentHTML|document\.write|\beval\(/, name);
});
