// @ts-check
// data/examples: what the page says of values, refusals, files, edits, differences and deliveries. The desk is tested
// against the same examples, so that both say the same.
import assert from 'node:assert/strict';
import fs from 'node:fs';
import path from 'node:path';
import test from 'node:test';
import { damageOf } from '../src/core/damage.mjs';
import { explain } from '../src/core/refusals.mjs';
import { bytesOf } from '../src/core/texts.mjs';
import { meaning, packetName, rawValue } from '../src/core/variables.mjs';
import { Checker } from '../src/worker/checker.mjs';
import { Session } from '../src/worker/session.mjs';
import { TOP, done, engine, none } from './setup.mjs';

/** @param {string} name */
const examples = (name) => JSON.parse(fs.readFileSync(path.join(TOP, 'data/examples', name), 'utf8'));

/**
 * The examples have plain apostrophes.
 * @param {string} text
 */
const plain = (text) => text.replaceAll('’', "'");

/** An element as far as `h` needs one: its tag, its children and their text. */
class FakeNode {
  /** @param {string} tag */
  constructor(tag) {
    this.tag = tag;
    /** @type {any[]} */
    this.children = [];
    this.dataset = {};
  }

  setAttribute() {}

  addEventListener() {}

  /** @param {...any} children */
  append(...children) { this.children.push(...children); }

  /** @returns {string} */
  get text() { return this.children.map((child) => (child instanceof FakeNode ? child.text : String(child))).join(''); }

  /** @param {string} tag @returns {FakeNode[]} */
  all(tag) {
    return this.children.filter((child) => child instanceof FakeNode)
      .flatMap((child) => [...(child.tag === tag ? [child] : []), ...child.all(tag)]);
  }
}
Object.assign(globalThis, { Node: FakeNode, document: { createElement: (/** @type {string} */ tag) => new FakeNode(tag) } });
const { groupDiff } = await import('../src/ui/diff_view.mjs');

/**
 * A difference as the page shows it: title, notes and rows. Of a value the words stand first.
 * @param {any} diff
 */
function shown(diff) {
  const article = groupDiff(diff);
  const [title, notes] = article.all('header')[0].children.filter((/** @type {any} */ child) => child instanceof FakeNode);
  const rows = article.all('tr').slice(1).map((/** @type {FakeNode} */ row) => row.all('td').map((cell) =>
    (cell.all('span')[0] ?? cell.all('button')[0] ?? cell)).map((cell, i) => (i === 1 ? name(cell) : cell.text)));
  return { title: title.text, notes: notes ? notes.text : '', rows };
}

/**
 * A variable with its occurrence, or a note.
 * @param {FakeNode} cell
 */
function name(cell) {
  const sub = cell.all('sub')[0];
  return sub ? `${cell.children[0]} (${sub.text})` : cell.text;
}

/** @param {string} file @param {string[]} commands each a step of its own */
function session(file, commands) {
  const made = new Session(engine);
  made.open(new Uint8Array(fs.readFileSync(path.join(TOP, file))), none);
  for (const command of commands) done(made, [command]);
  return made;
}

test('values, amounts and packets', () => {
  const { meanings, amounts, packets } = examples('values.json');
  for (const [variable, value, scale, words] of meanings)
    assert.equal(plain(meaning(variable, value, scale ?? undefined)), words, `${variable} ${value}`);
  for (const [variable, text, scale, due] of amounts) {
    const found = rawValue(variable, text, scale ?? undefined);
    assert.equal('value' in found ? found.value : plain(found.error), due, `${variable} ${text}`);
  }
  for (const [number, words] of packets) assert.equal(plain(packetName(number)), words);
});

test('refusals', () => {
  for (const [number, word, what] of examples('refusals.json')) {
    const found = explain(number);
    assert.deepEqual([found.name, plain(found.what)], [word, what]);
  }
});

test('damaged files', () => {
  for (const { text, found } of examples('files.json'))
    assert.deepEqual(damageOf(bytesOf(text)).map((each) => [each.kind, plain(each.text)]), found, JSON.stringify(text));
});

test('edits and differences', () => {
  for (const { about, base, commands, edits, differences } of examples('sessions.json')) {
    const made = session(base, commands);
    assert.deepEqual(made.words().map(({ s, stands, where, what, detail }) => [s, stands, where, plain(what), plain(detail)]),
      edits, about);
    assert.deepEqual(JSON.parse(plain(JSON.stringify(made.changes().map(shown)))), differences, about);
  }
});

test('deliveries', () => {
  const base = fs.readFileSync(path.join(TOP, 'examples/line.base'), 'utf8');
  for (const { about, commands, file, change, title } of examples('deliveries.json')) {
    const made = session('examples/line.base', commands);
    /** @type {Record<string, string>} */
    const texts = { base, journal: made.journal, delivered: made.plan };
    if (change) texts[file] = texts[file].replaceAll(change[0], change[1]);
    const files = Object.fromEntries(Object.entries(texts).map(([role, text]) => [role, bytesOf(text)]));
    const { verdict, finding, damage } = new Checker(engine, /** @type {any} */ (files)).check();
    const said = verdict === 'no' ? "They don't belong together." : plain(finding.title);
    assert.deepEqual([said, Object.values(damage).flat().map(({ text }) => plain(text))], title, about);
  }
});
