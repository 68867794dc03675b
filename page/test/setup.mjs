// @ts-check
/** What the tests share: the engine, the worked line, the program to compare with. */
import fs from 'node:fs';
import path from 'node:path';
import { engineOf } from '../build.mjs';
import { Engine } from '../src/core/engine.mjs';
import { groupItems, packetItem } from '../src/core/items.mjs';
import { Session } from '../src/worker/session.mjs';
import { spell } from '../src/worker/speller.mjs';

export const TOP = path.resolve(path.dirname(new URL(import.meta.url).pathname), '../..');
/** The program, where there is one: BALISEPLAN names it, or the one that was built. */
export const PROGRAM = process.env.BALISEPLAN ?? path.join(TOP, 'crates/baliseplan/out/baliseplan');
/** The engine of the stored page, or the one that ENGINE names. */
export const engineBytes = process.env.ENGINE
  ? fs.readFileSync(process.env.ENGINE)
  : engineOf(fs.readFileSync(path.join(TOP, 'page/baliseplan.html'), 'utf8'));
export const engine = await Engine.load(new Uint8Array(engineBytes));
export const base = new Uint8Array(fs.readFileSync(path.join(TOP, 'examples/line.base')));
export const none = new Uint8Array(0);

/** A session over the worked line. */
export function opened() {
  const session = new Session(engine);
  session.open(base, none);
  return session;
}

/**
 * The digits that the engine makes of items, which have to be right.
 * @param {string[][]} items
 */
export const digitsOfItems = (items) => spell(engine, items).map(({ digits, bad }, i) => {
  if (bad) throw new Error(`${JSON.stringify(bad)} of ${items[i].join(' | ')}`);
  return digits;
});
/** @param {[string, number][]} fields of a packet in a telegram of version 2.1 */
export const packetOf = (fields) => digitsOfItems([packetItem(33, fields)])[0];
/** @param {Parameters<typeof groupItems>[0]} group */
export const telegramsOf = (group) => digitsOfItems(groupItems(group));

/**
 * A run that has to be kept.
 * @param {Session} session @param {string[]} commands
 */
export function done(session, commands) {
  const update = session.run(commands);
  if (!update.kept) throw new Error(update.replies.map(({ text }) => text).join('\n'));
  return update;
}
