// @ts-check
/**
 * The worker: takes messages `{id, call, ..}` and answers `{id, value}` or `{id, error, failure?}` (page/README.md).
 */
import { Engine } from '../core/engine.mjs';
import { Checker } from './checker.mjs';
import { packSplices } from './overview.mjs';
import { Refused, Session } from './session.mjs';
import { explain, packetDigits, spell } from './speller.mjs';

/** @type {Engine} */ let engine;
/** @type {Session} */ let session;
/** @type {Checker | null} */ let checker = null;

/** @param {ArrayBuffer} bytes */
async function sha256(bytes) {
  const hash = await crypto.subtle?.digest('SHA-256', bytes);
  return hash ? [...new Uint8Array(hash)].map((byte) => byte.toString(16).padStart(2, '0')).join('') : '';
}

/**
 * Opens files as the session. The one before stays where they are refused.
 * @param {Uint8Array} base @param {Uint8Array} journal
 */
function open(base, journal) {
  const next = new Session(engine);
  const update = next.open(base, journal);
  session = next;
  return packed(update);
}

/** @param {import('./session.mjs').Update | import('./session.mjs').NotKept} update */
const packed = (update) => (update.kept ? { ...update, splices: packSplices(update.splices) } : update);

/**
 * Whether a journal is of a plan.
 * @param {Uint8Array} base @param {Uint8Array} journal
 */
function fits(base, journal) {
  try {
    new Session(engine).open(base, journal);
    return true;
  } catch (error) {
    if (error instanceof Refused) return false;
    throw error;
  }
}

/**
 * Each call by its name.
 * @type {Record<string, (message: any) => any>}
 */
const CALLS = {
  async start({ gzip }) {
    const stream = new Blob([gzip]).stream().pipeThrough(new /** @type {any} */ (globalThis).DecompressionStream('gzip'));
    const bytes = await new Response(stream).arrayBuffer();
    engine = await Engine.load(bytes);
    session = new Session(engine);
    return sha256(bytes);
  },
  open: ({ base, journal }) => open(base, journal),
  run: ({ commands, keepAccepted }) => packed(session.run(commands, keepAccepted)),
  try: ({ commands }) => session.try(commands),
  look: ({ indexes }) => session.look(indexes),
  decode: ({ from, most }) => session.overview.decodeSome(from, most),
  dangling: () => session.overview.dangling(),
  naming: ({ identity }) => session.overview.naming(identity),
  layout: () => session.overview.layOut(),
  changes: () => session.changes(),
  chain: ({ serial, most }) => session.chain(serial, most),
  find: ({ paths }) => session.find(paths),
  words: () => session.words(),
  plan: () => session.plan,
  spell: ({ items }) => spell(engine, items),
  explain: ({ line }) => explain(engine, line),
  packets: ({ digits }) => packetDigits(engine, digits),
  fits: ({ base, journal }) => fits(base, journal),
  check: ({ base, journal, delivered }) => (checker = new Checker(engine, { base, journal, delivered })).check(),
  checkLinks: () => checker?.links(),
  /** The engine alone, for comparisons with the program and the reference. */
  raw: ({ input, flags }) => engine.run(input, flags),
  rawFields: ({ way, input }) => (way === 'spell' ? engine.spell(input) : engine.explain(input)),
};

self.onmessage = async ({ data }) => {
  const { id, call } = data;
  try {
    self.postMessage({ id, value: await CALLS[call](data) });
  } catch (error) {
    const failure = error instanceof Refused ? error.failure : undefined;
    self.postMessage({ id, error: String(/** @type {any} */ (error)?.message ?? error), failure });
  }
};
