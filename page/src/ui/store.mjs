// @ts-check
/**
 * Sessions in IndexedDB, so that a closed tab or a crash loses nothing. Each opened plan has a record of its own; a lock
 * tells whether its tab still lives. Nothing leaves this browser.
 */

const NAME = 'baliseplan';
const SESSIONS = 'sessions';
const BASES = 'bases';

/**
 * @typedef {object} Kept
 * @property {string} id @property {string} baseName @property {string} journalName @property {number} when
 * @property {string} journal @property {string} savedJournal @property {any[]} reviews @property {number} edits
 * @property {number} [madeFrom] the serial from which edits were made here
 * @property {string} draft commands that were typed and not run
 * @property {boolean} downloaded whether the journal was last saved by a download
 */

/** @returns {Promise<IDBDatabase>} */
function database() {
  return new Promise((resolve, reject) => {
    const request = indexedDB.open(NAME, 1);
    request.onupgradeneeded = () => {
      request.result.createObjectStore(SESSIONS, { keyPath: 'id' });
      request.result.createObjectStore(BASES);
    };
    request.onsuccess = () => resolve(request.result);
    request.onerror = () => reject(request.error);
  });
}

/**
 * @template T @param {IDBTransactionMode} mode
 * @param {(store: (name: string) => IDBObjectStore) => IDBRequest<T> | void} work @returns {Promise<T | undefined>}
 */
async function transact(mode, work) {
  const db = await database();
  try {
    return await new Promise((resolve, reject) => {
      const transaction = db.transaction([SESSIONS, BASES], mode);
      const request = work((name) => transaction.objectStore(name));
      transaction.oncomplete = () => resolve(request ? request.result : undefined);
      transaction.onerror = () => reject(transaction.error);
      transaction.onabort = () => reject(transaction.error);
    });
  } finally {
    db.close();
  }
}

/** @param {Kept} kept */
export const keepSession = (kept) => transact('readwrite', (store) => store(SESSIONS).put(kept));
/**
 * Keeps a base plan: once, when it is opened.
 * @param {string} id @param {Uint8Array} bytes
 */
export const keepBase = (id, bytes) => transact('readwrite', (store) => store(BASES).put(bytes, id));
/** @param {string} id @returns {Promise<Uint8Array | undefined>} */
export const keptBase = (id) => transact('readonly', (store) => store(BASES).get(id));
/** @param {string} id */
export const forget = (id) => transact('readwrite',
  (store) => { store(SESSIONS).delete(id); store(BASES).delete(id); });
/** @returns {Promise<Kept[]>} */
const all = async () => (await transact('readonly', (store) => store(SESSIONS).getAll())) ?? [];

/** @param {string} id */
const lockOf = (id) => `baliseplan ${id}`;

/**
 * Holds the lock of a session until the tab is closed or `release` is called.
 * @param {string} id @returns {() => void}
 */
export function holdLock(id) {
  let release = () => {};
  const held = new Promise((resolve) => { release = () => resolve(undefined); });
  navigator.locks?.request(lockOf(id), () => held).catch(() => {});
  return () => release();
}

/** A page isn't told how a download ended, so what was saved by one stays for a week. */
const WEEK = 7 * 24 * 3600 * 1000;

/** @param {Kept} kept */
export const isUnsaved = ({ journal, savedJournal, draft }) => journal !== savedJournal || draft.trim() !== '';
/** @param {Kept} kept */
const isWanted = (kept) => isUnsaved(kept) || (kept.downloaded && kept.edits > 0 && Date.now() - kept.when < WEEK);

/** Sessions that a crash or a closed tab left, the last one first. Those that are safe in a file are forgotten. */
export async function leftBehind() {
  const held = new Set(((await navigator.locks?.query())?.held ?? []).map(({ name }) => name));
  const mine = (await all()).filter(({ id }) => !held.has(lockOf(id)));
  for (const kept of mine) if (!isWanted(kept)) await forget(kept.id);
  return mine.filter(isWanted).sort((a, b) => b.when - a.when);
}
