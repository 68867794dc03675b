// @ts-check
/** Files in and out: in place where the browser can, else by a picker and downloads. */

/** @typedef {{name: string, bytes: Uint8Array, handle: any}} Opened */

const api = /** @type {any} */ (globalThis);

/** @param {File} file @param {any} [handle] @returns {Promise<Opened>} */
export async function readFile(file, handle = null) {
  return { name: file.name, bytes: new Uint8Array(await file.arrayBuffer()), handle };
}

/** @param {any} error */
const isCancel = (error) => error?.name === 'AbortError';

/**
 * Files that a person picks; none where the picker was closed.
 * @returns {Promise<Opened[]>}
 */
export async function pickFiles() {
  if (!api.showOpenFilePicker) return pickByInput();
  try {
    const handles = await api.showOpenFilePicker({ multiple: true });
    return await Promise.all(handles.map(async (/** @type {any} */ handle) => readFile(await handle.getFile(), handle)));
  } catch (error) {
    if (isCancel(error)) return [];
    return pickByInput();
  }
}

/** @returns {Promise<Opened[]>} */
function pickByInput() {
  return new Promise((resolve) => {
    const input = document.createElement('input');
    input.type = 'file';
    input.multiple = true;
    input.onchange = async () => resolve(await Promise.all([...(input.files ?? [])].map((file) => readFile(file))));
    input.addEventListener('cancel', () => resolve([]));
    input.click();
  });
}

/**
 * Files that were dropped. Call it at once: the items are gone after the event.
 * @param {DataTransfer} transfer @returns {Promise<Opened[]>}
 */
export function droppedFiles(transfer) {
  const items = [...transfer.items].filter((item) => item.kind === 'file');
  return Promise.all(items.map(async (item) => {
    const file = /** @type {File} */ (item.getAsFile());
    const asked = /** @type {any} */ (item).getAsFileSystemHandle?.();
    const handle = await Promise.resolve(asked ?? null).catch(() => null);
    return readFile(file, handle?.kind === 'file' ? handle : null);
  }));
}

/**
 * Writes a text in place, to a file that is picked, or as a download. In place the browser writes a new file and puts it
 * where the old one was when all is written, so a full disk leaves the old one.
 * @param {string} text @param {string} name @param {any} handle of a file saved before, or null
 * @param {any} [never] handle of a file that must not be written: the base plan
 * @returns {Promise<{how: 'place'|'download', handle: any, name: string} | null>} null where the person cancelled
 */
export async function saveText(text, name, handle, never = null) {
  if (!api.showSaveFilePicker) return download(text, name);
  try {
    const target = handle ?? (await api.showSaveFilePicker({ suggestedName: name }));
    if (never && (await target.isSameEntry?.(never))) throw new Error(`${target.name} is the base plan. It never changes: choose another name.`);
    await writeWhole(target, text);
    return { how: 'place', handle: target, name: target.name };
  } catch (error) {
    if (isCancel(error)) return null;
    const { name: kind } = /** @type {any} */ (error);
    if (kind !== 'SecurityError' && kind !== 'NotAllowedError') throw error;
    return download(text, name);
  }
}

/** @param {any} target @param {string} text */
async function writeWhole(target, text) {
  const stream = await target.createWritable();
  try {
    await stream.write(text);
    await stream.close();
  } catch (error) {
    await stream.abort?.().catch(() => {});
    throw error;
  }
}

/** @param {string} text @param {string} name */
function download(text, name) {
  const url = URL.createObjectURL(new Blob([text], { type: 'text/plain' }));
  const link = document.createElement('a');
  link.href = url;
  link.download = name;
  link.click();
  setTimeout(() => URL.revokeObjectURL(url), 60000);
  return { how: /** @type {const} */ ('download'), handle: null, name };
}
