// @ts-check
/**
 * What happened to a file on its way: a byte-order mark, line ends of another system, blanks, a cut. It is named, and
 * taken away only where a person says so. No digit is ever changed.
 */

/**
 * @typedef {object} Damage
 * @property {'empty'|'utf16'|'mark'|'returns'|'blanks'|'cut'|'nul'} kind
 * @property {string} text in words
 * @property {boolean} cleanable whether `clean` takes it away
 */

/** @param {Uint8Array} bytes */
const hasMark = (bytes) => bytes[0] === 0xef && bytes[1] === 0xbb && bytes[2] === 0xbf;

/**
 * How many lines end in a byte, and the first one that does.
 * @param {Uint8Array} bytes @param {(byte: number) => boolean} is
 */
function linesEndingIn(bytes, is) {
  let [count, first, line] = [0, 0, 0];
  for (let at = bytes.indexOf(10); ; at = bytes.indexOf(10, at + 1)) {
    const end = at < 0 ? bytes.length : at;
    line += 1;
    if (end > 0 && is(bytes[end - 1])) {
      count += 1;
      first ||= line;
    }
    if (at < 0) return { count, first };
  }
}

/** @param {number} count @param {number} first */
const lines = (count, first) => (count === 1 ? `line ${first}` : `${count} lines, the first is line ${first}`);

/** @param {Uint8Array} bytes @returns {Damage[]} */
export function damageOf(bytes) {
  if (bytes.length === 0) return [{ kind: 'empty', text: 'The file is empty.', cleanable: false }];
  if (bytes[0] === 0xff || bytes[0] === 0xfe || bytes[1] === 0)
    return [{ kind: 'utf16', text: 'It is UTF-16 text, two bytes a letter. It has to be plain text.', cleanable: false }];
  /** @type {Damage[]} */
  const found = [];
  if (hasMark(bytes)) found.push({
    kind: 'mark', text: 'A byte-order mark (EF BB BF) stands before the first line.', cleanable: true,
  });
  if (bytes.includes(0)) found.push({ kind: 'nul', text: 'It has bytes that are no text (NUL).', cleanable: false });
  const returns = linesEndingIn(bytes, (byte) => byte === 13);
  if (returns.count > 0)
    found.push({
      kind: 'returns',
      text: `Lines end in a carriage return (CRLF), as on Windows: ${lines(returns.count, returns.first)}.`,
      cleanable: true,
    });
  const blanks = linesEndingIn(bytes, (byte) => byte === 32 || byte === 9);
  if (blanks.count > 0)
    found.push({
      kind: 'blanks', text: `Blanks stand at the end of ${lines(blanks.count, blanks.first)}.`, cleanable: true,
    });
  if (bytes[bytes.length - 1] !== 10)
    found.push({ kind: 'cut', text: 'The last line has no line feed: the file may be cut off.', cleanable: false });
  return found;
}

/** @param {number} byte */
const isBlank = (byte) => byte === 13 || byte === 32 || byte === 9;

/**
 * The bytes without byte-order mark and without blanks and carriage returns at the ends of lines.
 * @param {Uint8Array} bytes
 */
export function clean(bytes) {
  const kept = new Uint8Array(bytes.length);
  let length = 0;
  const trim = () => { while (length > 0 && isBlank(kept[length - 1])) length -= 1; };
  for (let at = hasMark(bytes) ? 3 : 0; at < bytes.length; at += 1) {
    if (bytes[at] === 10) trim();
    kept[length] = bytes[at];
    length += 1;
  }
  trim();
  return kept.slice(0, length);
}
