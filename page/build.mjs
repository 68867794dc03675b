#!/usr/bin/env node
// @ts-check
/**
 * Builds the page: one file with page, worker and engine. It needs Node and nothing else.
 * usage: node page/build.mjs [--engine FILE] [--source FOLDER] [OUT]
 * Without --engine the engine is that of the page that is stored.
 */
import { createHash } from 'node:crypto';
import fs from 'node:fs';
import path from 'node:path';
import { pathToFileURL } from 'node:url';
import { gunzipSync, gzipSync } from 'node:zlib';

const HERE = path.dirname(new URL(import.meta.url).pathname);
const STORED = path.join(HERE, 'baliseplan.html');

/**
 * The engine that a built page holds, packed.
 * @param {string} page its text
 */
function packedIn(page) {
  const found = /id="engine-gzip">([A-Za-z0-9+/=]+)</.exec(page);
  if (!found) throw new Error('the page holds no engine');
  return found[1];
}

/**
 * The engine that a built page holds.
 * @param {string} page its text
 */
export const engineOf = (page) => gunzipSync(Buffer.from(packedIn(page), 'base64'));

/**
 * The engine as the page holds it. One that the stored page has is taken from there: other versions of Node pack it into
 * other bytes.
 * @param {Uint8Array} engine
 */
function packed(engine) {
  const stored = fs.existsSync(STORED) ? fs.readFileSync(STORED, 'utf8') : '';
  if (stored && engineOf(stored).equals(engine)) return packedIn(stored);
  return gzipSync(engine, { level: 9 }).toString('base64');
}

/** A module in the page: its own function scope, which returns what it exports. */
class Bundle {
  /** @param {string} source the folder of the modules */
  constructor(source) {
    this.source = source;
    /** @type {string[]} */ this.parts = [];
    /** @type {Map<string, 'open'|'done'>} */ this.seen = new Map();
  }

  /** @param {string} file */
  name(file) {
    return '$' + path.relative(this.source, file).replace(/\W/g, '_');
  }

  /**
   * Adds a module after all that it imports.
   * @param {string} file
   */
  add(file) {
    if (this.seen.get(file) === 'open') throw new Error('modules import each other in a ring: ' + file);
    if (this.seen.has(file)) return;
    this.seen.set(file, 'open');
    if (file === path.join(this.source, 'core/data.mjs')) this.parts.push(`const ${this.name(file)} = {DATA: ${dataText()}};`);
    else this.#addText(file);
    this.seen.set(file, 'done');
  }

  /** @param {string} file */
  #addText(file) {
    /** @type {string[]} */
    const names = [];
    const text = fs.readFileSync(file, 'utf8')
      .replace(/^import \{([^}]+)\} from '(\.[^']+)';$/gm, (/** @type {string} */ _, /** @type {string} */ list,
        /** @type {string} */ from) => {
        const other = path.resolve(path.dirname(file), from);
        this.add(other);
        return `const {${list.replaceAll(' as ', ': ')}} = ${this.name(other)};`;
      })
      .replace(/^export (async function|function|class|const) (\w+)/gm,
        (/** @type {string} */ _, /** @type {string} */ kind, /** @type {string} */ name) => (names.push(name), `${kind} ${name}`));
    const left = /^(import|export)\b.*$/m.exec(text);
    if (left) throw new Error(`${file}: the build doesn’t know: ${left[0]}`);
    this.parts.push(`const ${this.name(file)} = (() => {\n${text}\nreturn {${names.join(', ')}};\n})();`);
  }
}

/**
 * One classic script of a module and all that it imports.
 * @param {string} source @param {string} entry
 */
function script(source, entry) {
  const bundle = new Bundle(source);
  bundle.add(path.join(source, entry));
  return `'use strict';\n${bundle.parts.join('\n')}\n`;
}

const dataText = () => JSON.stringify(JSON.parse(fs.readFileSync(path.join(HERE, '../data/variables.json'), 'utf8')));

/** The version of the program, of the stored text of its help. */
function version() {
  const help = fs.readFileSync(path.join(HERE, '../crates/baliseplan_help/stdout'), 'utf8');
  return /^baliseplan (\d+\.\d+\.\d+):/.exec(help)?.[1] ?? '';
}

/** @param {string} text */
const hash = (text) => `'sha256-${createHash('sha256').update(text).digest('base64')}'`;

/**
 * What the browser lets the page do: run these two scripts and the engine, and nothing else. It may fetch, send, frame
 * and load nothing. The worker comes from a blob of the page and is held to the same.
 * @param {string} main @param {string} style
 */
const policy = (main, style) => [
  `default-src 'none'`, `script-src ${hash(main)} 'wasm-unsafe-eval'`, `worker-src blob:`, `style-src ${hash(style)}`,
  `connect-src 'none'`, `img-src 'none'`, `form-action 'none'`, `base-uri 'none'`,
].join('; ');

/**
 * The text of the page.
 * @param {Uint8Array} engine @param {string} [source] the folder of the modules
 */
export function pageText(engine, source = path.join(HERE, 'src')) {
  const main = script(source, 'ui/main.mjs');
  const worker = script(source, 'worker/worker.mjs');
  const style = fs.readFileSync(path.join(source, 'ui/style.css'), 'utf8');
  const example = fs.readFileSync(path.join(HERE, '../examples/line.base'), 'utf8');
  for (const text of [main, worker, example]) if (/<\/script/i.test(text)) throw new Error('a script holds its own end tag');
  /** @type {Record<string, string>} */
  const parts = {
    POLICY: policy(main, style), STYLE: style, SCRIPT: main, WORKER: worker, EXAMPLE: example, VERSION: version(),
    ENGINE: packed(engine), ENGINE_SHA256: createHash('sha256').update(engine).digest('hex'),
  };
  return fs.readFileSync(path.join(source, 'ui/page.html'), 'utf8').replace(/\{\{(\w+)\}\}/g,
    (/** @type {string} */ _, /** @type {string} */ name) => parts[name]);
}

function main() {
  const words = process.argv.slice(2);
  /** @param {string} name */
  const option = (name) => (words.includes(name) ? words.splice(words.indexOf(name), 2)[1] : undefined);
  const file = option('--engine');
  const source = option('--source');
  const out = words[0] ?? STORED;
  const engine = file ? fs.readFileSync(file) : engineOf(fs.readFileSync(STORED, 'utf8'));
  const text = pageText(engine, source && path.resolve(source));
  fs.mkdirSync(path.dirname(out), { recursive: true });
  fs.writeFileSync(out + '.new', text);
  fs.renameSync(out + '.new', out);
  console.log(`${out}: ${Buffer.byteLength(text)} bytes, engine ${createHash('sha256').update(engine).digest('hex')}`);
}

if (process.argv[1] && import.meta.url === pathToFileURL(process.argv[1]).href) main();
