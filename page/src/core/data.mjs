// @ts-check
/** data/variables.json. In Node it is read; in the page the build puts the file's text here. */
import fs from 'node:fs';

export const DATA = JSON.parse(fs.readFileSync(new URL('../../../data/variables.json', import.meta.url), 'utf8'));
