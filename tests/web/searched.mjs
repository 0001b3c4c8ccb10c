// Texts as the page's filter compares them: node searched.mjs PAGE <TEXTS
// TEXTS is a list in JSON, and so is what is printed.
import { readFileSync } from 'node:fs';
import { resolve } from 'node:path';
import { pathToFileURL } from 'node:url';

const { folded } = await import(`${pathToFileURL(resolve(process.argv[2])).href}/sorting.js`);
const texts = JSON.parse(readFileSync(0, 'utf8'));
console.log(JSON.stringify(texts.map((text) => folded(text))));
