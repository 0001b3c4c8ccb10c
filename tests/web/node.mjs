// Plays a script of tests that was made for a browser: node node.mjs SCRIPT PAGE LISTS COUNT
// The model of a room stands before it.
// PAGE is a folder with the modules of web, LISTS is docs/lists.md. The status is 1 if
// something is told.
import { mkdtempSync, readFileSync, rmSync, writeFileSync } from 'node:fs';
import { tmpdir } from 'node:os';
import { join, resolve } from 'node:path';
import { pathToFileURL } from 'node:url';

const [script, page, lists, count] = process.argv.slice(2);
const folder = mkdtempSync(join(tmpdir(), 'script-'));
const file = join(folder, 'script.mjs');
const model = readFileSync(new URL('model.mjs', import.meta.url), 'utf8').replace(/^export /gm, '');
writeFileSync(file, `export function run() {\n${model}\n${readFileSync(script, 'utf8')}\n}\n`);
const { run } = await import(pathToFileURL(file));
rmSync(folder, { recursive: true });
const given = { lists: readFileSync(lists, 'utf8'), count: Number(count) };
run(given, pathToFileURL(resolve(page)).href, (told) => {
  for (const one of told.slice(0, 6)) console.log(one);
  console.log(`${told.length} told`);
  process.exitCode = told.length === 0 ? 0 : 1;
});
