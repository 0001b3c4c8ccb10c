// The texts of the page: node languages.mjs WEB PAGE
// WEB is the folder web, PAGE one with its modules beside one another. The status is 1 if something
// is told. Each language has the same entries with the same parameters as English, each text says
// all that it is given, each entry is used, and no other module has a text of its own.
import { readFileSync, readdirSync } from 'node:fs';
import { join, relative, resolve } from 'node:path';
import { pathToFileURL } from 'node:url';
import { LITERAL, literalsOf } from './literals.mjs';

const [web, page] = process.argv.slice(2);
const module = (name) => import(`${pathToFileURL(resolve(page)).href}/${name}`);
const { LANGUAGES } = await module('language.js');
const tableOf = async (language) => (await module(`${language}.js`))[language.toUpperCase()];
const EN = await tableOf('en');
const others = Object.keys(LANGUAGES).filter((one) => one !== 'en');
const TABLES = Object.fromEntries(await Promise.all(
  others.map(async (one) => [one, await tableOf(one)])));
const told = [];

const kindOf = (value) => (Array.isArray(value) ? 'list' : typeof value);
const parametersOf = (value) => /^\(([^)]*)\)|^(\w+) =>/.exec(value.toString())?.slice(1).join('');

// The entries of a table by their paths, as texts and functions.
function entriesOf(table, path = '') {
  return Object.entries(table).flatMap(([name, value]) => (kindOf(value) === 'object'
    ? entriesOf(value, `${path}${name}.`) : [[`${path}${name}`, value]]));
}

// Same names, kinds and parameters.
function compare(language, table) {
  const [wanted, found] = [EN, table].map((one) => new Map(entriesOf(one)));
  for (const [path, value] of wanted) {
    const other = found.get(path);
    if (other === undefined) told.push(`${language} lacks ${path}`);
    else if (kindOf(other) !== kindOf(value)) told.push(`${language}: ${path} is of another kind`);
    else if (kindOf(value) === 'function' && parametersOf(value) !== parametersOf(other)) {
      told.push(`${language}: ${path} has (${parametersOf(other)}), not (${parametersOf(value)})`);
    } else if (other === '') told.push(`${language}: ${path} says nothing`);
  }
  for (const path of found.keys()) {
    if (!wanted.has(path)) told.push(`${language} alone has ${path}`);
  }
}

// What a parameter may be, by its name: one value after the other. Names are words that no language
// has, so that it is seen whether they are said.
const counts = [1, 2, 7, 1000];
const kinds = ['folder', 'document'];
const levels = ['read', 'change', 'remove', 'manage'];
const removals = [[], ['it'], ['inside', 'own']];
const names = [['Xaq'], ['Xaq', 'Yoz'], ['Xaq', 'Yoz', 'Wuk']];
const truths = [true, false];
const SAMPLES = {
  done: counts, whole: counts, looked: counts, known: counts, many: counts,
  rest: counts, good: counts, bad: counts, ended: counts, count: counts, objects: counts,
  places: names, names, callers: names, groups: names, first: names, rights: names,
  depends: names, bytes: [1048576],
  documentsIn: [0, 1, 3], foldersIn: [1, 4], kind: kinds, level: levels, from: levels, to: levels,
  gained: removals, lost: removals, removals, isNew: truths, isFolder: truths, isInherited: truths,
  letters: ['r', 'rwdC'], letter: ['C', 'c'], type: ['A', 'D', 'U', 'L'], line: [3], number: [3],
  entryNumber: [3], status: [418], time: [new Date(0)], timeZone: ['UTC'], day: ['Dyx', null],
};
// The same name has another meaning there.
const OTHERS = {
  'names.countedMembers members': counts, 'names.unfolded members': counts,
  'picker.groupOf members': counts, 'access.thenCan members': [[], ...names],
  'access.thenCan many': [...counts, null], 'access.nowCan many': [...counts, null],
  'access.nowCan members': [[], ...names], 'outcome.keepsMore places': counts,
  'outcome.changesMore places': counts, 'outcome.apart places': counts,
  'person.theirsThere words': ['Wox'], 'outcome.withMore words': ['Wox'],
  'access.goes from': ['Fex'], 'access.goes to': ['Tox'], 'lists.and words': names,
  'warnings.noPassage place': ['Pqx', null],
  'warnings.noPassageForAll place': ['Pqx', null], 'warnings.passageUnread place': ['Pqx', null],
  'warnings.passageDepends place': ['Pqx', null], 'advanced.byLine place': ['Pqx', null],
  'advanced.allowedBy place': ['Pqx', null], 'advanced.deniedBy place': ['Pqx', null],
};
// The last day of an access is always one there, but for a new access.
const hasNoEnd = (path) => path === 'access.thenCan' || path === 'access.nowCan';

function samplesOf(path, parameter) {
  const name = parameter.split(' ')[0];
  const values = OTHERS[`${path} ${name}`] ?? SAMPLES[name]
    ?? [`${name[0].toUpperCase()}${name.slice(1, 3)}qx`];
  return name === 'day' && !hasNoEnd(path) ? values.filter((one) => one !== null) : values;
}

const combined = (lists) => lists.reduce(
  (all, list) => all.flatMap((before) => list.map((one) => [...before, one])), [[]]);
const NAMES = /Xaq|Yoz|Wuk|\b[A-Z][a-z]{1,2}qx\b|Dyx|Fex|Tox|Wox/g;
const textOf = (value) => (Array.isArray(value) ? value.join('') : String(value));
const namesIn = (text) => [...new Set(text.match(NAMES) ?? [])].sort().join(' ');

// Every function with what it may be given: it says the same names in each language.
function say(path, value) {
  const parameters = parametersOf(value).split(', ').filter(Boolean);
  for (const given of combined(parameters.map((one) => samplesOf(path, one)))) {
    const texts = Object.entries({ en: EN, ...TABLES }).map(([language, table]) => [language,
      path.split('.').reduce((at, name) => at?.[name], table)]);
    const english = textOf(value(...given));
    for (const [language, other] of texts) {
      const text = typeof other === 'function' ? textOf(other(...given)) : english;
      if (/undefined|NaN|null|\[object|  |\.\.$|, [,.]/.test(text)) {
        told.push(`${language}: ${path} says “${text}”`);
      }
      if (namesIn(text) !== namesIn(english)) {
        told.push(`${language}: ${path} says “${text}”, and English “${english}”`);
      }
    }
  }
}

function isUntranslated(text, english) {
  return text === english && / /.test(text) && /[a-z]{3}/i.test(text)
    // How an entry is written is the same everywhere.
    && text !== EN.advanced.parts;
}

for (const [language, table] of Object.entries(TABLES)) {
  compare(language, table);
  const found = new Map(entriesOf(table));
  for (const [path, value] of entriesOf(EN)) {
    if (typeof value === 'string' && isUntranslated(found.get(path), value)) {
      told.push(`${language}: ${path} is English: “${value}”`);
    }
  }
}
if (others.length < 2) told.push(`the languages are ${Object.keys(LANGUAGES).join()}`);
for (const [path, value] of entriesOf(EN)) if (typeof value === 'function') say(path, value);

// What is too long is called what it is.
const { sentenceOf } = await module('words.js');
for (const [word, wanted] of [['doc', /^This has more than 1,048,576 bytes/],
  ['dacl', /^The access list is too long\./],
  ['sacl', /^The list of what is recorded is too long\./]]) {
  const said = sentenceOf({ status: 413, body: null, asked: { method: 'PUT', word, path: '/' } });
  if (!wanted.test(said)) told.push(`of ${word} with 413 it is said “${said}”`);
}

// What the other modules say, and which entries they use.
const files = readdirSync(web, { recursive: true, withFileTypes: true })
  .filter((one) => one.name.endsWith('.js')).map((one) => join(one.path, one.name))
  .filter((file) => !relative(web, file).startsWith('language/'));
const sources = files.map((file) => [relative(web, file), readFileSync(file, 'utf8')]);
const all = sources.map(([, source]) => source).join('\n');
for (const [subject, entries] of Object.entries(EN)) {
  for (const name of Object.keys(entries)) {
    if (!new RegExp(`\\btexts\\s*\\.${subject}\\s*\\.${name}\\b`).test(all)) {
      told.push(`nobody uses texts.${subject}.${name}`);
    }
  }
}
for (const found of all.matchAll(/\btexts\.(\w+)\.(\w+)/g)) {
  if (!Object.hasOwn(EN[found[1]] ?? {}, found[2])) told.push(`there is no ${found[0]}`);
}
let looked = 0;
for (const [file, source] of sources) {
  for (const { text, line, before } of literalsOf(source)) {
    looked += 1;
    if (LITERAL.isText(text, before)) told.push(`web/${file}:${line} says “${text}” itself`);
  }
}
// Whether the search sees what it is for.
for (const [source, wanted] of LITERAL.EXAMPLES) {
  const found = literalsOf(source).filter(({ text, before }) => LITERAL.isText(text, before));
  if (found.length !== wanted) told.push(`the search finds ${found.length} texts in ${source}`);
}
if (looked < 1000) told.push(`only ${looked} literals were looked at`);

for (const one of told.slice(0, 40)) console.log(one);
console.log(`${told.length} told`);
process.exitCode = told.length === 0 ? 0 : 1;
