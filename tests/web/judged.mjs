// Dialogs of the page over rooms at random, against what comes of what they send:
//
//   node judged.mjs PAGE PROGRAM FOLDER FROM TREES [SEED [BY-HAND [DIALOG ..]]]
//
// FOLDER has a room that is served with its door; its root lets root do all. TREES trees are made
// for each dialog, from number FROM on, of which a third is played by a user who can't look up
// members; of 100 lists BY-HAND are written by hand. 'rooms review' before and after says what
// everybody gains and loses, also outside of what changes: all of it has to be said, and nothing
// that isn't so. Where members can't be looked up, that holds whoever is in which groups, of up to
// three. A line says of each dialog in how many trees it was confirmed, and how many changes were
// unsaid, or said wrongly.
import { fork } from 'node:child_process';
import { cpSync } from 'node:fs';
import { resolve } from 'node:path';
import { pathToFileURL } from 'node:url';
import { DIALOGS as OF_LEVELS, ME, Play } from './playing.mjs';
import { returned, written } from './playing_lists.mjs';
import { dumped, faultsOf } from './questions.mjs';
import { Dump, Review } from './reviewed.mjs';
import { Served } from './served.mjs';
import { ALL, Chance, USERS, requestsFor } from './trees.mjs';
import { judge } from './verdict.mjs';
import { DIRECTORY, MEMBERS, REAL } from './worlds.mjs';

const [page, program, folder, from, count, seed = '1', byHand = '0', ...named] =
  process.argv.slice(2);
const served = new Served(program, resolve(folder));
const DIALOGS = { ...OF_LEVELS, written, returned };
// About one person, who has something at most places.
const OF_PERSONS = ['look', 'out', 'stand'];

// ---- a process that plays

async function playAll({ mode, turns }) {
  // Modules keep what they once heard of the directory.
  const copy = resolve(folder, `page-${process.pid}`);
  cpSync(page, copy, { recursive: true });
  globalThis.fetch = served.fetchFor(ME, DIRECTORY[mode]);
  globalThis.XMLHttpRequest = Served.uploading;
  const module = (name) => import(`${pathToFileURL(copy).href}/${name}`);
  for (const { dialog, top, tree, start } of turns) {
    const play = new Play(module, new Chance(start), served);
    try {
      process.send({ top, shown: await DIALOGS[dialog](play, tree) });
    } catch (fault) {
      process.send({ top, fault: String(fault?.stack ?? fault) });
    }
    play.clear();
  }
  process.exit();
}

const played = (mode, turns) => new Promise((done, fail) => {
  const found = new Map();
  const child = fork(process.argv[1], process.argv.slice(2),
    { env: { ...process.env, PLAYS: '1' } });
  child.on('message', (one) => found.set(one.top, one));
  child.on('exit', (status) => (status === 0 ? done(found) : fail(new Error(`status ${status}`))));
  child.send({ mode, turns });
});

// ---- all of it

// Other trees for each dialog.
const numberOf = (dialog) =>
  [...dialog].reduce((sum, one) => (sum * 31 + one.charCodeAt(0)) % 65536, 0);

// Trees of a mode are in two folders, of which one has a list that can be read.
const FOLDERS = { m: ['m', 'mu'], n: ['n', 'nu'] };
const LISTS = ['xtc', 'xt'].map((mask) => `list:a\nA::AUTHENTICATED@:${mask}\n`);
const folderOf = (mode, at) => FOLDERS[mode][at % 2];
// What everybody may do at the top of the room.
const AT_TOP = 'xc';

function grown(dialog, mode, at) {
  const start = Number(seed) * 1000003 + at * 7919 + numberOf(dialog) * 104729;
  const chance = new Chance(start % 2147483648, Number(byHand));
  for (let turn = 0; turn < 20; turn += 1) chance.random(2);
  if (OF_PERSONS.includes(dialog)) chance.person = chance.pick(USERS.slice(1));
  const top = `/${folderOf(mode, at)}/${dialog}${at}`;
  const tree = chance.tree(top);
  return { dialog, mode, top, tree: [...tree, ...tree.filter(({ kind }) => kind === 'folder')
    .map(({ path, group }) => ({ path: `${path}/other`, kind: 'document', owner: 'mallory', group,
      list: null }))], start: chance.seed };
}

// The reviews of each mode, by world.
const reviewed = (copy) => Object.fromEntries(Object.entries(MEMBERS).map(([mode, worlds]) =>
  [mode, new Map([...worlds].map(([key, groups]) =>
    [key, new Review(served.review(copy, groups, FOLDERS[mode]))]))]));

async function made(turns) {
  const folders = Object.values(FOLDERS).flatMap((both) => both.flatMap((name, at) => [
    ['POST', `/folder/${name}`], ['PUT', `/dacl/${name}`, LISTS[at]]]));
  const left = await served.send('root', [
    ['PUT', '/dacl/', `list:a\nA:fd:root:${ALL}\nA::AUTHENTICATED@:${AT_TOP}\n`], ...folders,
    ...turns.flatMap(({ tree }) => requestsFor(tree))]);
  if (left > 0) throw new Error(`${left} requests of root's weren't done`);
}

async function main() {
  const dialogs = named.length > 0 ? named : Object.keys(DIALOGS);
  const numbers = Array.from({ length: Number(count) }, (_, at) => Number(from) + at);
  const turns = dialogs.flatMap((dialog) => numbers.map((number) =>
    grown(dialog, number % 3 === 2 ? 'n' : 'm', number)));
  await made(turns);
  const copy = served.copied();
  const [dump, before] = [new Dump(served.dump(copy)), reviewed(copy)];
  const [m, n] = ['m', 'n'].map((mode) => turns.filter((one) => one.mode === mode));
  const half = (which) => m.filter((_, at) => at % 2 === which);
  const all = await Promise.all([played('m', half(0)), played('m', half(1)), played('n', n)]);
  const shown = new Map(all.flatMap((one) => [...one]));
  const then = served.copied();
  readKept([...shown.values()].flatMap((one) => one.shown?.kept ?? []), then);
  const after = reviewed(then);
  let faults = 0;
  console.log('dialog,trees,compared,changes,unsaid,wrong,questions,faults');
  for (const dialog of dialogs) faults += told(dialog, turns, shown, { before, after, dump });
  console.log(`${faults} faults`);
  process.exit(faults === 0 ? 0 : 1);
}

// What I may not read has the bytes that it has to have, if it has them in a copy of the room.
function readKept(kept, copy) {
  for (const one of kept.filter(({ isSame }) => isSame === null)) {
    one.isSame = served.run('get', copy, one.path) === one.wanted;
  }
}

// What is wrong with what was asked before it was sent. Before all was looked at, less was asked
// about.
function faultsAsked({ questions = [] }, rows, dump) {
  const rights = (path) => rows.get(path)?.get(ME)?.rights ?? AT_TOP;
  return questions.slice(-1).flatMap((one) => faultsOf(one, dump, rights));
}

const COLUMNS = ['asked', 'compared', 'differ', 'unsaid', 'wrong', 'questions', 'beside'];
function told(dialog, turns, shown, { before, after, dump }) {
  const sum = { asked: 0, questions: 0, beside: 0, compared: 0, differ: 0, unsaid: 0, wrong: 0,
    failed: 0 };
  for (const turn of turns.filter((one) => one.dialog === dialog)) {
    const { shown: said, fault } = shown.get(turn.top) ?? { fault: 'it broke off' };
    if (fault) {
      sum.failed += 1;
      tell(turn, fault);
    }
    if (!said) continue;
    sum.asked += 1;
    const rows = [before, after].map((all) => new Map([...all[turn.mode]].map(([world, review]) =>
      [world, review.rowsOf(turn.top)])));
    const found = judge(turn, said, rows);
    for (const key of ['compared', 'differ']) sum[key] += found[key];
    for (const key of ['unsaid', 'wrong']) sum[key] += found[key].length;
    const beside = faultsAsked(said, rows[0].get(REAL), dumped(dump.of(turn.top)));
    sum.questions += said.questions?.length ?? 0;
    sum.beside += beside.length;
    const faults = [...found.unsaid, ...found.wrong, ...beside];
    if (faults.length > 0) tell(turn, `${faults.slice(0, 3).join('\n')}\n${said.text}`);
  }
  console.log([dialog, ...COLUMNS.map((column) => sum[column])].join());
  return sum.unsaid + sum.wrong + sum.failed + sum.beside + (sum.asked * 3 < count ? 1 : 0);
}

let shownFaults = 0;
function tell({ tree, mode }, words) {
  shownFaults += 1;
  if (shownFaults > Number(process.env.MOST ?? 3)) return;
  console.log(`${words}\n  ${mode}: ${tree.filter(({ list }) => list !== null)
    .map(({ path, owner, list }) => `${path} ${owner} ${list.replaceAll('\n', ' ')}`)
    .join('\n  ')}`);
}

if (process.env.PLAYS) process.on('message', playAll);
else await main();
