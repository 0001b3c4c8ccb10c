// Plays by node, as playing.mjs does: a list written by hand, and what comes back of a night.
import { ME, dialogNow, firstOf, shownIn, until } from './playing.mjs';
import { plain } from './said.mjs';

const buttonsOf = (dialog) => dialog.querySelectorAll('.actions button');
const warningsOf = (dialog) =>
  dialog.querySelectorAll('.warnings li').map((li) => plain(li.textContent));

// The next dialog, or null where none comes before the end.
const nextOf = (going, last) => Promise.race([going.then(() => null, () => null),
  until(() => dialogNow() && dialogNow() !== last && dialogNow(), 'dialog')]);

export const written = (play, tree) => firstOf(play, tree, async ({ path, kind }) => {
  const [{ Draft }, { sendList }, api] = await Promise.all(['draft.js', 'send_list.js', 'api.js']
    .map((name) => play.module(name)));
  const may = await api.can(path, 'C').catch(() => null);
  const base = await api.readList('dacl', path).catch(() => null);
  if (base === null || may?.C.ruling !== 'allowed') return null;
  const draft = new Draft(path, 'dacl', kind, base);
  const sent = play.chance.listFor(kind, play.chance.is(70), ME);
  draft.setText(sent);
  const going = sendList(draft);
  const dialog = await nextOf(going, null);
  if (dialog === null) return null;
  const said = { ...shownIn(dialog, path, kind), questions: play.asked(), base, sent, loss: null,
    warnings: warningsOf(dialog), isByHand: true };
  buttonsOf(dialog).at(-1).click();
  const other = await nextOf(going, dialog);
  if (other !== null) {
    said.loss = plain(other.textContent);
    buttonsOf(other).at(-1).click();
  }
  return await going === 'sent' ? said : null;
});

const isIn = (path, folder) => path === folder || path.startsWith(`${folder}/`);

// Takes away what is in a place, and changes some documents instead: the paths that are there
// still, or null where that can't be done. Each comes before its folder.
async function takenAway({ chance, served }, those) {
  const kept = [];
  for (const { path, kind } of those) {
    const isKept = kind === 'document' ? chance.is(30) : kept.some((one) => isIn(one, path));
    if (isKept) kept.push(path);
    if (isKept && kind === 'folder') continue;
    const [method, target, body] = isKept ? ['PUT', `/doc${path}`, `${path} later`]
      : ['DELETE', `/object${path}`, ''];
    if ((await served.ask(ME, method, target, body)).status !== 204) return null;
  }
  return kept;
}

// What somebody takes away or changes, of which a night has all, and whose folder has another list
// then: {missing, kept, isAllSeen}, or null. 'isAllSeen' says that I can list all of its folders.
async function taken(play, { path }, tree) {
  const { chance, served } = play;
  const those = tree.filter((one) => isIn(one.path, path))
    .sort((one, other) => other.path.length - one.path.length);
  const folder = path.slice(0, path.lastIndexOf('/'));
  const up = [...folder.split('/')].map((_, at, all) => all.slice(0, at + 1).join('/') || '/');
  const readBy = ({ kind }) => (kind === 'folder' ? 'folder' : 'doc');
  await served.keepNight(ME, [...up.map((one) => `dacl${one}`), ...those.flatMap((one) => [
    `dacl${one.path}`, `${readBy(one)}${one.path}`])]);
  const there = await takenAway(play, those);
  if (there === null) return null;
  const list = chance.listFor('folder', true, ME).replace(/^list:.*\n/, (first) =>
    `${first}A:fd:${ME}:rwanNxDtThHdcCoy\n`);
  if (chance.is(70)) await served.ask(ME, 'PUT', `/dacl${folder}`, list);
  const listed = await Promise.all(those.filter(({ kind }) => kind === 'folder').flatMap((one) => [
    served.night.get(`folder${one.path}`),
    ...there.includes(one.path) ? [served.ask(ME, 'GET', `/folder${one.path}`)] : []]));
  return { missing: those.map((one) => one.path).filter((one) => !there.includes(one)),
    kept: those.filter((one) => one.kind === 'document' && there.includes(one.path)),
    isAllSeen: listed.every(({ status }) => status === 200) };
}

const dataOf = async ({ served }, where) => String((await served.ask(ME, 'GET', where)).body);

// The documents that are there still, as they are now, and as they have to be. What I may not read
// is looked at in the end: then 'isSame' is null.
const keptNow = ({ served }, kept, isReplaced) => Promise.all(kept.map(async ({ path, list }) => {
  const [is, now] = await Promise.all([`/doc${path}`, `/dacl${path}`]
    .map((where) => served.ask(ME, 'GET', where)));
  const then = served.night.get(`doc${path}`);
  const replaced = then.status === 200 ? String(then.body) : null;
  const wanted = isReplaced ? replaced : `${path} later`;
  return { path, wanted, isListSame: String(now.body) === list,
    isSame: is.status === 200 ? String(is.body) === wanted : null };
}));

// What is chosen of what a question offers: whether all is replaced, and who may read.
function chosenIn(play, dialog, ways) {
  const way = ways.length === 0 ? null : play.chance.pick(ways);
  for (const each of ways) each.checked = each === way;
  const press = play.chance.pick(buttonsOf(dialog).slice(1));
  return { press, who: way === null ? 'now' : way.value,
    isReplaced: /replace what is there/i.test(press.textContent) };
}

export const returned = (play, tree) => firstOf(play, tree.slice(1), async (one) => {
  const { path, kind } = one;
  if (path.endsWith('/other')) return null;
  const found = await taken(play, one, tree);
  // Then the tree isn't as it was.
  if (found === null) return undefined;
  const { missing, isAllSeen } = found;
  const kept = await Promise.all(found.kept.map(async (each) => (
    { ...each, list: await dataOf(play, `/dacl${each.path}`) })));
  const { putBack } = await play.module('put_back.js');
  const night = { night: '2026-11-29T020000Z', at: 1795917600 };
  const going = putBack(night, { path, kind, now: missing.includes(path) ? null : kind });
  const dialog = await nextOf(going, null);
  if (dialog === null) return undefined;
  const { press, who, isReplaced } = chosenIn(play, dialog,
    dialog.querySelectorAll('.whom input'));
  const said = { ...shownIn(dialog, path, kind), questions: [], warnings: warningsOf(dialog),
    who, missing, isAllSeen, isReturned: true,
    tops: missing.filter((each) => !missing.includes(each.slice(0, each.lastIndexOf('/')))) };
  press.click();
  const isDone = await going;
  play.asked();
  const { bad = [] } = await play.done(said);
  // What couldn't be done is told.
  return isDone && bad.length === 0
    ? { ...said, kept: await keptNow(play, kept, isReplaced) } : undefined;
});
