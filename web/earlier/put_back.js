// What was there on an earlier night comes back, or is downloaded. It is sent to today's room by
// whoever does that, so today's rights decide, and it is theirs.

import * as api from '../net/api.js';
import { bringClosed, giveLists } from './closed.js';
import { mayClose, opensBy } from './readers_then.js';
import { allThen, missingAbove } from './then.js';
import { opensWords, whoReads } from './who_reads.js';
import { documentThen, zipThen } from '../net/nights.js';
import { inTurn } from '../folder/batch.js';
import { save, saveWhole } from '../folder/download.js';
import { askingInTurn } from '../folder/replacing.js';
import { putSafely, tagNow } from '../folder/safe_put.js';
import { element } from '../ui/dom.js';
import { question, tell, tellFault, waitFor } from '../ui/messages.js';
import { stoppable } from '../ui/panel.js';
import { asWork } from '../ui/working.js';
import { texts } from '../language/language.js';
import { nightFault, timeOf } from '../text/night_words.js';
import { isolated, placeWords } from '../text/words.js';
import { noAnswerWords } from '../text/would_words.js';

export function tellNightFault(fault) {
  const said = fault.asked?.word === 'would' ? noAnswerWords(fault) : nightFault(fault);
  if (said === null) tellFault(fault);
  else tell('bad', said);
}

const nameShown = (path) => (path === '/' ? texts.places.all : isolated(api.nameOf(path)));

function tellUnseen(unseen) {
  if (unseen.length > 0) tell('bad', texts.earlier.leftOut(unseen.map(placeWords)));
}

export async function get({ night }, { path, kind }) {
  if (kind === 'document') save(await waitFor(documentThen(night, path)), api.nameOf(path));
  else {
    await saveWhole(`${path === '/' ? texts.folder.zip : api.nameOf(path)} ${night}.zip`,
      (signal) => zipThen(night, path, signal));
  }
}

// 'isAsked' says that whoever may read it is asked for beside this.
const putBackWords = (missing, there, night, isAsked) => [texts.earlier.asOf(timeOf(night)),
  ...missing > 0 ? [texts.earlier.missing(missing)] : [],
  ...missing > 0 && !isAsked ? [texts.earlier.following] : [],
  ...there > 0 ? [texts.earlier.there(there)] : []].join(' ');

// What is there when somebody is asked whether it is to be replaced.
async function seeThere(there, show, isStopped) {
  for (const [index, one] of there.entries()) {
    if (isStopped()) return;
    show(index, there.length);
    one.seen = await tagNow(one.path);
  }
}

// What comes back and isn't in something else that does.
function topsOf(objects) {
  const paths = new Set(objects.map(({ path }) => path));
  return objects.filter(({ path }) => !paths.has(api.parentOf(path)));
}

// Who could read more than that night, and whether that can be kept from them: {opens, readers}, or
// null if somebody stopped the look.
async function looked({ night }, missing, documents) {
  const panel = stoppable(texts.earlier.putBack, missing.length + documents.length);
  const tops = topsOf(missing);
  const look = Promise.all([opensBy(night, missing, panel.show, panel.isStopped),
    seeThere(documents, panel.show, panel.isStopped)]);
  const [opens] = await waitFor(look).finally(panel.remove);
  if (panel.isStopped()) return null;
  const isOpen = opens.gained.length + opens.perhaps.length + opens.unknown > 0;
  const isOffered = isOpen
    && await waitFor(mayClose(tops.map(({ path }) => api.parentOf(path))));
  return { opens, isOpen, readers: await waitFor(whoReads(opens.all, isOffered)) };
}

const warningsOf = (warned) => (warned.length === 0 ? null : element('ul',
  { class: 'warnings', 'aria-label': texts.acts.mindThis },
  warned.map((text) => element('li', { class: 'bad' }, text))));

// What is chosen of it: {what: 'missing' or 'all', who: 'alone', 'then' or 'now'}, or null.
async function asked(night, object, all, isMissingAlone) {
  const missing = all.filter(({ isThere }) => !isThere);
  const documents = all.filter(({ isThere, kind }) =>
    !isMissingAlone && isThere && kind === 'document');
  const there = documents.length;
  if (missing.length === 0 && there === 0) {
    tell('good', texts.earlier.nothingMissing);
    return null;
  }
  const found = await looked(night, missing, documents);
  if (found === null) return null;
  const { opens, isOpen, readers } = found;
  const look = isOpen && readers.box === null ? 'danger' : 'primary';
  const answers = there === 0 ? [['missing', texts.earlier.putBack, look]] : [
    ...missing.length === 0 ? [] : [['missing', texts.earlier.onlyMissing, look]],
    ['all', all.length === 1 ? texts.earlier.replace : texts.earlier.allOfIt, 'danger']];
  const { sure, perhaps } = opensWords(opens);
  const more = element('div', {}, warningsOf(sure), perhaps.length === 0 ? null
    : element('details', {}, element('summary', {}, texts.would.perhaps), warningsOf(perhaps)),
  readers.box);
  const title = isMissingAlone ? texts.earlier.putBackMissing
    : texts.earlier.question(nameShown(object.path));
  const what = await question(title,
    putBackWords(missing.length, there, night, readers.box !== null), answers, more);
  return what === null ? null : { what, who: readers.chosen() };
}

// As an upload: what somebody made or changed since the question isn't replaced without another
// one. Returns whether it is back.
async function bringBack(night, { path, kind, isThere, seen }, ask) {
  if (kind === 'document') {
    const job = { name: api.nameOf(path), path, seen, file: await documentThen(night, path) };
    return await putSafely(job, isThere, ask) !== null;
  }
  await api.makeFolder(path).catch((fault) => {
    if (fault.body?.why !== 'exists') throw fault;
  });
  return true;
}

// Brings back what was chosen, open as its folder is or closed: the turn, with how many were left
// as they are.
async function bringAll(night, object, chosen, who) {
  const ask = askingInTurn(chosen.length);
  const [me, tops] = [await api.whoAmI(), new Set(topsOf(chosen.filter(({ isThere }) => !isThere))
    .map(({ path }) => path))];
  const isTop = (path) => tops.has(path);
  let kept = 0;
  const turn = await inTurn(chosen, async (one) => {
    if (who === 'now' || one.isThere) kept += await bringBack(night.night, one, ask) ? 0 : 1;
    else await bringClosed(night.night, one, isTop(one.path), me);
  }, { title: texts.earlier.putting(nameShown(object.path)), told: texts.earlier.putSomeOf },
  who !== 'now');
  const isWhole = turn.failed.length + turn.left.length === 0;
  const shut = who === 'then' && isWhole ? await waitFor(asWork(giveLists(night.night,
    chosen.filter(({ isThere }) => !isThere), isTop, me))) : [];
  if (shut.length > 0) tell('bad', texts.earlier.staysShut(shut.map(placeWords)));
  return { ...turn, kept };
}

// The folder into which it came: that of what came back, if it is one.
function placeOf(chosen, { path }) {
  const folders = new Set(topsOf(chosen).map((one) => api.parentOf(one.path)));
  return placeWords(folders.size === 1 ? [...folders][0] : path);
}

// Puts back an object, and all that was below it, or of that what 'isMissingAlone' now. Returns
// whether anything changed.
export async function putBack(night, object, isMissingAlone = false) {
  const unseen = [];
  const [above, below] = await waitFor(Promise.all([
    missingAbove(object.path), allThen(night.night, object, unseen)]));
  const all = [...above, ...below];
  const answer = await asked(night, object, all, isMissingAlone);
  if (answer === null) return false;
  const chosen = all.filter(({ isThere, kind }) =>
    !isThere || (answer.what === 'all' && kind === 'document'));
  const { failed, left, stopped, kept, ...turn } =
    await bringAll(night, object, chosen, answer.who);
  const done = turn.done - kept;
  if (done > 0) tell('good', texts.earlier.isBack(done, placeOf(chosen, object)));
  if (failed.length > 0) tellNightFault(failed[0].fault);
  const lacking = failed.length + left.length + kept;
  const isTold = stopped || kept > 0 || lacking > 1;
  if (lacking > 0 && isTold) tell('bad', texts.earlier.notBack(lacking));
  tellUnseen(unseen);
  return done > 0;
}

// The buttons of an object of then.
export function actsOf(night, object, name, redraw) {
  const act = (word, label, title, does) => element('button', {
    type: 'button', class: 'small', 'aria-label': title, 'data-act': word,
    onclick: () => does().catch(tellNightFault),
  }, label);
  return [
    act('get', texts.earlier.get, texts.earlier.getOf(name), () => get(night, object)),
    act('back', texts.earlier.putBack, texts.earlier.putBackOf(name), async () => {
      if (await putBack(night, object)) redraw(object.path);
    })];
}
