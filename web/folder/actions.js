// What can be done with the objects of a folder. Each act returns what then has the focus, {name},
// if something changed, and otherwise null.

import * as api from '../net/api.js';
import { element } from '../ui/dom.js';
import { downloadOne, downloadWhole } from './download.js';
import { inTurn } from './batch.js';
import { texts } from '../language/language.js';
import { linkTo } from '../ui/links.js';
import { accepted, askMove, askPlace } from './move.js';
import { readersWords } from './moved.js';
import { form, showDialog, tell, waitFor } from '../ui/messages.js';
import { openPdf, preview } from './preview.js';
import { isolated, nameFault, placeWords, sentenceOf } from '../text/words.js';
import { noAnswerWords } from '../text/would_words.js';

// Asks again, with what was typed, as long as something of that name is there already. Returns what
// was typed at last, or null.
async function untilFree(ask, does) {
  let [typed, wrong] = [undefined, null];
  for (;;) {
    typed = await ask(typed, wrong);
    if (!typed) return null;
    try {
      return await does(typed) ? typed : null;
    } catch (fault) {
      if (fault.body?.why !== 'exists') throw fault;
      wrong = texts.folder.taken;
    }
  }
}

export async function makeFolder(folder) {
  const ask = async (value, wrong) => (await form(texts.folder.newFolder,
    [{ label: texts.acts.name, value, fault: nameFault, wrong }], texts.folder.makeIt))?.[0];
  const name = await untilFree(ask, async (typed) => {
    await waitFor(api.makeFolder(api.join(folder, typed)));
    return true;
  });
  if (name === null) return null;
  tell('good', texts.folder.made(isolated(name)));
  return { name };
}

// What may not be renamed is told so, though it would be a move for the room.
async function moveOne(path, to) {
  try {
    await waitFor(api.move(path, to));
    return true;
  } catch (fault) {
    if (fault.asked) fault.asked.isRename = api.parentOf(to) === api.parentOf(path);
    throw fault;
  }
}

export async function move(path, kind) {
  const ask = (typed, wrong) => askMove(path, kind, typed, wrong);
  const to = await untilFree(ask, async (typed) => typed !== path
    && await accepted([{ path, kind }], api.parentOf(typed)) && moveOne(path, typed));
  if (to === null) return null;
  tell('good', texts.moving.now(isolated(api.nameOf(path)), placeWords(to)));
  return { name: api.parentOf(to) === api.parentOf(path) ? api.nameOf(to) : null };
}

// Several are moved one after the other. What can't be moved stays, and is told.
export async function moveAll(objects) {
  const place = await askPlace(objects);
  if (!place || place === api.parentOf(objects[0].path)) return null;
  if (!(await accepted(objects, place))) return null;
  const { done, failed, left, stopped } = await inTurn(objects,
    ({ path }) => api.move(path, api.join(place, api.nameOf(path))),
    { title: texts.moving.to(placeWords(place)), told: texts.moving.movedSomeOf });
  if (done > 0) tell('good', texts.moving.moved(done, placeWords(place)));
  if (stopped) tell('bad', texts.moving.stopped(left.length));
  for (const { object, fault } of failed.slice(0, 3)) {
    const stays = texts.moving.staysHere(isolated(api.nameOf(object.path)));
    tell('bad', `${stays} ${sentenceOf(fault)}`);
  }
  const more = failed.length - 3 + (stopped ? 0 : left.length);
  if (more > 0) tell('bad', texts.moving.notMoved(more));
  return { name: null };
}

export async function download(objects, folder) {
  const [first] = objects;
  if (objects.length > 1) await downloadWhole(folder, objects.map(({ path }) => api.nameOf(path)));
  else if (first.kind === 'document') await downloadOne(first.path);
  else await downloadWhole(first.path);
  return null;
}

export async function openInTab(path) {
  await openPdf(path);
  return null;
}

export async function look(path) {
  await preview(path);
  return null;
}

// The address of an object. A browser gives the clipboard only to TLS, so otherwise it is shown.
export async function copyLink(path) {
  const address = new URL(linkTo(path), location.href).href;
  const copied = await navigator.clipboard?.writeText(address).then(() => true, () => false);
  const readers = await waitFor(readersWords(path)).catch(noAnswerWords);
  const rights = `${texts.folder.linkGives} ${readers}`;
  if (copied) tell('good', `${texts.folder.linkCopied} ${rights}`);
  else {
    const field = element('input', {
      type: 'text', readonly: true, value: address, 'aria-label': texts.folder.link,
    });
    field.addEventListener('focus', () => field.select());
    await showDialog(texts.folder.theLink, (finish) => [
      element('p', {}, `${texts.folder.copyFromHere} ${rights}`), field,
      element('div', { class: 'actions' },
        element('button', { type: 'button', onclick: () => finish(null) }, texts.acts.close))]);
  }
  return null;
}
