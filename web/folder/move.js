// Asks where objects are to go and under which name, and shows what that would bring about.

import * as api from '../net/api.js';
import { button, element, icon, nameText } from '../ui/dom.js';
import { texts } from '../language/language.js';
import { movedWords } from './moved.js';
import { form, showDialog, waitFor } from '../ui/messages.js';
import { sorted } from './sorting.js';
import { shortened } from '../text/who_is.js';
import { isolated, nameFault, placeWords, sentenceOf } from '../text/words.js';
import { noAnswerWords } from '../text/would_words.js';

// Goes from folder to folder. 'chosen.path' is the one that is looked at, which 'onLook' is told,
// and 'moved' aren't offered.
function chooser(chosen, moved, onLook) {
  const where = element('p', { class: 'where', 'aria-live': 'polite' });
  const folders = element('ul', { class: 'chooser', 'aria-label': texts.moving.folders });
  const line = (mark, name, path) => element('li', {},
    button([icon(mark), name], () => goTo(path), { class: 'object' }));
  // What was pressed goes with its line: the first line has the focus then.
  const draw = (...lines) => {
    const isInside = folders.contains(document.activeElement);
    folders.replaceChildren(...lines);
    if (isInside) folders.querySelector('button')?.focus();
  };
  const goTo = async (path) => {
    chosen.path = path;
    onLook(path);
    where.replaceChildren(
      ...texts.moving.into(path === '/' ? texts.places.top : nameText(path)));
    const above = path === '/' ? [] : [line('up', texts.moving.above, api.parentOf(path))];
    try {
      const children = sorted(await waitFor(api.list(path)));
      if (chosen.path !== path) return;
      const inside = children.filter((child) => child.kind === 'folder')
        .map((child) => api.join(path, child.name)).filter((one) => !moved.includes(one));
      draw(...above,
        ...inside.map((one) => line('folder', nameText(api.nameOf(one)), one)),
        ...inside.length > 0 ? []
          : [element('li', { class: 'hint' }, texts.moving.noFolders)]);
    } catch (fault) {
      draw(...above, element('li', { class: 'hint' }, sentenceOf(fault)));
    }
  };
  goTo(chosen.path);
  return element('fieldset', {}, element('legend', {}, texts.moving.folder), where, folders);
}

// Returns the new path, or null.
// 'typed' is the path that was chosen before, and 'wrong' what is wrong with it.
export async function askMove(path, kind, typed = path, wrong = null) {
  const chosen = { path: api.parentOf(typed) };
  const name = {
    label: texts.acts.name, value: api.nameOf(typed), fault: nameFault, wrong,
    isFile: kind === 'document',
  };
  const title = kind === 'folder' ? texts.moving.renameFolder : texts.moving.renameDocument;
  const send = element('span', {});
  const onLook = (folder) => {
    send.textContent = folder === api.parentOf(path) ? texts.moving.renameIt : texts.moving.moveIt;
  };
  const names = await form(title, [name], send, chooser(chosen, [path], onLook));
  return names && api.join(chosen.path, names[0]);
}

// Returns the folder for several objects, or null.
export async function askPlace(objects) {
  const paths = objects.map(({ path }) => path);
  const chosen = { path: api.parentOf(paths[0]) };
  const given = await form(texts.moving.several(objects.length), [], texts.moving.moveHere,
    chooser(chosen, paths, () => {}));
  return given && chosen.path;
}

const warnings = (told) => element('ul', { class: 'warnings', 'aria-label': texts.acts.mindThis },
  told.map(({ kind, text }) => element('li', { class: kind }, text)));

const folded = (told) => (told.length === 0 ? null : element('details', {},
  element('summary', {}, texts.would.perhaps), warnings(told)));

// What is said where it can't be said who could get at them: it isn't known that nobody could.
const unanswered = (fault) => ({ title: texts.moving.unanswered, perhaps: [], isKnown: false,
  warned: [{ kind: 'unsure', text: noAnswerWords(fault) }] });

// Whether these may go into the folder, after a question if more people could then get at them. By
// then another folder may be shown, so it says what is to go, and where.
export async function accepted(objects, folder) {
  const told = await waitFor(movedWords(objects, folder)).catch(unanswered);
  if (told === null || told.warned.length + told.perhaps.length === 0) return told !== null;
  const answer = await showDialog(told.title, (finish) => [
    element('p', {}, texts.moving.ofThese(shortened(objects.map(({ path }) =>
      isolated(api.nameOf(path)))), placeWords(folder))),
    element('div', {}, told.warned.length === 0 ? null : warnings(told.warned),
      folded(told.perhaps)),
    element('div', { class: 'actions' },
      button(texts.acts.cancel, () => finish(null), { autofocus: true }),
      told.isKnown === false
        ? button(texts.acts.anew, () => finish('again'), { class: 'primary' }) : null,
      button(texts.moving.allTheSame, () => finish('move'), { class: 'danger' }))]);
  return answer === 'again' ? accepted(objects, folder) : answer !== null;
}
