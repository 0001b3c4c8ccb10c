// Who has access to an object, a line for each person or group, and how that is changed. The exact
// list stays behind 'Advanced': what the levels can't say is shown here and never altered.

import * as api from '../net/api.js';
import { accessRows, rowsFromAbove } from './access_rows.js';
import { adder } from './add_person.js';
import { attributesAt, foldersAbove } from '../net/ancestors.js';
import { button, element, icon } from '../ui/dom.js';
import { hasUnsentAt } from '../acl/draft.js';
import { endWords } from '../acl/end_dates.js';
import { confirm } from './confirm.js';
import { exceptions } from './exceptions.js';
import { passedDown } from '../acl/inherit.js';
import { closedUp, joined, readLevels } from '../acl/levels.js';
import { texts } from '../language/language.js';
import { linkTo } from '../ui/links.js';
import { Looking } from '../net/crawl.js';
import { readListText } from '../acl/entries.js';
import { askedFor } from '../ui/ask_whom.js';
import { notShown, tell, tellFault, waitFor } from '../ui/messages.js';
import { people } from '../net/directory.js';
import { placeName, shownName } from './access_words.js';
import { onePerson } from './one_person.js';
import { onlyThese } from './only_these.js';
import { shortened } from '../text/who_is.js';
import { isolated, sentenceOf } from '../text/words.js';
import { noAnswerWords } from '../text/would_words.js';
import { foresee } from '../net/would.js';
import { toTell } from '../acl/callers.js';
import { UNNAMED, keptAlone, objectsAlone } from '../acl/question.js';

const MOST_NAMED = 6;
const FIELD = '.picker input';

// What was seen further down is kept as long as the panel is shown, and follows what is changed.
const newSurroundings = (path) => ({ looking: new Looking(path), texts: new Map() });

function follow({ looking, texts }, lists) {
  if (looking.isOld) looking.forget();
  for (const { path, text, list } of lists) {
    if (texts.has(path) && texts.get(path) !== text && list) looking.changed(path, list);
    texts.set(path, text);
  }
}

async function stateOf(path, kind, surroundings) {
  const [text, may, object, me, known, folders] = await Promise.all([
    api.readList('dacl', path), api.can(path, 'C').catch(() => null), attributesAt(path),
    api.whoAmI().catch(() => ''), people(), foldersAbove(path, true)]);
  const { list } = readListText(text);
  follow(surroundings, [...folders, { path, text, list }]);
  const model = readLevels(list, kind);
  const isMine = may?.C.ruling === 'allowed';
  const why = hasUnsentAt('dacl', path) ? 'unsent' : model.why;
  return { path, kind, text, list, object, me, known, folders, model, isMine, why,
    edits: isMine && why === null, looking: surroundings.looking, changeable: new Map() };
}

// Whether the object follows the folder above.
function following(state, again) {
  const { path, kind, list, edits, folders, model } = state;
  if (path === '/') return null;
  const above = placeName(api.parentOf(path));
  const box = element('input', { type: 'checkbox', checked: list.protect, disabled: !edits });
  const from = folders.at(-1).list;
  const coming = from?.auto ? passedDown(from.entries, kind) : [];
  const ask = (isCut) => (isCut ? onlyThese(state, above)
    : confirm(state, () => joined(list, coming, kind), {
      title: texts.access.followAgain(above), words: texts.access.followIt,
      allTheSame: texts.access.followAllTheSame,
      sentence: () => texts.access.followSays(above) }));
  box.addEventListener('change', async () => {
    const isCut = box.checked;
    const done = await ask(isCut).catch(tellFault);
    if (done) await again('.following input');
    else box.checked = list.protect;
    if (done === 'sent') {
      tell('good', (isCut ? texts.access.ownList : texts.access.follows)(kind, above));
    }
  });
  const follows = rowsFromAbove(model.rows).length === 0 ? texts.access.follows(kind, above)
    : `${texts.access.follows(kind, above)} ${texts.access.greyLines}`;
  const linked = from?.auto === false ? texts.access.doesntFollow(kind, above) : follows;
  const hint = list.protect ? texts.access.ownList(kind, above) : linked;
  return element('div', { class: 'following' }, icon('lock'), element('div', {},
    element('label', { class: 'tick' }, box, texts.access.onlyThese),
    element('p', { class: 'hint' }, hint)));
}

function note(state) {
  if (state.why === null || state.why === 'open') return null;
  return element('div', { class: 'note-of' }, element('p', {}, texts.access.why[state.why]),
    element('a', { class: 'button small', href: linkTo(state.path, 'dacl') },
      texts.page.advanced));
}

// Where no line says who may remove, one button says it.
function openNote(state, again) {
  if (state.why !== 'open') return null;
  const keep = () => confirm(state, () => closedUp(state.list), {
    title: texts.access.keepInPlace, words: texts.access.keepThem,
    allTheSame: texts.access.keepAllTheSame, sentence: () => texts.access.keepSays,
  }).then((done) => (done ? again(FIELD) : null)).catch(tellFault);
  return element('div', { class: 'note-of' }, element('p', {},
    state.isMine ? `${texts.access.open} ${texts.access.openFirst}` : texts.access.open),
  state.isMine ? button(texts.access.letOnly, keep, { class: 'small' }) : null);
}

// Those who may remove the object, though its own lines don't say so: by what the list of the
// folder and its own say, whoever gets there.
async function removersWords({ kind, list, object, me, known, folders, model }) {
  const above = folders.at(-1);
  const place = placeName(above.path);
  if (above.list === null) return texts.access.removersUnseen(place, kind);
  const [root, folder] = objectsAlone([{ name: 'b', kind: 'folder', ...above }]);
  const target = { path: `${folder.path}/${UNNAMED}t`, kind, text: keptAlone(list), object };
  const said = await foresee({ objects: [root, folder, target], known, me });
  const saying = model.rows.filter(({ level }) => level === 'manage' || level === 'remove');
  const isSaid = ({ user, groups }) => saying.some(({ who, isGroup }) =>
    (isGroup ? groups.includes(who) : user === who));
  const found = toTell(said.callers.filter((caller) => !isSaid(caller)
    && said.at(target.path, caller)?.removes)
    .map((caller) => ({ caller, says: new Set(['removes']) }))).map(({ caller }) => caller);
  return found.length === 0 ? null : texts.access.removers(place,
    shortened(found.map(shownName(known)), MOST_NAMED), kind);
}

// The same, as soon as there is an answer.
function removersNote(state) {
  if (state.path === '/') return null;
  const made = element('div', {});
  removersWords(state).catch(noAnswerWords).then((words) => {
    if (words !== null) made.replaceChildren(hintOf(words));
  });
  return made;
}

// An access that the nightly run has taken back.
const endedHint = ({ who, day }) => element('p', { class: 'hint' },
  texts.access.ended(isolated(who), endWords(day)));

// A day that nobody's access has any more, as after an edit of the list itself.
const looseHint = ({ who, day }) => element('p', { class: 'hint' },
  texts.access.loose(isolated(who), endWords(day)));

const hintOf = (words) => (words === null ? null : element('p', { class: 'hint' }, words));

function view(state, again, pick) {
  const { edits, isMine, model, kind } = state;
  return element('div', { class: 'sharing-view' },
    edits ? adder(state, again, pick) : null,
    isMine ? null : hintOf(texts.access.onlyLook),
    note(state), openNote(state, again), element('h2', {}, texts.page.whoHasAccess),
    accessRows(state, again), model.ended.map(endedHint), model.loose.map(looseHint),
    hintOf(model.own && kind === 'folder' ? texts.access.own : null),
    removersNote(state), following(state, again), exceptions(state), onePerson(state, again));
}

// In the place of a list that I may not read.
async function unseen(path, kind) {
  const [ask, rulings] = await Promise.all([
    askedFor(path), api.can(path, 'rw').catch(() => null)]);
  const has = (letter) => rulings?.[letter].ruling === 'allowed';
  const changing = kind === 'document' ? texts.access.canChangeDocument : texts.access.canPutInto;
  const reading = (has('r') ? texts.access.canRead : texts.access.cantRead)(kind);
  return element('div', { class: 'empty' },
    element('p', {}, has('w') ? changing : reading), element('p', {}, ask));
}

// Shows who has access in 'box', as long as 'isCurrent()'.
export async function showAccess(path, kind, box, isCurrent) {
  const surroundings = newSurroundings(path);
  // What is changed at 'place' has the focus afterwards, or else the field for a name. 'pick' is
  // what was chosen there and wasn't sent.
  const again = async (place = null, pick = null) => {
    try {
      const state = await waitFor(stateOf(path, kind, surroundings));
      if (!isCurrent()) return;
      box.replaceChildren(view(state, again, pick));
      if (place !== null) (box.querySelector(place) ?? box.querySelector(FIELD))?.focus();
    } catch (fault) {
      const shown = fault.status === 403 ? await unseen(path, kind)
        : notShown(sentenceOf(fault), () => again());
      if (!isCurrent()) return;
      box.replaceChildren(shown);
      if (fault.status === 401 || fault.status === undefined) tellFault(fault);
    }
  };
  await again();
}
