// The lines of those who have access, and what is changed by the menu of a line.

import { texts } from '../language/language.js';
import { nameOf } from '../net/api.js';
import { today } from '../net/clock.js';
import { addedWords, askingSelect, offered } from './add_person.js';
import { button, element, icon, nameText } from '../ui/dom.js';
import { confirm, deliver } from './confirm.js';
import { RANKS, keyOf, letRemove, readLevels, withLevel } from '../acl/levels.js';
import { linkTo } from '../ui/links.js';
import { endWords } from '../acl/end_dates.js';
import { isInherited } from '../acl/entries.js';
import { tell, tellFault } from '../ui/messages.js';
import { levelWords, placeName } from './access_words.js';
import { below, mark } from '../ui/names.js';
import { shortened, spokenName, whoName } from '../text/who_is.js';
import { isolated, rightsIn } from '../text/words.js';

const rank = (level) => RANKS.indexOf(level);

// The folder that an inherited entry stands on as its own, or null where that can't be seen.
function sourceOf(entry, folders) {
  const isIt = (one) => one.type === entry.type && one.mask === entry.mask
    && keyOf(one) === keyOf(entry) && !isInherited(one);
  for (const { path, list } of [...folders].reverse()) {
    if (list === null) return null;
    if (list.entries.some(isIt)) return path;
  }
  return null;
}

// Where a line from above comes from. 'shown' makes the folder that is named.
function sourceWords({ list, folders }, row, shown) {
  if (!row.inherited) return [];
  if (list.protect) return [texts.access.keptFromAbove];
  const path = sourceOf(row.entries[0], folders);
  return path === null ? [texts.access.fromFolderAbove] : texts.access.from(shown(path));
}

const linked = (path) => element('a', { href: linkTo(path, 'access') },
  path === '/' ? texts.places.all : nameText(nameOf(path)));

// Whether the folder above gives the same one something too, which stays when the line goes.
const isAlsoAbove = ({ model }, row) =>
  model.rows.some((one) => one.inherited && one.key === row.key);

// What that is in the list without the line.
function staysWords(state, row, next) {
  const [kept] = readLevels(next, state.kind).rows
    .filter((one) => one.inherited && one.key === row.key)
    .sort((one, other) => rank(other.level) - rank(one.level));
  const words = kept.level === 'custom' ? customWords(kept, state.kind)
    : barredLevel(kept, state.kind);
  return texts.access.goneHere(nameIn(state, row), words,
    sourceWords(state, kept, placeName).join(''));
}

// What is said of a line that is taken away.
function goneWords(name, row, changes) {
  if (row.isGroup) return texts.access.goneGroup(name);
  const change = changes.find(({ user }) => user === row.who);
  const stays = change === undefined || change.to !== 'none';
  return (stays ? texts.access.goneKeeping : texts.access.gone)(name);
}

// What is asked before a line goes.
function goingWords(state, row, next) {
  const place = placeName(state.path);
  return isAlsoAbove(state, row)
    ? { title: texts.access.takeOffOf(place), words: texts.access.takeOff,
      allTheSame: texts.access.takeOffAllTheSame, sentence: () => staysWords(state, row, next) }
    : { title: texts.access.removeAccessTo(place), words: texts.access.removeAccess,
      allTheSame: texts.access.removeAllTheSame,
      sentence: ({ changes }) => goneWords(nameIn(state, row), row, changes) };
}

// What is said once it is done.
function doneWords(state, row, value, next) {
  const name = nameIn(state, row);
  if (value !== 'gone') {
    return addedWords(state, [row], value, texts.access.nowCan, row.until ?? '');
  }
  if (isAlsoAbove(state, row)) return staysWords(state, row, next);
  return (row.isGroup ? texts.access.goneGroup : texts.access.gone)(name);
}

// The menu of the line below or above one that goes.
function besideIt(label) {
  const all = [...document.querySelectorAll('.holders select')];
  const at = all.findIndex((one) => one.matches(label));
  const beside = all[at + 1] ?? all[at - 1];
  return beside ? `[aria-label="${CSS.escape(beside.getAttribute('aria-label'))}"]` : label;
}

// What is picked in the menu of a line. 'back' shows the line as it was.
async function change(state, row, value, again, back) {
  const { kind, path, list } = state;
  const isGone = value === 'gone';
  const name = nameIn(state, row);
  // A date stays with the one who has it, as asked for by whoever changes the level.
  const until = row.until === null ? null : { day: row.until, asker: state.me };
  const next = withLevel(list, kind, row, isGone ? null : value, row.level === 'pass', until);
  if (next === null) {
    tell('bad', texts.access.notByLevels);
    back();
    return;
  }
  const subject = { who: row.who, isGroup: row.isGroup, name, isLeaving: isGone, level: value };
  const label = `[aria-label="${CSS.escape(labelOf(state, row))}"]`;
  const line = isGone ? besideIt(label) : label;
  const done = await confirm(state, () => next, isGone
    ? { ...goingWords(state, row, next), subject }
    : { title: texts.access.changeAccess, words: texts.access.changeIt,
      allTheSame: texts.access.changeAllTheSame, subject, sentence: () => texts.access.goes(
        placeName(path), name, levelWords(row.level, kind), levelWords(value, kind)) });
  if (!done) {
    back();
    return;
  }
  await again(line);
  if (done === 'sent') tell('good', doneWords(state, row, value, next));
}

const goneLabel = (state, row) =>
  (isAlsoAbove(state, row) ? texts.access.takeOff : texts.access.removeAccess);

// What the menu of a line also does, in one press.
function goneControl(state, row, again) {
  if (!state.edits || row.inherited || row.level === 'custom') return null;
  const gone = () => change(state, row, 'gone', again, () => {}).catch(tellFault);
  const [ofOne, ofGroup] = isAlsoAbove(state, row)
    ? [texts.access.takeLine, texts.access.takeLineOfGroup]
    : [texts.access.removeAccessOf, texts.access.removeAccessOfGroup];
  return button(icon('cross'), gone, { class: 'small plain gone', title: goneLabel(state, row),
    'aria-label': (row.isGroup ? ofGroup : ofOne)(spokenName(state.known, row)) });
}

const labelOf = ({ known }, row) =>
  (row.isGroup ? texts.access.whatGroupCan : texts.access.whatCan)(spokenName(known, row));

// By d in a line that is passed on to documents these can be removed all the same.
const barredWords = ({ entries }) => (entries.some(({ flags, mask }) => flags.includes('f')
  && mask.includes('d')) ? texts.access.removesNoFolders : texts.access.removesNothing);

function barredLevel(row, kind) {
  const words = levelWords(row.level, kind);
  return row.barred ? barredWords(row)(words) : words;
}

function levelControl(state, row, again) {
  const { kind, edits } = state;
  const plain = element('span', { class: 'level' }, barredLevel(row, kind));
  if (!edits || row.inherited || row.level === 'custom') return plain;
  // What was carried here from above is changed there.
  if (isAlsoAbove(state, row) && isHead(row)) return plain;
  const levels = row.level === 'pass' ? ['pass'] : [...new Set([...offered(kind), row.level])];
  const options = levels.sort((one, other) => rank(one) - rank(other))
    .map((one) => [one, levelWords(one, kind)]);
  const all = [...options, ['gone', goneLabel(state, row)]];
  return askingSelect(labelOf(state, row), all, row.level, (value, made) => {
    const back = () => { made.value = row.level; };
    change(state, row, value, again, back).catch((fault) => {
      tellFault(fault);
      back();
    });
  });
}

const customWords = (row, kind) => row.entries.map((entry) =>
  (entry.type === 'A' ? texts.access.may : texts.access.mayNot)(rightsIn(entry.mask, kind)))
  .join('; ');

// What is said of a last day: also that the nightly run can't keep to it, or didn't.
function untilWords({ until, ends }) {
  const day = endWords(until);
  if (!ends) return texts.access.doesntEnd(day);
  return (until < today() ? texts.access.wasToEnd : texts.access.untilDay)(day);
}

function nameIn({ known }, { who, isGroup }) {
  const name = isolated(whoName(known, who, isGroup));
  return isGroup ? texts.access.theGroup(name) : name;
}

// A last day changes nobody's rights now, so nothing is asked.
async function setEnd(state, row, { input, isLeft }, again) {
  const day = input.value;
  const until = day === '' ? null : { day, asker: state.me };
  const next = input.validity.badInput || (day !== '' && day < today()) ? null
    : withLevel(state.list, state.kind, row, row.level, false, until);
  if (next === null) {
    tell('bad', input.validity.badInput ? texts.access.partOfDate : texts.access.noDate);
    if (!isLeft) input.focus();
  } else if (await deliver(state, next, { ways: () => [], left: () => [] }) === 'sent') {
    await again(`[aria-label="${CSS.escape(labelOf(state, row))}"]`);
    const name = nameIn(state, row);
    tell('good', day === '' ? texts.access.hasNoEnd(name)
      : texts.access.ends(name, endWords(day)));
  } else await again();
}

// A field for the last day. Another day counts as soon as the focus goes elsewhere, and Escape
// leaves all as it was.
function endForm({ until }, name, set, close) {
  let isSet = false;
  const input = element('input', { type: 'date', value: until ?? '', 'aria-label': name });
  const isOther = () => input.value !== (until ?? '') || input.validity.badInput;
  const send = async (isLeft) => {
    if (isSet) return;
    isSet = true;
    await set({ input, isLeft }).catch(tellFault);
    isSet = false;
  };
  const form = element('form', { class: 'until', onsubmit: (event) => {
    event.preventDefault();
    send(false);
  } }, input, element('button', { type: 'submit', class: 'small' }, texts.access.set));
  form.addEventListener('focusout', ({ relatedTarget }) => {
    if (!form.contains(relatedTarget) && form.isConnected && isOther()) send(true);
  });
  form.addEventListener('keydown', ({ key }) => {
    if (key !== 'Escape') return;
    isSet = true;
    close();
  });
  return form;
}

// The last day of a line, which a press of it changes.
function endControl(state, row, again) {
  const { edits } = state;
  const isFixed = !edits || row.inherited || row.who.endsWith('@')
    || ['pass', 'clear', 'custom'].includes(row.level);
  if (isFixed) return row.until && element('p', { class: 'hint' }, untilWords(row));
  const name = (row.isGroup ? texts.access.lastDayOfGroup : texts.access.lastDay)(
    spokenName(state.known, row));
  const open = () => {
    const form = endForm(row, name, (day) => setEnd(state, row, day, again), close);
    shown.replaceChildren(form);
    form.querySelector('input').focus();
  };
  const now = row.until ? untilWords(row) : texts.access.noEnd;
  const press = button(now, open,
    { class: 'small plain ends', 'aria-label': `${name}: ${now}` });
  const close = () => {
    shown.replaceChildren(press);
    press.focus();
  };
  const shown = element('div', {}, press);
  return shown;
}

function line(state, row, again) {
  const { known, kind, me } = state;
  return element('li', { class: row.inherited ? 'from-above' : null },
    mark(known, row.who, row.isGroup),
    element('div', { class: 'name-of' }, nameText(whoName(known, row.who, row.isGroup)),
      below(known, row, me, sourceWords(state, row, linked)),
      endControl(state, row, again), barredControl(state, row, again),
      row.level === 'custom' ? element('p', { class: 'hint' }, customWords(row, kind)) : null),
    levelControl(state, row, again), goneControl(state, row, again));
}

// Whoever removes by the folder above, and not here, where a line keeps things in place.
function barredControl(state, row, again) {
  if (!state.edits || !row.barred || !row.inherited) return null;
  const name = nameIn(state, row);
  const level = levelWords(row.level, state.kind);
  const does = () => confirm(state, () => letRemove(state.list, [row]), {
    title: texts.access.letRemoveTitle, words: texts.access.letThem,
    allTheSame: texts.access.letAllTheSame,
    subject: { who: row.who, isGroup: row.isGroup, name, level: row.level },
    sentence: () => texts.access.letRemoveSays(name, level) })
    .then((done) => (done ? again() : null)).catch(tellFault);
  return button(texts.access.letRemoveHere, does, { class: 'small',
    'aria-label': texts.access.letRemoveHereFor(spokenName(state.known, row)) });
}

const isOwnRow = ({ inherited }) => !inherited;
const isHead = ({ level }) => level === 'manage' || level === 'remove';

// What was carried here, so that whoever may remove by the folder above still may, is said by the
// line from there.
const isCarried = (row, rows) => row.level === 'clear'
  && rows.some((one) => one.inherited && one.key === row.key && isHead(one));

// The lines that are shown as those of the folder above: what is here too is said once.
export const rowsFromAbove = (rows) => rows.filter((row) => row.inherited
  && !rows.some((one) => isOwnRow(one) && one.key === row.key && one.level === row.level));

// Own lines first, those who may do the most above. Those who only pass through stand apart.
export function accessRows(state, again) {
  const { rows } = state.model;
  const own = rows.filter((row) => isOwnRow(row) && !isCarried(row, rows));
  const above = rowsFromAbove(rows);
  const sorted = (those) => [...those].sort((one, other) => rank(other.level) - rank(one.level));
  const isWay = ({ level, who }) => level === 'pass' && !who.endsWith('@');
  const list = (those) => element('ul', { class: 'holders' },
    those.map((row) => line(state, row, again)));
  const all = [...sorted(own), ...sorted(above)];
  const way = all.filter(isWay);
  if (way.length === 0) return [list(all)];
  const names = shortened(way.map(({ who, isGroup }) => whoName(state.known, who, isGroup)), 3);
  return [list(all.filter((row) => !isWay(row))), element('details', { class: 'on-the-way' },
    element('summary', {}, texts.access.onTheWay(names)), list(way))];
}
