// A field to choose a person or a group from a list, by the keyboard too.

import { element, freshId, icon, nameText } from './dom.js';
import { texts } from '../language/language.js';
import { isName } from '../acl/entries.js';
import { dayWords, fullName } from '../net/directory.js';
import { mark } from './names.js';
import { membersOf } from '../text/who_is.js';

const MOST = 8;

// All who are known, with what a search looks at: [{who, isGroup, sure, text}].
function knownNames(known) {
  const users = (known?.users ?? []).map((who) => (
    { who, isGroup: false, sure: true, text: `${who}\n${fullName(known, who)}`.toLowerCase() }));
  const groups = Object.keys(known?.groups ?? {}).map((who) => (
    { who, isGroup: true, sure: true, text: who.toLowerCase() }));
  return [...groups, ...users];
}

const isSame = (one, other) => one.who === other.who && one.isGroup === other.isGroup;

// What may be chosen for what was typed: [{who, isGroup, sure}]. Whose name begins so comes first.
// 'isKnown' says that names can be looked up: then another one is taken only if none of them fits.
function choicesFor(typed, all, { isKnown, taken, isOfPeople }) {
  const small = typed.toLowerCase();
  const isFree = (choice) => !taken.some((one) => isSame(one, choice));
  const [begins, others] = [[], []];
  // There may be thousands, and each key comes here.
  for (const choice of all) {
    const at = choice.text.indexOf(small);
    const place = at === 0 ? begins : others;
    if (at >= 0 && place.length < MOST && isFree(choice)) place.push(choice);
    if (begins.length === MOST) break;
  }
  const found = [...begins, ...others].slice(0, MOST);
  if (!isName(typed) || all.some(({ who }) => who === typed)) return found;
  const asTyped = (isOfPeople ? [false] : [false, true])
    .map((isGroup) => ({ who: typed, isGroup, sure: false }));
  return isKnown && found.length > 0 ? found : [...found, ...asTyped.filter(isFree)];
}

function wordsFor({ who, isGroup, sure }, known) {
  if (!sure) {
    if (known === null) return isGroup ? texts.picker.asGroup : texts.picker.asPerson;
    return isGroup ? texts.picker.groupAllTheSame : texts.picker.personAllTheSame;
  }
  if (!isGroup) return fullName(known, who) === who ? texts.picker.person : who;
  const members = membersOf(known, who);
  return members === null ? texts.picker.group : texts.picker.groupOf(members.length);
}

// A press on these words picks more than the name. By the keyboard that comes after the name.
const quickPick = ({ words }) =>
  element('span', { class: 'quick', 'aria-hidden': 'true' }, words);

function line(choice, known, id, { onPick, quick }) {
  const { who, isGroup, sure } = choice;
  const look = sure ? null : 'unsure';
  const made = element('li', { role: 'option', id, 'aria-selected': 'false', class: look },
    mark(known, who, isGroup),
    element('span', {}, nameText(isGroup ? who : fullName(known, who))),
    element('span', { class: 'hint' }, wordsFor(choice, known)),
    quick && sure ? quickPick(quick) : null);
  // The words listen to nothing themselves: a browser gives a touch beside what listens to that.
  made.addEventListener('pointerdown', (event) => {
    // The focus stays where it is, since the list closes without it.
    event.preventDefault();
    onPick(event.target.closest('.quick') ? { ...choice, ...quick.gives } : choice);
  });
  return made;
}

function toldOf(typed, choices, known, taken) {
  if (taken.some(({ who }) => who === typed)) return texts.picker.isBelow;
  if (known === null) {
    return choices.length > 0 ? texts.picker.spell : '';
  }
  if (typed === '' || choices.some(({ sure }) => sure)) return '';
  return texts.picker.nobody(dayWords(known.made));
}

// The choices below a field: {box, show, step, isOpen, chosen, close}.
function choiceList(input, known, picks) {
  const list = element('ul', {
    role: 'listbox', id: freshId('choices'), 'aria-label': texts.picker.choices,
  });
  const told = element('p', { class: 'hint', role: 'status' });
  const box = element('div', { class: 'choices-of', hidden: true }, told, list);
  input.setAttribute('aria-controls', list.id);
  let [choices, at] = [[], -1];
  const point = (next) => {
    at = next;
    [...list.children].forEach((one, index) =>
      one.setAttribute('aria-selected', String(index === at)));
    if (at < 0) input.removeAttribute('aria-activedescendant');
    else input.setAttribute('aria-activedescendant', list.children[at].id);
    list.children[at]?.scrollIntoView({ block: 'nearest' });
  };
  const show = (found, words) => {
    choices = found;
    list.replaceChildren(...choices.map((choice, index) =>
      line(choice, known, `${list.id}-${index}`, picks)));
    told.textContent = words;
    box.hidden = choices.length === 0 && words === '';
    input.setAttribute('aria-expanded', String(choices.length > 0));
    point(choices[0]?.sure ? 0 : -1);
  };
  // Up from nothing leads to the last one.
  const step = (by) => {
    const from = at < 0 && by < 0 ? 0 : at;
    if (choices.length > 0) point((from + by + choices.length) % choices.length);
  };
  return {
    box, show, step, isOpen: () => choices.length > 0, chosen: () => choices[at],
    close: () => show([], ''),
  };
}

// What stands in a field and wasn't chosen, and who it is if it fits one alone: {typed, only}.
export function leftIn(field, known, taken) {
  const typed = field.querySelector('input').value.trim();
  const found = typed === '' ? [] : choicesFor(typed, knownNames(known),
    { isKnown: known !== null, taken, isOfPeople: false }).filter(({ sure }) => sure);
  return { typed, only: found.length === 1 ? found[0] : null };
}

// 'taken' are those who have access already, as they are at each key. 'onPick' is called with {who,
// isGroup, sure}, and with what a 'quick' pick gives beside these: {words, gives}. 'isOfPeople'
// says that no groups are offered.
export function picker(known, taken, onPick,
  { quick = null, label = texts.picker.add, isOfPeople = false } = {}) {
  const all = knownNames(known).filter((one) => !isOfPeople || !one.isGroup);
  const input = element('input', {
    type: 'text', role: 'combobox', 'aria-label': label, 'aria-expanded': 'false',
    'aria-autocomplete': 'list', placeholder: label, autocomplete: 'off',
    autocapitalize: 'none', spellcheck: 'false',
  });
  const pick = (choice) => {
    input.value = '';
    choices.close();
    onPick(choice);
  };
  const choices = choiceList(input, known, { onPick: pick, quick });
  // Nothing is in the way before something is typed, or asked for.
  const draw = (isAsked = false) => {
    const typed = input.value.trim();
    const isOpen = typed !== '' || (isAsked && known !== null);
    const found = !isOpen ? []
      : choicesFor(typed, all, { isKnown: known !== null, taken, isOfPeople });
    choices.show(found, toldOf(typed, found, known, taken));
  };
  const keys = {
    ArrowDown: () => (choices.isOpen() ? choices.step(1) : draw(true)),
    ArrowUp: () => choices.step(-1),
    Enter: () => choices.chosen() && pick(choices.chosen()),
    Escape: () => choices.close(),
  };
  input.addEventListener('input', () => draw());
  input.addEventListener('focus', () => draw());
  input.addEventListener('blur', choices.close);
  input.addEventListener('keydown', (event) => {
    if (!Object.hasOwn(keys, event.key)) return;
    keys[event.key]();
    event.preventDefault();
  });
  return element('div', { class: 'picker' }, icon('person'), input, choices.box);
}
