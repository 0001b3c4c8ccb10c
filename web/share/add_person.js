// Gives access: one or several names are picked, the panel says what comes of it, and 'Share' sends
// it.

import { button, element, icon, nameText } from '../ui/dom.js';
import { endWords } from '../acl/end_dates.js';
import { Told, deliver } from './confirm.js';
import { LEVELS, RANKS, readLevels, withLevel } from '../acl/levels.js';
import { texts } from '../language/language.js';
import { copyLink } from '../folder/actions.js';
import { nameOf } from '../net/api.js';
import { today } from '../net/clock.js';
import { linkTo } from '../ui/links.js';
import { tell, tellFault } from '../ui/messages.js';
import { followOutcome } from './consequences.js';
import { fullName } from '../net/directory.js';
import { leftIn, picker } from '../ui/picker.js';
import { levelWords, placeName } from './access_words.js';
import { below, mark } from '../ui/names.js';
import { inSentence, membersOf, whoName } from '../text/who_is.js';
import { isolated } from '../text/words.js';
import { isListFault, isUnsaid } from '../text/would_words.js';

const MOST_MEMBERS = 8;
// In milliseconds.
const A_MOMENT = 500;

// What a press beside a name in the list gives at once.
const QUICK = 'change';

export const offered = (kind) => RANKS.filter((level) => LEVELS[level].includes(kind));

export function select(label, options, value, onPick) {
  const made = element('select', { 'aria-label': label }, options.map(([key, words]) =>
    element('option', { value: key, selected: key === value }, words)));
  made.addEventListener('change', () => onPick(made.value, made));
  return made;
}

// A menu whose pick asks something. Most browsers pick by each arrow key: then it asks once
// somebody presses Enter or goes elsewhere, and Escape leaves all as it was.
export function askingSelect(label, options, value, onPick) {
  let [byKey, waits] = [false, false];
  const ask = () => {
    const isOther = waits && made.isConnected && made.value !== value;
    waits = false;
    if (isOther) onPick(made.value, made);
  };
  const made = select(label, options, value, () => {
    waits = true;
    if (!byKey) ask();
  });
  made.addEventListener('keydown', (event) => {
    byKey = !event.altKey && !['Enter', ' '].includes(event.key);
    if (!waits || !['Enter', 'Escape'].includes(event.key)) return;
    event.preventDefault();
    if (event.key === 'Escape') made.value = value;
    ask();
  });
  for (const kind of ['keyup', 'pointerdown']) {
    made.addEventListener(kind, () => { byKey = false; });
  }
  // The window may have lost the focus, and not the menu.
  made.addEventListener('focusout', () => {
    if (document.activeElement !== made) ask();
  });
  return made;
}

// Who can do what, in one of the two sentences of it. 'day' is the last one, or ''.
export function addedWords({ known, kind, path }, subjects, level, say, day) {
  const all = subjects.map((subject) => {
    const members = subject.isGroup ? membersOf(known, subject.who) : null;
    return { who: inSentence(known, subject), many: subject.isGroup ? members?.length ?? null : 1,
      members: members !== null && members.length <= MOST_MEMBERS
        ? members.map((user) => isolated(fullName(known, user))) : [] };
  });
  const named = ({ who, members }) => `${who}${
    members.length === 0 ? '' : ` (${members.join(', ')})`}`;
  const { who, members, many } = all.length === 1 ? all[0]
    : { who: texts.lists.and(all.map(named)), members: [], many: all.length };
  return say(who, members, many, level, kind, placeName(path), day === '' ? null : endWords(day));
}

// Where nobody may remove what they added, nobody is told so.
const levelHint = (kind, level, next) => (kind === 'document' || readLevels(next, kind).own
  ? texts.access.hint : texts.access.hintWithoutOwn)(level, kind);

const unsureWords = ({ known }, { who, sure }) => (sure || known === null ? null
  : element('p', { class: 'fault' },
    texts.access.unsure(isolated(who))));

// Where those who got access are told of it. Only a name with an @ is an address of mail too.
function mailLink(path, choices) {
  const address = new URL(linkTo(path), location.href).href;
  const words = `subject=${encodeURIComponent(nameOf(path))}&body=${encodeURIComponent(address)}`;
  const to = choices.filter(({ who }) => who.includes('@')).map(({ who }) => encodeURI(who));
  return element('a', { class: 'button small', href: `mailto:${to.join(',')}?${words}` },
    texts.access.writeMail);
}

function tellShared(words, path, choices) {
  const copy = () => copyLink(path).catch(tellFault);
  tell('good', words, button(texts.acts.copyLink, copy, { class: 'small' }),
    mailLink(path, choices));
}

function subjectOf(choice, known) {
  const name = isolated(whoName(known, choice.who, choice.isGroup));
  return { ...choice, name: choice.isGroup ? texts.access.theGroup(name) : name };
}

// Those who were picked, the level that they get, and what comes of it. Each drawing has a number,
// so that a slow one isn't shown for a later level.
class Picked {
  constructor(state, { level = 'read', day = '' }, again, { onLess, takeLeft }) {
    this.state = state;
    this.choices = [];
    this.level = level;
    this.onLess = onLess;
    this.takeLeft = takeLeft;
    this.looks = 0;
    this.names = element('ul', { class: 'chosen-ones' });
    this.unsure = element('div', {});
    this.said = element('p', { class: 'said', role: 'status' });
    this.hint = element('p', { class: 'hint' });
    this.share = button(texts.access.share, () => this.send(again),
      { class: 'primary', disabled: true });
    this.told = new Told(state, null, this.share, () => this.draw());
    this.body = this.told.shown;
    this.until = element('input',
      { type: 'date', value: day, 'aria-label': texts.access.untilLabel });
    this.until.addEventListener('change', () => this.draw());
    this.levels = select(texts.access.whatTheyCan, offered(state.kind).map((one) =>
      [one, levelWords(one, state.kind)]), this.level, (value) => {
      this.level = value;
      this.draw();
    });
  }

  // A name more. One that was picked with a level gives it to all of them.
  add({ level = this.level, ...choice }) {
    this.choices.push(choice);
    this.level = level;
    this.levels.value = level;
    this.drawNames();
    this.draw();
  }

  drop(choice) {
    this.choices = this.choices.filter((one) => one !== choice);
    this.onLess(this.choices);
    if (this.choices.length === 0) return;
    this.drawNames();
    this.draw();
  }

  drawNames() {
    const { state: { known, me } } = this;
    this.names.replaceChildren(...this.choices.map((choice) => {
      const name = whoName(known, choice.who, choice.isGroup);
      return element('li', {}, mark(known, choice.who, choice.isGroup),
        element('div', { class: 'name-of' }, element('strong', {}, nameText(name)),
          below(known, choice, me)),
        button(icon('cross'), () => this.drop(choice),
          { class: 'small plain', 'aria-label': texts.access.notThis(name),
            title: texts.access.notThis(name) }));
    }));
    this.unsure.replaceChildren(...this.choices.map((one) => unsureWords(this.state, one))
      .filter(Boolean));
  }

  // Whom it is about, as those say it who look at what comes of it.
  get subject() {
    const { known } = this.state;
    const all = this.choices.map((choice) => ({ ...subjectOf(choice, known), level: this.level }));
    return all.length === 1 ? all[0] : { all, level: this.level };
  }

  next(until) {
    const { list, kind } = this.state;
    return this.choices.reduce((next, choice) =>
      next && withLevel(next, kind, choice, this.level, false, until), list);
  }

  async draw() {
    const { state } = this;
    this.looks += 1;
    const look = this.looks;
    this.share.disabled = true;
    const day = this.until.value;
    const next = this.next(day === '' ? null : { day, asker: state.me });
    if (next === null || (day !== '' && day < today())) {
      this.said.textContent = day === '' ? texts.access.notByLevels : texts.access.noDate;
      return;
    }
    const isWanted = () => look === this.looks && this.body.isConnected;
    this.told.subject = this.subject;
    this.isShown = false;
    setTimeout(() => this.sayWaiting(isWanted), A_MOMENT);
    await followOutcome(state, next, this.subject, isWanted, (outcome, isBusy) => {
      this.show(next, outcome.lock === null);
      this.told.draw(outcome, isBusy);
    }).catch((fault) => {
      this.isShown = true;
      if (!isUnsaid(fault)) tellFault(fault);
      else if (isWanted()) {
        this.show(next, isListFault(fault));
        this.told.fail(fault, () => this.draw());
      }
    });
  }

  // Why 'Share' is grey, where it is so for longer.
  sayWaiting(isWanted) {
    if (!isWanted() || this.isShown) return;
    this.said.textContent = texts.access.workedOut;
    this.hint.textContent = '';
  }

  show(next, isPlain) {
    const { state, choices, level } = this;
    this.isShown = true;
    this.sent = next;
    this.said.textContent = addedWords(state, choices, level, texts.access.thenCan,
      this.until.value);
    this.hint.textContent = levelHint(state.kind, level, next);
    this.share.textContent = isPlain ? texts.access.share : texts.access.shareAllTheSame;
    this.share.className = isPlain ? 'primary' : 'danger';
  }

  async send(again) {
    // A day that was typed in part has no value, as if there were to be no end.
    if (this.until.validity.badInput) {
      this.said.textContent = texts.access.partOfDate;
      this.until.focus();
      return;
    }
    if (this.takeLeft((words) => { this.said.textContent = words; })) return;
    this.share.disabled = true;
    const { state, choices, level } = this;
    const day = this.until.value;
    if (state.looking.isOld) {
      tell('good', texts.access.lookedAgain);
      await this.draw();
      return;
    }
    const words = addedWords(state, choices, level, texts.access.nowCan, day);
    const isSent = await deliver(state, this.sent, this.told.told) === 'sent';
    await again('.picker input', isSent ? null : { choices, level, day });
    if (isSent) tellShared(words, state.path, choices);
  }

  shown(cancel) {
    return [element('div', { class: 'picked' }, this.names, this.levels), this.unsure,
      element('label', { class: 'until' }, texts.access.until, this.until,
        element('span', { class: 'hint' }, texts.access.onlyIfEnds)),
      this.said, this.hint, this.body,
      element('div', { class: 'actions' }, button(texts.acts.cancel, cancel), this.share)];
  }
}

// A name that stands in the field yet isn't left out without a word. Returns whether one does.
function takeLeft(field, known, { taken, take, say }) {
  const { typed, only } = leftIn(field, known, taken);
  if (typed === '') return false;
  const input = field.querySelector('input');
  if (only === null) say(texts.access.notChosen(isolated(typed)));
  else {
    input.value = '';
    take(only);
    tell('good', texts.access.addedToo(inSentence(known, only)));
  }
  input.focus();
  return true;
}

// The field for names, and below it those who were picked. 'pick' are some who were picked before:
// {choices, level, day}, or null.
export function adder(state, again, pick) {
  const rows = state.model.rows.filter(({ inherited, level }) =>
    !inherited && level !== 'pass' && level !== 'clear');
  const taken = [...rows];
  const box = element('div', {});
  let picked = null;
  const end = () => {
    picked = null;
    box.replaceChildren();
    field.querySelector('input').focus();
  };
  const less = (choices) => {
    taken.splice(0, taken.length, ...rows, ...choices);
    if (choices.length === 0) end();
    else field.querySelector('input').focus();
  };
  const take = (choice, given = {}) => {
    if (picked === null) {
      picked = new Picked(state, given, again, { onLess: less,
        takeLeft: (say) => takeLeft(field, state.known, { taken, take, say }) });
      box.replaceChildren(...picked.shown(() => less([])));
    }
    taken.push(choice);
    picked.add(choice);
  };
  const field = picker(state.known, taken, take,
    { quick: { words: levelWords(QUICK, state.kind), gives: { level: QUICK } } });
  for (const choice of pick?.choices ?? []) take(choice, pick);
  return element('div', { class: 'adding' }, field, box);
}
