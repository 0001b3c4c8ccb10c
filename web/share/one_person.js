// What one person may do in a folder and below it, as far as I may see that; and from there, taking
// them out of all of it, and letting somebody stand in for them.

import { BEFORE } from '../acl/answer.js';
import { toTell } from '../acl/callers.js';
import { hasLines, levelsOf } from '../acl/lines_of.js';
import { texts } from '../language/language.js';
import { fullName } from '../net/directory.js';
import { unreadNames } from '../text/unread.js';
import { isolated } from '../text/words.js';
import { lessWords, noAnswerWords } from '../text/would_words.js';
import { button, element } from '../ui/dom.js';
import { linkTo } from '../ui/links.js';
import { tellFault, waitFor } from '../ui/messages.js';
import { picker } from '../ui/picker.js';
import { lookingLine } from '../ui/progress.js';
import { levelWords, wayWords } from './access_words.js';
import { askedOf, placesOf } from './at_places.js';
import { belowOf } from './consequences.js';
import { callerOf, extentsAt, ownedAt } from './extents.js';
import { standIn } from './stand_in.js';
import { takeOut } from './take_out.js';

const FEW = 6;

const line = ({ path, words }, more = '') => element('li', {},
  element('a', { href: linkTo(path, 'access') }, path === '/' ? texts.places.all : isolated(path)),
  element('span', { class: 'hint' }, `${words}${more}`));

// The places with own lines of this person: those whose lists I may change, and others.
function linesIn(said, state, who) {
  const me = callerOf(said, state.me);
  const all = placesOf(state).filter(({ list }) => hasLines(list, who)).map((one) => ({ ...one,
    words: levelsOf(one.list, one.kind, who).map(({ level }) => levelWords(level, one.kind))
      .join(', ') }));
  const isMine = ({ path }) => said.at(path, me, BEFORE)?.mask.includes('C') === true;
  return { lines: all.filter(isMine), others: all.filter((one) => !isMine(one)) };
}

// Where it isn't known which groups they are in, a group may still let them in.
const surelyAt = ({ asked }, one) => ({ ...one,
  words: asked.isExact || one.words !== texts.outcome.keeps('none', one.kind, []) ? one.words
    : texts.person.unlessByGroup(one.words) });

// What they could do beside that, as it isn't known which groups they are in.
function perhapsLines(said, state, alone) {
  const those = said.callers.filter((one) => one.groups.length > 0 && !said.asked.isExact
    && one.user === alone.user);
  const saysOf = (caller) => new Set([...extentsAt(said, placesOf(state), caller, BEFORE),
    ...ownedAt(said, belowOf(state).nodes, caller, BEFORE).map(({ path, words }) => (
      { path, words: texts.person.theirsThere(words) }))]
    .map(({ path, words }) => `${path}\n${words}`));
  const told = those.map((caller) => ({ caller, says: saysOf(caller) }));
  const own = { caller: { ...alone, isPerhaps: false }, says: saysOf(alone) };
  return toTell([own, ...told.map(({ caller, says }) => ({ caller: { ...caller, isPerhaps: true },
    says }))]).filter((one) => one !== own).map(({ caller, says }) => ({ groups: caller.groups,
    places: [...says].filter((one) => !own.says.has(one)).map((one) => {
      const [path, words] = one.split('\n');
      return { path, words };
    }) })).filter(({ places }) => places.length > 0);
}

const perhaps = (found) => (found.length === 0 ? null : element('details', {},
  element('summary', {}, texts.would.perhaps), element('ul', {},
    found.flatMap(({ groups, places }) => places.map((one) =>
      line(one, ` ${texts.person.ifIn(groups.map(isolated))}`))))));

// What is said of one person, and what can be done.
function answer(said, state, person, again) {
  const caller = callerOf(said, person.who);
  const places = extentsAt(said, placesOf(state), caller, BEFORE);
  const found = linesIn(said, state, person.who);
  const { unread } = belowOf(state);
  const act = (words, does) => button(words, () => does(state, person, found, again)
    .catch(tellFault), { class: 'small' });
  return [element('p', {}, texts.person.can(person.name)),
    element('ul', {}, places.map((one) => line(surelyAt(said, one))),
      ownedAt(said, belowOf(state).nodes, caller, BEFORE).map(({ path, words }) =>
        line({ path, words: texts.person.theirsThere(words) }))),
    perhaps(perhapsLines(said, state, caller)),
    ...[lessWords(said.asked), wayWords(state), unread.length === 0 ? null
      : texts.outcome.unreadThere(unreadNames(unread, FEW))]
      .map((words) => words && element('p', { class: 'hint' }, words)),
    found.lines.length === 0 ? null : element('div', { class: 'actions' },
      person.who === state.me ? null : act(texts.person.takeOut, takeOut),
      act(texts.person.standIn, standIn))].filter(Boolean);
}

// Looks at all below, and then asks what they can do there.
class Look {
  constructor(state, again) {
    this.state = state;
    this.again = again;
    this.looks = 0;
    this.person = null;
    this.told = element('div', { class: 'exceptions', role: 'status' });
    this.line = lookingLine(state.looking, () => this.draw());
    this.shown = element('div', {}, this.told, this.line.shown);
  }

  of(who) {
    this.person = { who, name: isolated(fullName(this.state.known, who)) };
    return this.draw();
  }

  async draw() {
    this.looks += 1;
    const mine = this.looks;
    const { state, person } = this;
    const isWanted = () => mine === this.looks && this.shown.isConnected;
    belowOf(state);
    await state.looking.follow(async (isBusy) => {
      this.line.draw(isBusy);
      if (isBusy || state.looking.ended !== null) return;
      const told = await waitFor(askedOf(state))
        .then((said) => answer(said, state, person, this.again), (fault) => this.unanswered(fault));
      if (isWanted()) this.told.replaceChildren(...told);
    }, isWanted).catch(tellFault);
  }

  unanswered(fault) {
    return [element('p', { class: 'fault' }, noAnswerWords(fault)),
      button(texts.acts.anew, () => this.draw(), { class: 'small' })];
  }
}

// One person here and further down, once somebody wants to know.
export function onePerson(state, again) {
  if (state.kind !== 'folder') return null;
  const look = new Look(state, again);
  const find = picker(state.known, [], ({ who }) => look.of(who),
    { label: texts.person.find, isOfPeople: true });
  return element('details', { class: 'one-person' },
    element('summary', {}, texts.person.title), element('div', {}, find, look.shown));
}
