// Lets somebody stand in for another one until a day: at each place where that one has something by
// a line, the stand-in has it too, and passes through the folders on the way there.

import { BEFORE } from '../acl/answer.js';
import { endWords } from '../acl/end_dates.js';
import { printList } from '../acl/entries.js';
import { withLevel } from '../acl/levels.js';
import { withStandIn } from '../acl/lines_of.js';
import { texts } from '../language/language.js';
import { namesOf } from '../net/api.js';
import { fullName } from '../net/directory.js';
import { today } from '../net/clock.js';
import { isolated } from '../text/words.js';
import { element } from '../ui/dom.js';
import { tellFault } from '../ui/messages.js';
import { picker } from '../ui/picker.js';
import { levelWords, placeName } from './access_words.js';
import { askPlaces, placesOf, quotedPlaces, sendEach } from './at_places.js';
import { callerOf } from './extents.js';

// The first folder on the way to a place that doesn't let a caller pass, or undefined.
const barOn = (said, path, caller) => namesOf(path)
  .map((_, index, names) => `/${names.slice(0, index).join('/')}`)
  .find((folder) => said.at(folder, caller)?.mask.includes('x') === false);

// Who it is and until when, as it is chosen.
class Chosen {
  constructor(state, person, lines) {
    this.state = state;
    this.person = person;
    this.lines = lines;
    this.who = null;
    // Folders that have to let the stand-in pass.
    this.ways = [];
    this.redraw = () => {};
    this.day = element('input', { type: 'date', 'aria-label': texts.person.lastDay });
  }

  get name() { return isolated(fullName(this.state.known, this.who)); }

  get isDay() {
    return this.day.value !== '' && !this.day.validity.badInput && this.day.value >= today();
  }

  get until() { return { day: this.day.value, asker: this.state.me }; }

  // Each place with what would be sent there.
  found() {
    if (this.who === null || !this.isDay) return [];
    return this.lines.map((one) => ({ ...one, ...withStandIn(one.list, one.kind, this.person.who,
      this.who, this.until) }));
  }

  passing({ list }) {
    return withLevel(list, 'folder', { who: this.who, isGroup: false }, 'pass', true, this.until);
  }

  steps() {
    const places = this.found().filter(({ next }) => next !== null);
    // Of a folder that only follows the one above, its list is known and not read.
    const ways = places.length === 0 ? [] : this.ways.map((one) => (
      { ...one, words: levelWords('pass', 'folder'), isWay: true, next: this.passing(one),
        text: printList(one.list) }));
    return [...ways, ...places].map(({ path, words, text, next, isWay = false }) => (
      { path, words, before: text, next, isWay }));
  }

  // The way is offered where I may open it and what that opens is looked at; else it is said that
  // nothing comes of the line.
  barred(said, steps) {
    const [caller, me] = [this.who, this.state.me].map((one) => callerOf(said, one));
    const found = steps.filter(({ isWay }) => !isWay)
      .map((step) => ({ step, bar: barOn(said, step.path, caller) }))
      .filter(({ bar }) => bar !== undefined);
    const bars = [...new Set(found.map(({ bar }) => bar))];
    const isNew = (path) => this.ways.every((one) => one.path !== path);
    const offered = placesOf(this.state).filter((one) => bars.includes(one.path)
      && isNew(one.path) && said.at(one.path, me, BEFORE)?.mask.includes('C')
      && this.passing(one) !== null);
    this.ways.push(...offered);
    if (offered.length > 0) this.redraw();
    return bars.map((bar) => element('p', { class: 'fault' }, texts.person.barred(this.name,
      quotedPlaces(found.filter((one) => one.bar === bar).map(({ step }) => step)),
      placeName(bar))));
  }

  sentence() {
    if (this.who === null) return texts.person.chooseWho;
    if (!this.isDay) return texts.person.chooseDay(this.name);
    const having = this.found().filter(({ has }) => has);
    const steps = this.steps();
    const ways = steps.filter(({ isWay }) => isWay);
    const isNothing = having.length > 0 && steps.length === ways.length;
    return [!isNothing
        && texts.person.standInSays(this.person.name, this.name, endWords(this.day.value)),
      ways.length > 0
        && texts.person.onTheWay(this.name, ways.map(({ path }) => placeName(path))),
      having.length > 0 && texts.person.hasAlready(this.name, quotedPlaces(having)),
      isNothing && texts.person.changeThere].filter(Boolean).join(' ');
  }

  fields(redraw) {
    const shown = element('p', { class: 'stands-in' });
    this.redraw = redraw;
    const take = ({ who }) => {
      this.who = who;
      this.ways = [];
      shown.textContent = this.name;
      redraw();
    };
    this.day.addEventListener('change', redraw);
    return [picker(this.state.known, [{ who: this.person.who, isGroup: false }], take,
      { label: texts.person.findStandIn, isOfPeople: true }), shown,
    element('label', { class: 'until' }, texts.access.until, this.day)];
  }
}

// 'lines' are the places with their lines, as takeOut has them.
export async function standIn(state, person, { lines }, again) {
  const chosen = new Chosen(state, person, lines);
  const steps = await askPlaces(state, { title: texts.person.standInTitle(person.name),
    send: texts.access.letThem, sentence: () => chosen.sentence(),
    stepsNow: () => chosen.steps(), moreOf: (said, those) => chosen.barred(said, those),
    beside: (redraw) => chosen.fields(redraw) });
  if (steps === null) return;
  await sendEach(steps, { title: texts.person.standInTitle(person.name),
    told: texts.person.doneSomeOf, done: texts.person.standsIn(person.name, chosen.name,
      endWords(chosen.day.value), steps.filter(({ isWay }) => !isWay).length) })
    .catch(tellFault);
  await again('.one-person > summary');
}
