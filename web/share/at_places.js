// Lists of several places that change together: what comes of those that are ticked is said before,
// and then each is sent, if it is still the one that was judged.

import { printList } from '../acl/entries.js';
import { FOLLOWS, UNNAMED } from '../acl/question.js';
import { texts } from '../language/language.js';
import { Refusal } from '../net/api.js';
import { seeList, setIfSame } from '../net/matched_list.js';
import { foresee } from '../net/would.js';
import { inTurn } from '../folder/batch.js';
import { removalOf } from '../text/removers.js';
import { shortened } from '../text/who_is.js';
import { isolated, sentenceOf } from '../text/words.js';
import { noAnswerWords } from '../text/would_words.js';
import { button, element } from '../ui/dom.js';
import { clearDone, showDialog, tell } from '../ui/messages.js';
import { belowOf, perhapsOf, surely, withChanges } from './consequences.js';
import { speakOutcome, tellOutcome } from './outcome_view.js';
import { objectsRound } from './passage.js';
import { changesAt, changesBelow, ofOwners } from './who_can.js';

const FEW = 6;

// Asks about the folder that is shown and all below it, also about what is in folders that have a
// name and only follow.
export function askedOf(state, changes = []) {
  const { nodes } = belowOf(state);
  const following = nodes.filter(({ kind, text, path }) =>
    kind === 'folder' && text === FOLLOWS && !path.includes(UNNAMED));
  return foresee({ known: state.known, me: state.me, changes,
    objects: objectsRound(state, nodes, following.map(({ path }) => path)) });
}

// What is known of the folder and of what has a name below it: {path, kind, text, list}.
export const placesOf = (state) => [state, ...belowOf(state).nodes].filter(({ list, path }) =>
  list !== null && !path.includes(UNNAMED));

export const quotedPlaces = (steps) =>
  shortened(steps.map(({ path }) => texts.places.quoted(isolated(path))), FEW);

async function sendOne({ path, before, next }) {
  const seen = await seeList('dacl', path);
  if (seen.text !== before || !await setIfSame('dacl', path, printList(next), seen)) {
    throw new Refusal(412, null, { method: 'PUT', word: 'dacl', path });
  }
}

// Sends each from below, since a list further up changes those in it, and tells where that was done
// and where it wasn't. 'words' are {title, told, done}.
export async function sendEach(steps, { title, told, done }) {
  clearDone();
  const order = [...steps].sort((one, other) => other.path.length - one.path.length);
  const found = await inTurn(order, sendOne, { title, told });
  const open = [...found.failed.map((one) => one.object), ...found.left];
  if (open.length === 0) {
    tell('good', done);
    return;
  }
  const sent = order.filter((one) => !open.includes(one));
  const faults = found.failed.map(({ fault, object: { path } }) => (fault.status === 412
    ? texts.person.changedAt(texts.places.quoted(isolated(path))) : sentenceOf(fault)));
  tell('bad', [sent.length > 0 && texts.person.doneAt(quotedPlaces(sent)),
    texts.person.notDoneAt(quotedPlaces(open)), ...new Set(faults)].filter(Boolean).join(' '));
}

// What comes of these lists, as that of one list is told.
async function outcomeAt(state, steps) {
  const said = await askedOf(state, steps.map(({ path, next }) => (
    { set: path, text: printList(next) })));
  const { nodes, unread, all: isAll } = belowOf(state);
  const { path, kind } = state;
  const all = changesAt(said, { path, kind });
  const below = changesBelow(said, nodes, all, path);
  const { gaining: owners, losing: losers } = ofOwners(said, nodes);
  const changes = surely(all);
  const outcome = { changes, isAll, unread, asked: said.asked,
    owners: surely(owners), losers: surely(losers),
    gains: changes.filter(({ more }) => more), losses: changes.filter(({ more }) => !more),
    below: withChanges(below, surely),
    perhaps: perhapsOf(all, below, { owners, losers }),
    removal: removalOf(said, { path, kind }, { nodes, all: isAll, protect: state.list.protect }),
    opening: [], kept: [], apart: [], left: [], back: [], keptFrom: { steps: [], others: [] },
    isKnown: true, isOwnNew: false, hasGroups: false, lock: null };
  return { said, outcome };
}

// What comes of it, in a box that is drawn anew: 'send' waits for it. 'moreOf' makes what stands
// below that by what the program said of which steps.
class Coming {
  /** @param {any} state */
  constructor(state, send, moreOf) {
    this.state = state;
    this.send = send;
    this.moreOf = moreOf;
    this.looks = 0;
    this.shown = element('div', { class: 'told' });
  }

  async draw(steps) {
    this.looks += 1;
    const mine = this.looks;
    this.send.disabled = true;
    const drawn = steps.length === 0 ? { told: [], isKnown: false }
      : await outcomeAt(this.state, steps).then(
        (one) => ({ told: this.toldOf(one, steps), isKnown: true }),
        (fault) => ({ told: this.unanswered(fault, steps), isKnown: false }));
    if (mine !== this.looks) return;
    this.shown.replaceChildren(element('div', { 'aria-busy': 'false', class: 'outcome' },
      drawn.told));
    speakOutcome(this.shown);
    this.send.disabled = !drawn.isKnown;
  }

  toldOf({ said, outcome }, steps) {
    return [tellOutcome(this.state, outcome).shown, ...this.moreOf(said, steps)];
  }

  // It isn't known that nobody loses anything.
  unanswered(fault, steps) {
    return [element('p', { class: 'fault' }, noAnswerWords(fault)),
      button(texts.acts.anew, () => this.draw(steps), { class: 'small' })];
  }
}

// A dialog with a tick for each place. 'stepsNow' says which there are, [{path, before, next,
// words}], and 'sentence' what is said of them; 'moreOf' is as above, and 'beside' makes what
// stands above the places, given what draws all anew. Returns the steps that were ticked, or null.
export function askPlaces(state, { title, send, sentence, stepsNow, moreOf, beside }) {
  const off = new Set();
  const press = button(send, () => {}, { class: 'primary', disabled: true });
  const said = element('p', {});
  const places = element('fieldset', { class: 'whom' });
  const coming = new Coming(state, press, moreOf);
  const ticked = () => stepsNow().filter(({ path }) => !off.has(path));
  const tick = ({ path, words }) => {
    const box = element('input', { type: 'checkbox', checked: !off.has(path) });
    box.addEventListener('change', () => {
      if (box.checked) off.delete(path);
      else off.add(path);
      coming.draw(ticked());
    });
    return element('label', { class: 'tick' }, box, element('span', {}, isolated(path)),
      element('span', { class: 'hint' }, words));
  };
  const redraw = () => {
    said.textContent = sentence();
    places.replaceChildren(element('legend', {}, texts.person.places), ...stepsNow().map(tick));
    places.hidden = stepsNow().length === 0;
    coming.draw(ticked());
  };
  return showDialog(title, (finish) => {
    press.addEventListener('click', () => finish(ticked()));
    const above = beside(redraw);
    redraw();
    return [said, ...above, places, coming.shown, element('div', { class: 'actions' },
      button(texts.acts.cancel, () => finish(null)), press)];
  }, 'sharing');
}
