// What a new list would bring about, drawn, with a box for each of what is offered beside it.

import { texts } from '../language/language.js';
import { announce } from '../ui/announce.js';
import { element, icon } from '../ui/dom.js';
import {
  MOST_NAMED, hintsOf, lockWords, offersOf, perhapsLines, saidLines, warningsOf,
} from './access_words.js';

const SAID = '.changes > li > div > p, .warnings > li, .outcome > p';
const MARKS = { gain: 'plus', loss: 'dash', same: 'check' };

// All the names, where the line counts some of them only.
const allOf = (names) => (names.length <= MOST_NAMED + 1 ? null : element('details', {},
  element('summary', {}, texts.outcome.all(names.length)),
  element('p', { class: 'hint' }, texts.lists.and(names))));

// The places that the line only counts.
const restOf = (rest) => (rest.length === 0 ? null : element('details', {},
  element('summary', {}, texts.outcome.showAll),
  element('ul', { class: 'changes' }, rest.map(lineShown))));

const lineShown = ({ look, head, words, names, rest = [] }) => element('li', { class: look },
  icon(MARKS[look]), element('div', {},
    element('p', {}, element('b', {}, head), ` ${words}`), allOf(names), restOf(rest)));

export const linesShown = (lines) => element('ul',
  { class: 'changes', 'aria-label': texts.outcome.changes }, lines.map(lineShown));

const perhapsShown = (lines) => (lines.length === 0 ? null : element('details', {},
  element('summary', {}, texts.would.perhaps), linesShown(lines)));

// What somebody ticked or not is kept in 'ticks', since it may be drawn anew.
function tick({ words, isOn, key }, ticks) {
  const box = element('input', { type: 'checkbox', checked: ticks.get(key) ?? isOn });
  box.addEventListener('change', () => ticks.set(key, box.checked));
  return element('label', { class: 'tick way' }, box, element('span', {}, words));
}

function warnings(state, outcome, subject) {
  const all = warningsOf(state, outcome, subject)
    .map(({ kind, text }) => element('li', { class: kind }, text));
  if (outcome.lock) {
    const { title, text } = lockWords(state, outcome.lock);
    all.push(element('li', { class: 'bad lock-out' }, element('b', {}, title), ` ${text}`));
  }
  return all.length === 0 ? null
    : element('ul', { class: 'warnings', 'aria-label': texts.acts.mindThis }, all);
}

// {shown, ways, left}: what is said of it, and what is to be sent before the list and after it.
// 'ticks' are the boxes that somebody ticked or not.
export function tellOutcome(state, outcome, subject = null, ticks = new Map()) {
  const offers = offersOf(state, outcome, subject);
  const taken = (isFirst) => offers.filter((one) => one.isFirst === isFirst
    && (ticks.get(one.key) ?? one.isOn)).flatMap(({ steps }) => steps);
  const shown = element('div', { class: 'outcome' },
    linesShown(saidLines(state, outcome, subject)),
    perhapsShown(perhapsLines(state, outcome)),
    hintsOf(state, outcome).map((words) => element('p', { class: 'hint' }, words)),
    offers.map((one) => tick(one, ticks)), warnings(state, outcome, subject));
  // What lies in another one goes first, so that the other one is still as it was seen.
  const fromBelow = (one, other) => other.path.length - one.path.length;
  return { shown, ways: () => taken(true), left: () => taken(false).sort(fromBelow) };
}

// Reads aloud what is drawn in 'box', where it is another than before. A dialog that opens is read
// by itself.
export function speakOutcome(box) {
  const said = [...box.querySelectorAll(SAID)]
    .filter((one) => one.checkVisibility()).map((one) => one.textContent).join(' ');
  if (said !== '' && said !== box.dataset.spoken) announce('good', said);
  box.dataset.spoken = said;
}
