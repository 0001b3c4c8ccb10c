// Takes somebody out of a folder and of all places below it that I may change.

import { withoutLinesOf } from '../acl/lines_of.js';
import { AFTER } from '../acl/answer.js';
import { texts } from '../language/language.js';
import { element } from '../ui/dom.js';
import { tellFault } from '../ui/messages.js';
import { askPlaces, placesOf, quotedPlaces, sendEach } from './at_places.js';
import { linesShown } from './outcome_view.js';
import { callerOf, extentsAt, wordsAt } from './extents.js';

// What they can still do then: by a group, by lines that stay, or because it is theirs.
function keptShown(said, state, { who, name }) {
  const kept = extentsAt(said, placesOf(state), callerOf(said, who), AFTER)
    .filter(({ level }) => level !== 'none' && level !== 'pass');
  return kept.length === 0 ? [] : [linesShown(kept.map((one) => (
    { look: 'loss', head: texts.outcome.heads.keeps, names: [name],
      words: texts.outcome.line([name], wordsAt(one)) })))];
}

// 'lines' are the places with their lines, {path, kind, list, text, words}, and 'others' those that
// I may not change. 'again' draws the panel anew.
export async function takeOut(state, person, { lines, others }, again) {
  const { name } = person;
  const steps = lines.map(({ path, kind, list, text, words }) => (
    { path, words, before: text, next: withoutLinesOf(list, kind, person.who) }));
  const hint = others.length === 0 ? []
    : [element('p', { class: 'hint' }, texts.person.notMine(name, quotedPlaces(others)))];
  const chosen = await askPlaces(state, { title: texts.person.takeOutTitle(name),
    send: texts.person.takeThemOut, sentence: () => texts.person.takeOutSays(name),
    stepsNow: () => steps, moreOf: (said) => keptShown(said, state, person), beside: () => hint });
  if (chosen === null) return;
  await sendEach(chosen, { title: texts.person.takingOut(name), told: texts.person.doneSomeOf,
    done: texts.person.tookOut(name, chosen.length) }).catch(tellFault);
  await again('.one-person > summary');
}
