// Documents further down in whose texts the words stand that were typed, below the names that have
// them. What stands in a text is set as text, also where it is marked.

import * as api from '../net/api.js';
import { announce } from '../ui/announce.js';
import { button, element, icon, nameText } from '../ui/dom.js';
import { texts } from '../language/language.js';
import { MOST_SHOWN, searchAll } from './given.js';
import { searchBelow } from '../net/door.js';
import { linkTo } from '../ui/links.js';
import { focusLeft } from '../ui/returning.js';
import { tellFault, waitFor } from '../ui/messages.js';
import { momentWords } from '../text/moments.js';
import { marked } from '../text/invisible.js';
import { sentenceOf } from '../text/words.js';

const SHORTEST = 2;
const isLong = (word) => [...word].length >= SHORTEST;
// What the door refuses to look for.
const isSearched = (text) => text.split(/[\s"]+/).some(isLong);

// A part of a text with a word in it: {before, word, after}.
const snippet = ([before, word, after]) => element('p', { class: 'snippet', dir: 'auto' },
  before, element('mark', {}, word), after);

// The place is told of the first documents alone; of another one it is asked for by a press.
function placeLater(path, words) {
  const show = async () => {
    const { found } = await waitFor(searchBelow(path, words));
    press.replaceWith(...found.slice(0, 1).map(({ text }) => text && snippet(text))
      .filter(Boolean));
  };
  const press = button(texts.search.where, () => show().catch(tellFault),
    { class: 'small plain where' });
  return press;
}

const hit = ({ path, count, text }, top, words) => element('li', {},
  element('div', {},
    element('a', { class: 'object', href: linkTo(path, 'show') }, icon('document'),
      nameText(api.nameOf(path))),
    element('span', { class: 'hint' }, texts.search.times(count))),
  text === null ? placeLater(path, words) : snippet(text),
  api.parentOf(path) === top ? null : element('a', { class: 'hint', href: linkTo(
    api.parentOf(path)) }, texts.folder.within(
    api.parentOf(path) === '/' ? texts.places.all : marked(api.parentOf(path)))));

const hint = (words) => element('p', { class: 'hint' }, words);
// That none has the words is so of those that were looked through.
function toldOf({ found, all, unread }) {
  if (found.length > 0) return texts.search.found(found.length);
  return all && unread === 0 ? texts.search.none : texts.search.noneSoFar;
}

const restOf = ({ found }) => (found.length < MOST_SHOWN ? texts.search.notAll : texts.search.more);

const shown = (told, top, words) => [
  element('h2', {}, texts.search.texts(momentWords(told.night))),
  element('p', {}, toldOf(told)),
  element('ul', { class: 'places found in-texts' }, told.found.map((one) => hit(one, top, words))),
  told.all ? null : hint(restOf(told)),
  told.unread > 0 ? hint(texts.search.unread(told.unread)) : null,
  told.without > 0 ? hint(texts.search.without(told.without)) : null,
  hint(texts.search.rule)];

function notNow(fault, again) {
  const why = fault.body?.why === 'no-texts' ? '' : ` ${sentenceOf(fault)}`;
  return [hint(texts.search.notNow + why), button(texts.acts.anew, again, { class: 'small' })];
}

// Looks below the folder 'top', and shows in 'box' what is found, as long as 'isWanted()'.
export async function showInTexts(box, top, text, isWanted) {
  const draw = (children) => box.replaceChildren(...children.filter((one) => one !== null));
  if (!isSearched(text)) return draw([hint(texts.search.short)]);
  draw([hint(texts.search.busy)]);
  announce('good', texts.search.busy);
  try {
    const told = await waitFor(searchAll(top, text));
    if (!isWanted()) return null;
    draw(shown(told, top, text));
    focusLeft(box);
    announce('good', toldOf(told));
  } catch (fault) {
    if (!isWanted()) return null;
    draw(notNow(fault, () => showInTexts(box, top, text, isWanted)));
    announce('bad', texts.search.notNow);
  }
  return null;
}
