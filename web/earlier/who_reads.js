// Who may read what comes back, where more people could than on that night.

import { texts } from '../language/language.js';
import { element, freshId } from '../ui/dom.js';
import { shortened } from '../text/who_is.js';
import { readersThen } from './readers_then.js';

const MOST_NAMED = 4;

// What has to be minded before something comes back as its folder is: {sure, perhaps}, sentences.
export function opensWords({ gained, perhaps, unknown }) {
  const say = (those, words) => [...new Set(those.map(({ count }) => count))].map((many) =>
    words(shortened(those.filter(({ count }) => count === many).map(({ name }) => name),
      MOST_NAMED), many));
  const gaining = (isSure) => say(gained.filter(({ isPerhaps }) => isPerhaps !== isSure),
    texts.earlier.opens);
  return { perhaps: [...gaining(false), ...say(perhaps, texts.earlier.opensByOwners)],
    sure: [...gaining(true),
      ...unknown > 0 ? [texts.earlier.perhapsOpens(unknown)] : []] };
}

// The choices: {box, chosen}. 'isOffered' says that I may change lists there; without that there is
// none, and what comes back follows its folder. 'all' is what opensBy read.
export async function whoReads(all, isOffered) {
  if (!isOffered) return { box: null, chosen: () => 'now' };
  const { readers, removers } = await readersThen(all);
  const choices = [['alone', texts.earlier.alone],
    ...readers !== null && readers.length > 0
      ? [['then', texts.earlier.peopleThen(shortened(readers, MOST_NAMED))]] : [],
    ['now', texts.earlier.peopleNow]];
  const group = freshId('readers');
  const boxes = choices.map(([value], at) => element('input',
    { type: 'radio', name: group, value, checked: at === 0 }));
  const box = element('fieldset', { class: 'whom' },
    element('legend', {}, texts.earlier.whoReads), choices.map(([, words], at) =>
      element('label', { class: 'tick' }, boxes[at], words)),
    removers.length === 0 ? null : element('p', { class: 'hint' },
      texts.earlier.removable(shortened(removers, MOST_NAMED))));
  return { box, chosen: () => boxes.find(({ checked }) => checked).value };
}
