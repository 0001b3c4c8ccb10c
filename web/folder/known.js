// What is known of each object of a folder beside its name: when it changed, by whom, how large it
// is. A room may tell nothing of it, or not by whom.

import { element, nameText } from '../ui/dom.js';
import { texts } from '../language/language.js';
import { fullName } from '../net/directory.js';
import { exactWords, momentWords, sizeWords } from '../text/moments.js';

const COLUMNS = { when: ['when', 'size'], who: ['when', 'who', 'size'] };
export const columnsOf = (shows) => COLUMNS[shows] ?? [];
// A class of their cells, which no other part of the page has.
const LOOKS = { when: 'when', who: 'changer', size: 'size' };
const HEADINGS = { when: texts.moments.when, who: texts.moments.who, size: texts.moments.size };
export const headingOf = (by) => HEADINGS[by];

const moment = (seconds, words) => element('time', {
  datetime: new Date(seconds * 1000).toISOString(), title: exactWords(seconds),
}, words);

const SHOWN = {
  when: ({ when, before }) => {
    if (when !== undefined) return moment(when, momentWords(when));
    return before === undefined ? null
      : moment(before, texts.moments.before(momentWords(before)));
  },
  who: ({ who }, people) => (who === undefined ? null
    : element('span', { title: who }, nameText(fullName(people, who)))),
  size: ({ size }) => (size === undefined ? null : element('span', {}, sizeWords(size))),
};

// What stands in the cells of one object. 'one' is what is known of it, or undefined.
export const knownCells = (one, { shows, people }) => columnsOf(shows).map((by) =>
  element('td', { class: LOOKS[by] }, one ? SHOWN[by](one, people) : null));

// The same as a small screen has it, below the name.
export function knownLine(one, { shows, people }) {
  const parts = one ? columnsOf(shows).map((by) => SHOWN[by](one, people))
    .filter((part) => part !== null) : [];
  return element('span', { class: 'below-name' },
    parts.flatMap((part, at) => (at === 0 ? [part] : [' · ', part])));
}

// Those of the rows that are drawn by now.
export function fillRows(body, look, nameOf) {
  for (const row of body.querySelectorAll('tr[data-path]')) {
    const one = look.known.get(nameOf(row.dataset.path));
    for (const cell of knownCells(one, look)) {
      row.querySelector(`td.${cell.className}`)?.replaceWith(cell);
    }
    row.querySelector('.below-name')?.replaceWith(knownLine(one, look));
  }
}
