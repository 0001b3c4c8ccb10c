// What is to be done with a document that is there already, or that isn't any more what was given
// out: 'replace', 'both' or 'leave'.

import * as api from '../net/api.js';
import { texts } from '../language/language.js';
import { element } from '../ui/dom.js';
import { linkTo } from '../ui/links.js';
import { question } from '../ui/messages.js';
import { whoCould } from '../ui/who_changed.js';
import { isolated } from '../text/words.js';

// What can be answered, and how the button looks that replaces it.
const LOOKS = { exists: 'danger', changed: 'danger', gone: 'primary', left: 'danger' };
const answersTo = (why) => [
  ...why === 'gone' || why === 'left' ? []
    : [['both', texts.upload.keepBoth, why === 'changed' ? 'primary' : null]],
  ['replace', texts.upload.taken[why].replace, LOOKS[why]]];

// Beside the question: who could have done it, and what is there now.
async function theirs({ why, who, path }) {
  if (why !== 'changed') return null;
  const link = element('a', { class: 'button small', target: '_blank', rel: 'noopener',
    href: linkTo(path, 'show') }, texts.upload.showTheirs);
  return element('p', { class: 'theirs' }, `${await whoCould(who)} `, link);
}

// Asks about {name, path, why, who}, one after the other. A whole upload of 'count' documents can
// be answered at once.
export function askingInTurn(count) {
  /** @type {Promise<any>} */
  let turn = Promise.resolve();
  const always = new Map();
  const ask = async (one) => {
    const { name, why } = one;
    if (always.has(why)) return always.get(why);
    const { title, text } = texts.upload.taken[why];
    const all = element('input', { type: 'checkbox' });
    const tick = count === 1 ? null
      : element('p', {}, element('label', { class: 'tick' }, all,
        texts.upload.sameForAll));
    const more = element('div', {}, [await theirs(one), tick].filter(Boolean));
    const answer = await question(title, text(isolated(name)), answersTo(why), more) ?? 'leave';
    if (all.checked) always.set(why, answer);
    return answer;
  };
  return (one) => {
    turn = turn.then(() => ask(one));
    return turn;
  };
}

// A path beside one that is taken: 'Draft (2).txt'.
export async function freeBeside(path) {
  const dot = path.lastIndexOf('.');
  const end = dot > path.lastIndexOf('/') + 1 ? dot : path.length;
  for (let number = 2; ; number += 1) {
    const free = `${path.slice(0, end)} (${number})${path.slice(end)}`;
    if (!(await api.isThere(free))) return free;
  }
}
