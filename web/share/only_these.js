// 'Only these people': cuts an object off from the folder above. Whom it is for can be ticked at
// once; then nobody else keeps access.

import { texts } from '../language/language.js';
import { element, nameText } from '../ui/dom.js';
import { tell } from '../ui/messages.js';
import { shortened, whoName } from '../text/who_is.js';
import { cutOff, readLevels, withLevel } from '../acl/levels.js';
import { confirm } from './confirm.js';
import { levelWords } from './access_words.js';
import { isolated } from '../text/words.js';

const MOST_NAMED = 4;

// Those who can be left out: who manages it stays, and who only passes through.
const offered = (rows) => rows.filter(({ inherited, level }) =>
  !inherited && !['manage', 'pass', 'custom'].includes(level));

// The list for those who are ticked, or for all. Null where it can't be said by levels.
const listFor = (list, kind, rows, ticked) => (ticked.size === 0 ? list
  : rows.filter((row) => !ticked.has(row)).reduce((next, row) =>
    next && withLevel(next, kind, row, null, false), list));

// 'change' takes or drops a row, and says whether it could.
function tick({ known, kind }, row, change) {
  const box = element('input', { type: 'checkbox' });
  box.addEventListener('change', () => {
    if (!change(row, box.checked)) box.checked = !box.checked;
  });
  return element('label', { class: 'tick' }, box, nameText(whoName(known, row.who, row.isGroup)),
    element('span', { class: 'hint' }, levelWords(row.level, kind)));
}

// Returns 'sent', 'not sent' or null, as confirm does. 'above' is the name of the folder above.
export function onlyThese(state, above) {
  const { kind, known } = state;
  const list = cutOff(state.list);
  const all = readLevels(list, kind).rows;
  const rows = offered(all);
  const stay = all.filter(({ level, inherited }) => level === 'custom' && !inherited)
    .map(({ who, isGroup }) => isolated(whoName(known, who, isGroup)));
  const ticked = new Set();
  const change = (redraw) => (row, isOn) => {
    const next = new Set(isOn ? [...ticked, row] : [...ticked].filter((one) => one !== row));
    const fits = listFor(list, kind, rows, next) !== null;
    if (!fits) tell('bad', texts.access.notByLevels);
    else if (isOn) ticked.add(row);
    else ticked.delete(row);
    if (fits) redraw();
    return fits;
  };
  return confirm(state, () => listFor(list, kind, rows, ticked), {
    title: texts.access.cutOff, words: texts.access.onlyThese,
    allTheSame: texts.access.onlyTheseAllTheSame,
    sentence: () => texts.access.cutOffSays(kind, above),
    more: (redraw) => (rows.length === 0 ? null : element('fieldset', { class: 'whom' },
      element('legend', {}, texts.access.whomFor),
      rows.map((row) => tick(state, row, change(redraw))),
      stay.length === 0 ? null
        : element('p', { class: 'hint' },
          texts.access.staysAsIs(shortened(stay, MOST_NAMED))))),
  });
}
