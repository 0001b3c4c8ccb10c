// A list as a table: own entries with their controls, inherited ones below as words.

import { button, element, icon } from '../ui/dom.js';
import { controls, words } from './entry_controls.js';
import { isInherited, newEntry } from '../acl/entries.js';
import { texts } from '../language/language.js';
import { faultWords } from '../text/words.js';

const cell = ([heading, content]) => element('td', { 'data-heading': heading }, content);

function moves(draft, place, redraw) {
  const own = draft.ownPlaces();
  const number = place + 1;
  const shift = (step, word) => {
    const now = draft.shift(place, step);
    redraw((body) => body.querySelector(`[data-place="${now}"] .${word}`));
  };
  const drop = () => {
    draft.drop(place);
    const next = Math.min(place, draft.ownPlaces().at(-1) ?? -1);
    redraw((body, add) => body.querySelector(`[data-place="${next}"] .drop`) ?? add);
  };
  return element('td', { class: 'moves', 'data-heading': texts.advanced.order }, element('div', {},
    button(icon('up'), () => shift(-1, 'up'), {
      class: 'plain up', 'aria-label': texts.advanced.moveUp(number),
      'aria-disabled': String(place === own[0]),
    }),
    button(icon('down'), () => shift(1, 'down'), {
      class: 'plain down', 'aria-label': texts.advanced.moveDown(number),
      'aria-disabled': String(place === own.at(-1)),
    }),
    button(icon('cross'), drop,
      { class: 'plain drop', 'aria-label': texts.advanced.removeEntry(number) })));
}

function ownRow(draft, place, redraw) {
  const entry = draft.list.entries[place];
  const shown = draft.mayChange
    ? controls(entry, draft, () => draft.listChanged()) : words(entry, draft);
  return element('tr', { 'data-place': String(place) },
    element('th', { scope: 'row', class: 'number' }, String(place + 1)), shown.map(cell),
    draft.mayChange ? moves(draft, place, redraw) : null);
}

function inheritedRow(draft, entry) {
  return element('tr', { class: 'inherited' },
    element('th', { scope: 'row', class: 'number' }, String(draft.list.entries.indexOf(entry) + 1)),
    words(entry, draft).map(cell),
    draft.mayChange
      ? element('td', { class: 'moves' },
        element('span', { class: 'hint' }, texts.advanced.fromAbove)) : null);
}

function faultRow(draft, columns) {
  const said = texts.advanced.faultAt(draft.faultPlace() + 1, faultWords(draft.fault.code));
  return element('tr', { class: 'fault' },
    element('td', { colspan: String(columns) }, said));
}

function flagBox(draft, name, label, hint, redraw) {
  const box = element('input',
    { type: 'checkbox', checked: draft.list[name], disabled: !draft.mayChange });
  box.addEventListener('change', () => {
    draft.list[name] = box.checked;
    draft.listChanged();
    redraw((body) => body.querySelector(`.flag-${name} input`));
  });
  return element('div', { class: `flag flag-${name}` },
    element('label', { class: 'tick' }, box, label), element('p', { class: 'hint' }, hint));
}

function flags(draft, redraw) {
  const kept = draft.list.protect && draft.mayChange && draft.inherited().length > 0;
  return element('div', { class: 'flags' },
    draft.kind === 'folder' ? flagBox(draft, 'auto', texts.advanced.passOn,
      texts.advanced.passOnHint, redraw) : null,
    draft.path === '/' ? null : flagBox(draft, 'protect', texts.advanced.protect,
      texts.advanced.protectHint, redraw),
    kept ? button(texts.advanced.dropGrey, () => {
      draft.dropInherited();
      redraw((body) => body.querySelector('.flag-protect input'));
    }, { class: 'small' }) : null);
}

// The columns: the name that its width goes by, and its heading.
function columnsOf(draft) {
  const order = element('span', { class: 'unseen' }, texts.advanced.orderAndRemoval);
  return [['number', texts.advanced.number], ['type', texts.advanced.type],
    ['who', texts.advanced.who],
    draft.which === 'sacl' ? ['outcome', texts.advanced.records] : null,
    ['rights', texts.advanced.rights],
    draft.kind === 'folder' ? ['reach', texts.advanced.reach] : null,
    draft.mayChange ? ['order', order] : null].filter((column) => column !== null);
}

function rows(draft, columns, redraw) {
  const made = [];
  draft.list.entries.forEach((entry, place) => {
    if (isInherited(entry)) return;
    made.push(ownRow(draft, place, redraw));
    if (draft.faultPlace() === place) made.push(faultRow(draft, columns));
  });
  return [...made, ...draft.inherited().map((entry) => inheritedRow(draft, entry))];
}

// Draws the table into 'body'. 'focusOn' picks what then has the focus.
export function drawTable(draft, body, focusOn = null) {
  if (!draft.list) {
    body.replaceChildren(element('p', { class: 'empty' },
      texts.advanced.unread(draft.fault.line, faultWords(draft.fault.code))));
    return;
  }
  const redraw = (pick) => drawTable(draft, body, pick);
  const columns = columnsOf(draft);
  const add = button([icon('plus'), texts.advanced.add], () => {
    const place = draft.add(newEntry(draft.which, draft.kind));
    redraw(() => body.querySelector(`[data-place="${place}"] .who input`));
  }, { class: 'add' });
  const content = draft.list.entries.length === 0
    ? element('p', { class: 'empty' }, texts.advanced.empty)
    : element('table', { class: `entries ${draft.which}` },
      element('caption', { class: 'unseen' }, texts.advanced.caption),
      element('colgroup', {}, columns.map(([name]) => element('col', { class: `col-${name}` }))),
      element('thead', {}, element('tr', {},
        columns.map(([, heading]) => element('th', { scope: 'col' }, heading)))),
      element('tbody', {}, rows(draft, columns.length, redraw)));
  body.replaceChildren(flags(draft, redraw), content, ...(draft.mayChange ? [add] : []));
  focusOn?.(body, add)?.focus();
}
