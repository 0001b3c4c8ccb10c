// The rows of a folder: its contents with what can be done with each, sorted, filtered and
// selected.

import * as api from '../net/api.js';
import { button, element, icon, nameText } from '../ui/dom.js';
import { texts } from '../language/language.js';
import { rove } from '../ui/keys.js';
import { linkTo } from '../ui/links.js';
import { menuButton } from '../ui/menu.js';
import { hasNights } from '../net/nights.js';
import { markClosed } from './closed_rows.js';
import { columnsOf, headingOf, knownCells, knownLine } from './known.js';
import { editingOf } from './editing.js';
import { isPdf } from './preview.js';
import { marked } from '../text/invisible.js';
import { filtered, isFalling, kindWords, sorted } from './sorting.js';

// What is shown of a folder, and how. 'chosen' has names, and 'closed' those of what I can't open;
// 'known' has by name what is told of it, 'shows' how much of that, and 'people' who they are.
export const newLook = () => ({ children: [], by: 'name', down: false, filter: '',
  chosen: new Set(), closed: new Set(), known: new Map(), shows: null, people: null });

export const shownOf = (look) =>
  sorted(filtered(look.children, look.filter), look.by, look.down, look);

// What is chosen and shown. What the filter hides is never moved or removed with the rest.
export const chosenOf = (look) => shownOf(look).filter(({ name }) => look.chosen.has(name));

function nameOf(child, path, acts) {
  const label = [icon(child.kind), nameText(child.name)];
  if (child.kind === 'folder') {
    return element('a', { class: 'object', href: linkTo(path), 'data-act': 'open' }, label);
  }
  const [title, does] = isPdf(child.name) ? [texts.folder.open, () => acts.open(child)]
    : [texts.acts.download, () => acts.download([child])];
  return button(label, does, { class: 'object', title, 'data-act': 'open' });
}

// A box is pressed beside itself too.
const pressedAround = (box) => element('label', { class: 'around' }, box);

function pickBox(child, look, changed) {
  const box = element('input', {
    type: 'checkbox', 'aria-label': texts.folder.select(marked(child.name)),
    checked: look.chosen.has(child.name), 'data-act': 'pick',
  });
  box.addEventListener('change', () => {
    if (box.checked) look.chosen.add(child.name);
    else look.chosen.delete(child.name);
    box.closest('tr').setAttribute('aria-selected', String(box.checked));
    changed();
  });
  return box;
}

// What can be done with an object, by its menu.
function entriesOf(child, path, acts) {
  const preview = { words: texts.folder.preview, does: () => acts.preview(child) };
  return [
    ...(child.kind === 'folder' ? [] : [preview]),
    ...editingOf(child, path),
    { words: texts.acts.download, does: () => acts.download([child]) },
    ...(child.kind === 'folder' ? []
      : [{ words: texts.folder.newVersion, does: () => acts.replace(child) }]),
    { words: texts.folder.renameOrMove, does: () => acts.move(child) },
    { words: texts.acts.copyLink, does: () => acts.copy(child) },
    ...(hasNights() ? [{ words: texts.earlier.earlier, href: linkTo(path, 'earlier') }] : []),
    { words: texts.folder.access, href: linkTo(path, 'access') },
    { words: texts.acts.remove, does: () => acts.remove([child]), look: 'remove' },
  ];
}

function actsOf(child, path, acts) {
  return [
    element('a', {
      class: 'small button plain access', href: linkTo(path, 'access'), 'data-act': 'access',
      title: texts.folder.access, 'aria-label': texts.folder.accessOf(marked(child.name)),
    }, icon('key')),
    menuButton(texts.folder.actionsOf(marked(child.name)), () => entriesOf(child, path, acts), {
      class: 'small plain', title: texts.folder.actions, 'data-act': 'menu',
    }),
  ];
}

function row(child, folder, look, acts, changed) {
  const path = api.join(folder, child.name);
  const known = look.known.get(child.name);
  const made = element('tr', { 'data-kind': child.kind, 'data-path': path,
    'aria-label': marked(child.name), 'aria-selected': String(look.chosen.has(child.name)) },
    element('td', { class: 'pick' }, pressedAround(pickBox(child, look, changed))),
    element('td', { class: 'what' }, nameOf(child, path, acts), knownLine(known, look)),
    look.shows === null ? element('td', { class: 'kind' }, kindWords(child)) : [],
    knownCells(known, look),
    element('td', { class: 'acts' }, actsOf(child, path, acts)));
  if (look.closed.has(child.name)) markClosed(made);
  return made;
}

function heading(by, words, look, redraw) {
  const isIt = look.by === by;
  const direction = isFalling(by, isIt && look.down) ? 'descending' : 'ascending';
  const sort = button([words, icon(direction === 'descending' ? 'down' : 'up')], () => {
    Object.assign(look, { by, down: isIt && !look.down });
    redraw((table) => table.querySelector(`[data-sort="${by}"]`));
  }, { class: 'plain sort', 'data-sort': by });
  return element('th', { scope: 'col', 'data-by': by, 'aria-sort': isIt ? direction : 'none' },
    sort);
}

// By what the rows can be sorted: where nothing is known of changes, by kind.
function headings(look, redraw) {
  const others = look.shows === null ? [['kind', texts.folder.kind]]
    : columnsOf(look.shows).map((by) => [by, headingOf(by)]);
  return [['name', texts.acts.name], ...others]
    .map(([by, words]) => heading(by, words, look, redraw));
}

function pickAll(look, redraw) {
  const shown = shownOf(look);
  const count = chosenOf(look).length;
  const box = element('input', {
    type: 'checkbox', 'aria-label': texts.folder.selectAll,
    checked: count > 0 && count === shown.length,
  });
  box.indeterminate = count > 0 && count < shown.length;
  box.addEventListener('change', () => {
    look.chosen = new Set(box.checked ? shown.map(({ name }) => name) : []);
    redraw((table) => table.querySelector('thead input'));
  });
  return box;
}

// So many rows are drawn, and as many again when somebody comes near the last one: so the end of a
// long folder is a few jumps away.
const PORTION = 200;

function growing(shown, rowOf, wanted) {
  const rows = element('tbody');
  const growTo = (count) =>
    rows.append(...shown.slice(rows.childElementCount, count).map(rowOf));
  const at = shown.findIndex(({ name }) => name === wanted?.name);
  growTo(Math.max(at, wanted?.index ?? 0) + PORTION);
  const end = element('div');
  new IntersectionObserver(([{ isIntersecting }]) => {
    if (isIntersecting) growTo(2 * rows.childElementCount);
  }, { rootMargin: '2000px' }).observe(end);
  return { rows, end, growTo };
}

// Draws the rows into 'body'. 'acts' does what is asked for, and 'onChosen' is called when the
// selection changed. 'focusOn' picks what then has the focus, in the row that is 'wanted'.
export function drawRows(body, folder, look, acts, onChosen, focusOn = null, wanted = null) {
  const redraw = (pick) => drawRows(body, folder, look, acts, onChosen, pick);
  const shown = shownOf(look);
  if (shown.length === 0) {
    body.replaceChildren(element('p', { class: 'empty' }, look.children.length > 0
      ? texts.folder.nothingFits : [texts.folder.empty,
        element('span', { class: 'desk' }, ` ${texts.folder.addHere}`),
        element('span', { class: 'phone' }, ` ${texts.folder.addByThumb}`)]));
    onChosen();
    return;
  }
  const all = element('th', { class: 'pick', scope: 'col' }, pressedAround(pickAll(look, redraw)));
  const changed = () => {
    all.replaceChildren(pressedAround(pickAll(look, redraw)));
    onChosen();
  };
  const { rows, end, growTo } = growing(shown,
    (child) => row(child, folder, look, acts, changed), wanted);
  const table = element('table', { class: 'folder', role: 'grid', 'aria-multiselectable': 'true' },
    element('caption', { class: 'unseen' }, texts.folder.caption),
    element('thead', {}, element('tr', {}, all, headings(look, redraw),
      element('th', { scope: 'col' },
        element('span', { class: 'unseen' }, texts.folder.whatCanBeDone)))), rows);
  body.replaceChildren(table, end);
  const ofRow = (does) => ({ rowIndex }) => does(shown[rowIndex - 1]);
  // The key means what is ticked, if anything is.
  const remove = (child) => {
    const chosen = chosenOf(look);
    acts.remove(chosen.length > 0 ? chosen : [child]);
  };
  // A single sign means something only while the focus is in the rows: who speaks to the machine
  // sets off nothing elsewhere.
  rove(rows, { F2: ofRow(acts.move), Delete: ofRow(remove), End: () => growTo(shown.length),
    '/': acts.find });
  onChosen();
  focusOn?.(table)?.focus();
}
