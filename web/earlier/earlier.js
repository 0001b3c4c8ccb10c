// A folder or a document as it was on an earlier night, beside what is there now.

import * as api from '../net/api.js';
import { actsOf, get, putBack, tellNightFault } from './put_back.js';
import { bothOf, bytesThen, isSameNow, kindNow } from './then.js';
import { button, element, icon, nameText } from '../ui/dom.js';
import { texts } from '../language/language.js';
import { rove } from '../ui/keys.js';
import { linkTo } from '../ui/links.js';
import { notShown, waitFor } from '../ui/messages.js';
import { nightsKept } from '../net/nights.js';
import { marked } from '../text/invisible.js';
import { nightFault, timeOf } from '../text/night_words.js';
import { kindWords, sorted } from '../folder/sorting.js';

const empty = (text) => element('p', { class: 'empty' }, text);

// The nights by day, the newest first.
function choiceOf(path, nights, open) {
  const days = new Map();
  for (const night of nights) {
    const day = texts.earlier.dayOf(timeOf(night));
    days.set(day, [...days.get(day) ?? [], night]);
  }
  const choice = element('select', { 'aria-label': texts.earlier.which, class: 'night' },
    [...days].map(([day, some]) => element('optgroup', { label: day }, some.map((one) =>
      element('option', { value: one.night, selected: one === open },
        texts.earlier.timeOnDay(texts.earlier.timeOf(timeOf(one)), day))))));
  choice.addEventListener('change', () => {
    location.hash = linkTo(path, `earlier=${choice.value}`);
  });
  return choice;
}

function nowWords({ kind, now }) {
  if (kind === null) return texts.earlier.cameLater;
  if (now === undefined) return texts.earlier.unknownNow;
  if (now === null) return texts.earlier.goneNow;
  return now === kind ? texts.earlier.still : texts.earlier.anotherKind;
}

function rowOf(night, folder, row, redraw) {
  const { name, kind, now } = row;
  const path = api.join(folder, name);
  const label = [icon(kind ?? now), nameText(name)];
  const shown = kind === 'folder'
    ? element('a', { class: 'object', href: linkTo(path, `earlier=${night.night}`),
      'data-act': 'open' }, label)
    : element('span', { class: 'object' }, label);
  return element('tr', { 'data-path': path, 'aria-label': marked(name),
    class: kind === null ? 'later' : now === null ? 'gone' : null },
  element('td', { class: 'what' }, shown),
  element('td', { class: 'kind' }, kindWords({ name, kind: kind ?? now })),
  element('td', { class: 'kind now' }, nowWords(row)),
  element('td', { class: 'acts' }, element('div', {},
    kind === null ? [] : actsOf(night, { path, kind, now }, marked(name), redraw))));
}

// As in the folder, but first what it lacks now, and last what came later.
function inOrder(rows) {
  const turn = ({ kind, now }) => (kind === null ? 2 : Number(now !== null));
  return sorted(rows).sort((one, other) => turn(one) - turn(other));
}

async function folderRows(night, path, redraw) {
  const rows = inOrder(await bothOf(night.night, path));
  if (!rows.some(({ kind }) => kind !== null)) return empty(texts.earlier.empty);
  const body = element('tbody', {}, rows.map((row) => rowOf(night, path, row, redraw)));
  const table = element('table', { class: 'folder then', role: 'grid' },
    element('caption', { class: 'unseen' }, texts.earlier.caption),
    element('thead', {}, element('tr', {}, texts.earlier.headings.map((heading) =>
      element('th', { scope: 'col' }, heading)))), body);
  rove(body);
  return table;
}

async function documentShown(night, path, redraw) {
  const then = await bytesThen(night.night, path);
  const same = await isSameNow(then, path);
  const now = same === null ? null : 'document';
  const said = { true: texts.earlier.same, false: texts.earlier.changed, null: texts.earlier.gone };
  return element('div', { class: 'padded' }, element('p', { class: 'compared' },
    said[String(same)] ?? texts.earlier.unknown),
    element('div', { class: 'actions' },
      actsOf(night, { path, kind: 'document', now }, marked(api.nameOf(path)), redraw)));
}

class EarlierView {
  constructor(path, word, box, isCurrent) {
    this.path = path;
    this.word = word;
    this.box = box;
    this.isCurrent = isCurrent;
    this.body = element('div', { class: 'sheet' });
    this.all = element('div', { class: 'actions' });
    this.choice = element('span');
  }

  frame() {
    const { path } = this;
    const name = path === '/' ? texts.places.all : nameText(api.nameOf(path));
    this.box.replaceChildren(element('section',
      { class: 'folder-view', 'aria-label': texts.earlier.earlier },
      element('div', { class: 'bar' },
        element('h1', {}, element('span', {}, texts.earlier.titleOf(name))),
        element('div', { class: 'actions' }, this.all,
          element('a', { class: 'button', href: linkTo(path) }, texts.earlier.backToNow))),
      element('div', { class: 'tools' }, this.choice),
      element('p', { class: 'hint then-hint' }, texts.earlier.hint), this.body));
  }

  // A whole folder at once.
  wholeFolder(night) {
    const whole = { path: this.path, kind: 'folder' };
    const back = async () => {
      const now = await waitFor(kindNow(this.path));
      if (await putBack(night, { ...whole, now }, true)) await this.fill(night, this.path);
    };
    this.all.replaceChildren(
      button(texts.earlier.getAll, () => get(night, whole).catch(tellNightFault)),
      button(texts.earlier.putBackMissing, () => back().catch(tellNightFault),
        { class: 'primary' }));
  }

  // The button by which something was put back has the focus again, once it is drawn anew.
  focusAt(path) {
    const row = [...this.body.querySelectorAll('tr')].find((one) => one.dataset.path === path);
    const whole = path === this.path ? this.all.querySelector('.primary') : null;
    (whole ?? (row ?? this.body).querySelector('[data-act=back]'))?.focus();
  }

  // 'path' is what was put back, if anything was.
  async fill(night, path = null) {
    const redraw = (back) => this.fill(night, back);
    try {
      const shown = await waitFor(folderRows(night, this.path, redraw).catch((fault) => {
        if (fault.body?.why !== 'wrong-kind') throw fault;
        return null;
      }));
      if (!this.isCurrent()) return;
      if (shown) this.wholeFolder(night);
      this.body.replaceChildren(shown
        ?? await waitFor(documentShown(night, this.path, redraw)));
      if (path !== null) this.focusAt(path);
    } catch (fault) {
      if (!this.isCurrent()) return;
      this.body.replaceChildren(notShown(nightFault(fault) ?? texts.earlier.notShown,
        () => redraw(null)));
      if (nightFault(fault) === null) tellNightFault(fault);
    }
  }

  async show() {
    this.frame();
    const { nights } = await waitFor(nightsKept());
    if (!this.isCurrent()) return;
    const open = nights.find(({ night }) => night === this.word) ?? nights[0];
    if (open) {
      this.choice.replaceChildren(choiceOf(this.path, nights, open));
      await this.fill(open);
    } else this.body.replaceChildren(empty(texts.earlier.noNights));
  }
}

// Shows it in 'box', as long as 'isCurrent()'. 'night' is the one that the address names, or null.
export async function showEarlier(path, night, box, isCurrent) {
  const view = new EarlierView(path, night, box, isCurrent);
  await view.show().catch((fault) => {
    if (!isCurrent()) return;
    view.body.replaceChildren(notShown(nightFault(fault) ?? texts.earlier.notShown,
      () => showEarlier(path, night, box, isCurrent)));
    if (nightFault(fault) === null) tellNightFault(fault);
  });
}
