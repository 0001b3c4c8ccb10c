// Names further down that contain what was typed, from the open folder on: the door looks for them.

import * as api from '../net/api.js';
import { announce } from '../ui/announce.js';
import { button, element, icon, nameText } from '../ui/dom.js';
import { texts } from '../language/language.js';
import { findAll } from './given.js';
import { showInTexts } from './in_texts.js';
import { linkTo } from '../ui/links.js';
import { focusLeft, keep, kept } from '../ui/returning.js';
import { tellFault, waitFor } from '../ui/messages.js';
import { shortened } from '../text/who_is.js';
import { marked } from '../text/invisible.js';
import { isolated } from '../text/words.js';

const LONGEST = 255;
const MOST_UNSEEN = 3;

function line({ path, kind }, top) {
  const folder = api.parentOf(path);
  return element('li', {},
    element('a', { class: 'object', href: linkTo(path, kind === 'folder' ? null : 'show') },
      icon(kind), nameText(api.nameOf(path))),
    folder === top ? null : element('a', { class: 'hint', href: linkTo(folder) },
      texts.folder.within(folder === '/' ? texts.places.all : marked(folder))));
}

// The arrow keys go from one to the next, through both lists; up from the first leads back to the
// field.
function goThrough(list, field) {
  list.addEventListener('keydown', (event) => {
    const step = { ArrowDown: 1, ArrowUp: -1 }[event.key];
    const links = [...list.querySelectorAll('a.object')];
    const at = links.indexOf(event.target.closest('li')?.querySelector('a.object'));
    const next = step === undefined ? undefined : links[at + step];
    if (event.key === 'Escape' || (step === -1 && at === 0)) field.focus();
    else next?.focus();
    if (event.key === 'Escape' || step !== undefined) event.preventDefault();
  });
}

function toldOf({ found }, text, isBusy) {
  if (isBusy) return texts.find.busy;
  return found.length === 0 ? texts.find.none : texts.find.found(found.length, isolated(text));
}

function shown({ found, all, unlisted }, { text, top, field, isBusy, below }, back) {
  const list = element('ul', { class: 'places found', 'aria-label': texts.find.find },
    found.map((one) => line(one, top)));
  const hidden = unlisted.map((path) => texts.places.quoted(isolated(path)));
  const made = element('div', { class: 'found-of' },
    element('div', { class: 'bar' }, element('p', {}, toldOf({ found }, text, isBusy)),
      button(texts.page.backToFolder, back, { class: 'small' })), list,
    isBusy || all ? null : element('p', { class: 'hint' }, texts.find.more),
    hidden.length === 0 ? null
      : element('p', { class: 'hint' }, texts.find.unseen(shortened(hidden, MOST_UNSEEN))),
    below);
  goThrough(made, field);
  return made;
}

// A search from the folder 'top' on: what was typed in 'field' is looked for, and shown in 'place'.
class Finder {
  constructor(top, field, { place, here, redraw, searches }) {
    this.top = top;
    this.field = field;
    this.place = place;
    this.here = here;
    this.redraw = redraw;
    this.searches = searches;
    this.looks = 0;
    this.isNew = true;
    this.press = button(texts.find.find, () => this.start(), { class: 'small find' });
  }

  back() {
    this.field.value = '';
    this.field.dispatchEvent(new Event('input'));
    this.field.focus();
  }

  // Whoever comes back here, as from what was found, or loads the page again, finds it again.
  again() {
    const text = this.isNew ? kept().find ?? null : null;
    this.isNew = false;
    if (text === null || this.field.value !== '') return;
    this.field.value = text;
    this.field.dispatchEvent(new Event('input'));
    this.start();
  }

  start() {
    const { length } = new TextEncoder().encode(this.field.value.trim());
    this.field.setCustomValidity(length > LONGEST ? texts.find.tooLong : '');
    if (length === 0) this.field.focus();
    else if (this.field.reportValidity()) {
      this.find(this.field.value.trim()).catch((fault) => tellFault(fault, () => this.start()));
    }
  }

  // What fits in the open folder is there at once, all else comes later: names, and then documents
  // by their texts, where these are searched.
  async find(text) {
    this.looks += 1;
    const look = this.looks;
    keep({ find: text });
    const isWanted = () => look === this.looks && this.place.isConnected;
    const below = this.searches() ? element('div', { class: 'found-in-texts' }) : null;
    const draw = (told, isBusy) => {
      this.place.replaceChildren(
        shown(told, { text, top: this.top, field: this.field, isBusy, below }, () => this.back()));
      announce('good', toldOf(told, text, isBusy));
    };
    draw({ found: this.here(), all: false, unlisted: [] }, true);
    if (below) showInTexts(below, this.top, text, isWanted);
    try {
      const told = await waitFor(findAll(this.top, text));
      if (!isWanted()) return;
      draw(told, false);
      focusLeft(this.place);
    } catch (fault) {
      if (isWanted()) this.redraw();
      throw fault;
    }
  }

  take(event) {
    if (event.key === 'Enter') this.start();
    else if (event.key === 'ArrowDown') this.place.querySelector('.found a.object')?.focus();
    else if (event.key === 'Escape' && this.field.value !== '') this.back();
    else return;
    event.preventDefault();
  }
}

// The finder of a folder, whose button 'press' stands beside the field. 'place' is where the rows
// are; 'here' has the objects of the open folder that fit, 'redraw' shows the rows again, and
// 'searches' says whether texts are searched.
export function finder(top, field, shownBy) {
  const made = new Finder(top, field, shownBy);
  field.addEventListener('input', () => {
    made.looks += 1;
    if (kept().find) keep({ find: null });
  });
  field.addEventListener('keydown', (event) => made.take(event));
  return made;
}
