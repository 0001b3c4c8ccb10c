// A folder: its contents, and what can be done with them.

import * as acts from './actions.js';
import * as api from '../net/api.js';
import { closedFolder, placesBelow } from './no_listing.js';
import { announce } from '../ui/announce.js';
import { button, element } from '../ui/dom.js';
import { acceptDrops } from './drop.js';
import { texts } from '../language/language.js';
import { linkTo } from '../ui/links.js';
import { notShown, tellFault, waitFor } from '../ui/messages.js';
import { kept } from '../ui/returning.js';
import { isWorking } from '../ui/working.js';
import { arrived, people } from '../net/directory.js';
import { detailsIn } from '../net/door.js';
import { knowNights } from '../net/nights.js';
import { ASKED } from '../net/sent_first.js';
import { learnEditing } from './editing.js';
import { finder } from './find.js';
import { markAllClosed } from './closed_rows.js';
import { chooseFile, folderBar } from './folder_bar.js';
import { columnsOf, fillRows } from './known.js';
import { removeObjects } from './removal.js';
import { chosenOf, drawRows, newLook, shownOf } from './rows.js';
import { tagSeen } from './safe_put.js';
import { replaceBy, uploadAll } from './upload.js';
import { isolated } from '../text/words.js';

// In milliseconds.
const A_MOMENT = 700;

// Whoever doesn't see the rows hears how many are left, once nothing more is typed.
function sayFiltered(look, filter) {
  const text = filter.value.trim();
  // What was found further down is said by itself.
  if (text === '' || !filter.isConnected || kept().find) return;
  const { length } = shownOf(look);
  announce('good', length === 0 ? texts.folder.nothingFits
    : texts.find.found(length, isolated(text)));
}

// The filter, which also finds what is further down, and what can be done with what is selected.
// Its place is kept when nothing is.
function tools(look, does, redraw, found) {
  const filter = element('input', { type: 'search', autocomplete: 'off', spellcheck: 'false' });
  const offer = (searches) => {
    const words = searches ? texts.search.field : texts.folder.filter;
    filter.setAttribute('aria-label', words);
    filter.setAttribute('placeholder', words);
  };
  offer(look.searches);
  let typing = null;
  filter.addEventListener('input', () => {
    look.filter = filter.value;
    redraw();
    clearTimeout(typing);
    typing = setTimeout(() => sayFiltered(look, filter), A_MOMENT);
  });
  filter.addEventListener('keydown', () => clearTimeout(typing));
  const told = element('span', { class: 'count', role: 'status' });
  const group = { class: 'chosen none', role: 'group', 'aria-label': texts.folder.chosen };
  const chosen = element('div', group, told,
    button(texts.acts.download, () => does('download'), { class: 'small' }),
    button(texts.folder.move, () => does('move'), { class: 'small' }),
    button(texts.acts.remove, () => does('remove'), { class: 'small' }));
  const tell = () => {
    const count = chosenOf(look).length;
    told.textContent = count === 0 ? '' : texts.folder.selected(count);
    chosen.classList.toggle('none', count === 0);
    // What can be done comes above the rows where the window is narrow, and moves these.
    if (document.activeElement?.closest('tbody')) {
      document.activeElement.scrollIntoView({ block: 'nearest' });
    }
  };
  const finding = finder(found.path, filter, { ...found, redraw });
  const shown = element('div', { class: 'tools' },
    element('div', { class: 'finding' }, filter, finding.press), chosen);
  return { shown, tell, filter, offer, again: () => finding.again() };
}

// Where the focus is in the rows: {name, act, index}, or null.
function placeIn(body) {
  /** @type {any} */
  const control = document.activeElement;
  const row = control?.closest?.('tr[data-path]');
  if (!row || !body.contains(row)) return null;
  const { act } = control.dataset;
  return { name: api.nameOf(row.dataset.path), act, index: row.rowIndex - 1 };
}

// The control that gets the focus after the rows were drawn anew.
function controlAt(table, { name, act, index = 0 }) {
  const rows = [...table.tBodies[0].rows];
  const row = rows.find((one) => api.nameOf(one.dataset.path) === name)
    ?? rows[Math.min(index, rows.length - 1)];
  return row.querySelector(`[data-act="${act}"]`) ?? row.querySelector('[data-act="open"]');
}

// An upload that was begun in one view may end while another one of the same folder is shown.
let shownView = null;
// What the room told of changes last, so that the next folder has its columns at once.
let lately = { shows: null, people: null, searches: false };

function shownAgain() {
  return shownView?.isCurrent() ? shownView.refresh() : null;
}

// The rows of an upload come as they are done, but not while somebody chooses something, and the
// less often the longer it takes.
const SOON = 1500;
let isSoon = false;
async function shownSoon() {
  if (isSoon) return;
  isSoon = true;
  let pause = SOON;
  do await new Promise((resolve) => { setTimeout(resolve, pause); });
  while (document.querySelector('.menu, dialog[open]'));
  const began = Date.now();
  // At its end an upload shows them by itself.
  if (isWorking()) await shownAgain();
  pause = 4 * (Date.now() - began);
  setTimeout(() => { isSoon = false; }, pause);
}

class FolderView {
  constructor(path, box, isCurrent) {
    this.path = path;
    this.box = box;
    this.isCurrent = isCurrent;
    this.look = { ...newLook(), ...lately };
    this.body = element('div', { class: 'sheet' });
    this.places = element('div', { class: 'more-places' });
    const send = (files, trees, folder) =>
      uploadAll(files, trees, folder, shownAgain, shownSoon);
    this.bar = folderBar(path, send, () => this.doing(() => acts.makeFolder(path)));
    this.tools = tools(this.look, (what) => this.withChosen(what), () => this.draw(), { path,
      place: this.body, here: () => this.objects(shownOf(this.look)),
      searches: () => this.look.searches });
    this.area = element('section', { class: 'folder-view', 'aria-label': texts.folder.label },
      this.bar.shown, this.tools.shown, this.body, this.places);
    acceptDrops(this.area, path, send);
  }

  objects(children) {
    return children.map(({ name, kind }) => ({ kind, path: api.join(this.path, name) }));
  }

  acts() {
    const path = (child) => api.join(this.path, child.name);
    return {
      download: (children) => this.doing(() => acts.download(this.objects(children), this.path)),
      preview: (child) => this.doing(() => acts.look(path(child))),
      open: (child) => this.doing(() => acts.openInTab(path(child))),
      replace: (child) => this.replace(path(child)),
      move: (child) => this.doing(() => acts.move(path(child), child.kind)),
      remove: (children) => this.doing(() => removeObjects(this.objects(children))),
      copy: (child) => this.doing(() => acts.copyLink(path(child))),
      find: () => this.tools.filter.focus(),
    };
  }

  // What was there when it was chosen is replaced, and nothing that comes meanwhile.
  replace(path) {
    const seen = tagSeen(path);
    seen.catch(() => {});
    chooseFile((file) => {
      seen.then((tag) => replaceBy(file, path, tag, shownAgain)).catch(tellFault);
    });
  }

  withChosen(what) {
    const objects = this.objects(chosenOf(this.look));
    const does = { move: acts.moveAll, remove: removeObjects, download: acts.download }[what];
    return this.doing(() => does(objects, this.path));
  }

  // Does something, tells what went wrong, and shows the folder again if something changed.
  async doing(act) {
    const place = placeIn(this.body);
    try {
      const focus = await act();
      if (focus) await this.refresh({ ...place, ...focus });
    } catch (fault) {
      tellFault(fault, () => this.doing(act));
      if (fault.status === 0 || fault.status === 404) await this.refresh(place);
    }
  }

  draw(focus = null) {
    drawRows(this.body, this.path, this.look, this.acts(), () => this.tools.tell(),
      focus && ((table) => controlAt(table, focus)), focus);
  }

  // 'focus' is where the focus was, or the name of what gets it.
  async refresh(focus = placeIn(this.body)) {
    const may = api.can(this.path, ASKED).catch(() => null);
    // It comes a bit later than the names, and isn't waited for.
    const details = detailsIn(this.path);
    try {
      const [children] = await waitFor(Promise.all([api.list(this.path), knowNights()]));
      this.bar.offer(this.look.shows);
      this.bar.grant(await may);
      if (!this.isCurrent()) return;
      this.look.children = children;
      const names = new Set(children.map(({ name }) => name));
      this.look.chosen = new Set([...this.look.chosen].filter((name) => names.has(name)));
      this.tools.shown.hidden = children.length === 0;
      this.draw(focus);
      this.showKnown(details);
      arrived(this.path, 'folder');
      learnEditing(children);
      if (this.path === '/') this.showPlaces();
      // The button that had the focus may be gone.
      if (document.activeElement === document.body) this.box.focus({ preventScroll: true });
    } catch (fault) {
      this.fail(fault, await may);
    }
  }

  // What can't be opened, and what is known beside the names.
  async showKnown(details) {
    const [told, names] = await Promise.all([details, people()]);
    if (!this.isCurrent()) return;
    const { closed, known, shows = this.look.shows, searches = this.look.searches } = told;
    const isOther = shows !== this.look.shows;
    if (isOther && this.look.by !== 'name') this.look.by = 'name';
    lately = { shows, people: names, searches };
    Object.assign(this.look, lately, { closed, known });
    this.bar.offer(shows);
    this.tools.offer(searches);
    // Rows that are sorted by what is known only now have to be drawn anew.
    if (isOther || columnsOf(shows).includes(this.look.by)) this.draw(placeIn(this.body));
    else {
      fillRows(this.body, this.look, api.nameOf);
      markAllClosed(this.body, closed, api.nameOf);
    }
    this.tools.again();
  }

  // What can't be seen from the top, below its list.
  async showPlaces() {
    const places = await placesBelow(this.path, true);
    const shown = places.length === 0 ? [] : [element('div', { class: 'sheet closed' }, places)];
    if (this.isCurrent()) this.places.replaceChildren(...shown);
  }

  async showClosed(fault, may) {
    this.places.replaceChildren();
    const shown = await closedFolder(fault, may, this.path);
    if (this.isCurrent()) this.body.replaceChildren(shown);
  }

  fail(fault, may) {
    if (!this.isCurrent()) return;
    this.bar.grant(may, fault.status === 403);
    this.tools.shown.hidden = true;
    if (fault.body?.why === 'wrong-kind') location.replace(linkTo(this.path, 'show'));
    else if (fault.status === 403) this.showClosed(fault, may).catch(tellFault);
    else {
      this.body.replaceChildren(notShown(texts.folder.notShown, () => this.refresh()));
      tellFault(fault);
    }
  }
}

// Shows the folder in 'box', as long as 'isCurrent()'.
export async function showFolder(path, box, isCurrent) {
  const view = new FolderView(path, box, isCurrent);
  shownView = view;
  box.replaceChildren(view.area);
  await view.refresh(null);
}
