// The buttons of an open folder. On a telephone they are two: what can be added, and all else.

import * as api from '../net/api.js';
import { button, element, icon, nameText } from '../ui/dom.js';
import { texts } from '../language/language.js';
import { askedFor } from '../ui/ask_whom.js';
import { linkTo } from '../ui/links.js';
import { menuButton } from '../ui/menu.js';
import { tell, waitFor } from '../ui/messages.js';
import { hasNights } from '../net/nights.js';
import { treeOfFiles } from './tree.js';

function fileField(label, properties, take) {
  const input = element('input', {
    type: 'file', hidden: true, 'aria-label': label, ...properties,
  });
  input.addEventListener('change', () => {
    if (input.files.length > 0) take([...input.files]);
    input.value = '';
  });
  return input;
}

// A press opens the browser's own choice of a file.
export function chooseFile(take) {
  const input = fileField(texts.folder.newVersion, { class: 'version' }, ([file]) => {
    input.remove();
    take(file);
  });
  document.querySelector('input.version')?.remove();
  document.body.append(input);
  input.click();
}

async function tellLack(path, letter) {
  const ask = await waitFor(askedFor(path)).catch(() => texts.ask.whoever);
  tell('bad', `${texts.folder.mayNot[letter]} ${ask}`);
}

// What isn't granted is greyed out, and says so, and whom to ask, when it is pressed.
class FolderBar {
  constructor(path, send, make) {
    this.path = path;
    this.may = null;
    this.shows = null;
    const files = fileField(texts.folder.filesField, { multiple: true, class: 'files' },
      (all) => send(all, [], path));
    const whole = fileField(texts.folder.wholeField, { webkitdirectory: true, class: 'whole' },
      (all) => send([], [treeOfFiles(all)], path));
    this.adding = [
      { letter: 'w', mark: 'upload', words: texts.folder.upload, does: () => files.click() },
      { letter: 'a', mark: 'upload', words: texts.folder.uploadFolder, does: () => whole.click() },
      { letter: 'a', mark: 'plus', words: texts.folder.newFolder, does: make },
    ];
    /** @type {[string, string, () => boolean][]} */
    this.looks = [['new', texts.moments.news, () => this.shows !== null],
      ['earlier', texts.earlier.earlier, hasNights], ['access', texts.folder.access, () => true]];
    this.shown = element('div', { class: 'bar' },
      element('h1', {}, path === '/' ? texts.places.all : nameText(api.nameOf(path))),
      this.onDesk(), this.onPhone(), files, whole);
    this.offer(null);
  }

  lacks({ letter }) {
    return this.may !== null && this.may[letter].ruling !== 'allowed';
  }

  press(one) {
    if (this.lacks(one)) tellLack(this.path, one.letter);
    else one.does();
  }

  onDesk() {
    this.buttons = this.adding.map((one, at) => button([icon(one.mark), one.words],
      () => this.press(one), { class: at === 0 ? 'primary' : null }));
    this.links = this.looks.map(([view, words]) => element('a',
      { class: 'button', href: linkTo(this.path, view) },
      view === 'access' ? icon('key') : null, words));
    return element('div', { class: 'actions desk' }, this.buttons, this.links);
  }

  onPhone() {
    this.add = menuButton(texts.folder.add, () => this.adding.map((one) => (
      { words: one.words, isBarred: this.lacks(one), does: () => this.press(one) })),
    { class: 'primary', mark: 'plus' });
    const more = menuButton(texts.folder.more, () => this.looks.filter(([, , isThere]) => isThere())
      .map(([view, words]) => ({ words, href: linkTo(this.path, view) })));
    return element('div', { class: 'actions phone' }, this.add, more);
  }

  // In a folder whose contents aren't shown, what isn't granted isn't offered.
  grant(may, isClosed = false) {
    this.may = may;
    this.adding.forEach((one, at) => {
      const made = this.buttons[at];
      const lacks = this.lacks(one);
      made.setAttribute('aria-disabled', String(lacks));
      made.hidden = lacks && isClosed;
      if (lacks) made.title = texts.folder.mayNot[one.letter];
      else made.removeAttribute('title');
    });
    this.add.hidden = isClosed && this.adding.every((one) => this.lacks(one));
  }

  // 'shows' says what the room tells of changes, or is null.
  offer(shows) {
    this.shows = shows;
    this.looks.forEach(([, , isThere], at) => { this.links[at].hidden = !isThere(); });
  }
}

// The bar of the folder: {shown, grant, offer}. 'send' uploads, and 'make' makes a folder.
export const folderBar = (path, send, make) => new FolderBar(path, send, make);
