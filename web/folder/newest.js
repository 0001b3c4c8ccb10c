// What is new: the documents below a folder that changed last, as far as I may read them.

import * as api from '../net/api.js';
import { button, element, icon, nameText } from '../ui/dom.js';
import { people } from '../net/directory.js';
import { newestBelow } from '../net/door.js';
import { texts } from '../language/language.js';
import { rove } from '../ui/keys.js';
import { linkTo } from '../ui/links.js';
import { notShown, tellFault, waitFor } from '../ui/messages.js';
import { marked } from '../text/invisible.js';
import { columnsOf, headingOf, knownCells, knownLine } from './known.js';

function row(one, top, look) {
  const folder = api.parentOf(one.path);
  const name = api.nameOf(one.path);
  const where = folder === top ? null : element('a', {
    class: 'hint', href: linkTo(folder), 'data-act': 'folder',
  }, texts.folder.within(folder === '/' ? texts.places.all : marked(folder)));
  return element('tr', { 'data-path': one.path, 'aria-label': marked(name) },
    element('td', { class: 'what' },
      element('a', { class: 'object', href: linkTo(one.path, 'show'), 'data-act': 'open' },
        icon('document'), nameText(name)), where, knownLine(one, look)),
    knownCells(one, look));
}

function table(found, top, look) {
  const heads = columnsOf(look.shows).map((by) => element('th', { scope: 'col', 'data-by': by },
    headingOf(by)));
  const body = element('tbody', {}, found.map((one) => row(one, top, look)));
  const made = element('table', { class: 'folder newest', role: 'grid' },
    element('caption', { class: 'unseen' }, texts.moments.caption),
    element('thead', {}, element('tr', {}, element('th', { scope: 'col' }, texts.acts.name),
      heads)), body);
  rove(body);
  return made;
}

// A room without dates says so in words, and has the way back.
function refused(fault, again) {
  if (fault.body?.why === 'no-dates') {
    return element('p', { class: 'empty' }, texts.moments.noDates);
  }
  tellFault(fault);
  return notShown(texts.moments.notShown, again);
}

// Shows it in 'box', as long as 'isCurrent()'.
export async function showNewest(path, box, isCurrent) {
  const body = element('div', { class: 'sheet' });
  const name = path === '/' ? texts.places.all : nameText(api.nameOf(path));
  const fill = async () => {
    try {
      const [{ found, shows }, names] = await waitFor(Promise.all([newestBelow(path), people()]));
      if (!isCurrent()) return;
      body.replaceChildren(found.length === 0
        ? element('p', { class: 'empty' }, texts.moments.nothingNew)
        : table(found, path, { shows, people: names }));
    } catch (fault) {
      if (isCurrent()) body.replaceChildren(refused(fault, fill));
    }
  };
  box.replaceChildren(element('section', { class: 'folder-view', 'aria-label': texts.moments.news },
    element('div', { class: 'bar' },
      element('h1', {}, element('span', {}, texts.moments.newIn(name))),
      element('div', { class: 'actions' }, button(texts.moments.again, fill),
        element('a', { class: 'button', href: linkTo(path) }, texts.page.openFolder))),
    body, element('p', { class: 'hint then-hint' }, texts.moments.explained)));
  await fill();
}
