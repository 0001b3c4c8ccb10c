// The page: who is signed in, which place is open, and what is shown there.

import { accountMenu } from './account/account_menu.js';
import { changeFirst } from './account/own_password.js';
import { copyLink, download } from './folder/actions.js';
import { hasNights, knowNights } from './net/nights.js';
import { whenWaiting } from './net/retry.js';
import * as api from './net/api.js';
import { kindOf } from './net/kind.js';
import { button, element, icon, nameText } from './ui/dom.js';
import { hasUnsent } from './acl/draft.js';
import { showEarlier } from './earlier/earlier.js';
import { editingOf, learnEditing } from './folder/editing.js';
import { showFolder } from './folder/folder.js';
import { showNewest } from './folder/newest.js';
import { showDocument } from './folder/preview.js';
import { language, texts } from './language/language.js';
import { linkTo, pathLinks } from './ui/links.js';
import { whereIs } from './net/addresses.js';
import { withSent } from './net/sent_first.js';
import { showList } from './list_editor/list_view.js';
import { keepClear } from './ui/covering.js';
import { focusLeft, keepNothing, noteLeft } from './ui/returning.js';
import { clearNotices, notShown, showWaiting, tellFault, waitFor } from './ui/messages.js';
import { arrived, fullName, people } from './net/directory.js';
import { showRights } from './list_editor/my_rights.js';
import { showAccess } from './share/share.js';
import { marked } from './text/invisible.js';
import { isWorking } from './ui/working.js';

const DOCUMENT = ['show', texts.page.document];
const TABS = [['access', texts.page.whoHasAccess], ['rights', texts.page.myRights],
  ['dacl', texts.page.advanced], ['sacl', texts.page.recorded]];
const main = document.querySelector('main');

const viewWords = (view) => ({ new: texts.moments.news, earlier: texts.earlier.earlier,
  ...Object.fromEntries([DOCUMENT, ...TABS]) })[view];

// Each visit of a place has a number, so that a slow reply isn't shown at a later place.
let looks = 0;

function objectHead(path, view, kind) {
  const name = path === '/' ? texts.places.all : nameText(api.nameOf(path));
  const tabs = kind === 'folder' ? TABS : [DOCUMENT, ...TABS];
  const links = tabs.map(([word, words]) => element('a', {
    href: linkTo(path, word), 'aria-current': word === view ? 'page' : null,
  }, words));
  const back = linkTo(kind === 'folder' ? path : api.parentOf(path));
  const act = (words, does, style) =>
    button(words, () => does().catch(tellFault), { class: style });
  const ofDocument = kind === 'folder' ? []
    : [act(texts.acts.download, () => download([{ path, kind }]), 'primary'),
      ...editingOf({ kind, name: api.nameOf(path) }, path).map(({ words, href }) =>
        element('a', { class: 'button', href }, words))];
  const earlier = hasNights()
    ? element('a', { class: 'button', href: linkTo(path, 'earlier') }, texts.earlier.earlier)
    : null;
  return [
    element('div', { class: 'bar' }, element('h1', {}, icon(kind), name),
      element('div', { class: 'actions' }, ofDocument,
        act(texts.acts.copyLink, () => copyLink(path)), earlier,
        element('a', { class: 'button', href: back },
          kind === 'folder' ? texts.page.openFolder : texts.page.backToFolder))),
    element('nav', { class: 'views', 'aria-label': texts.page.access }, links),
  ];
}

// Whoever may not read a document sees whom to ask.
async function showOrTell(path, box, isCurrent) {
  await showDocument(path, box, isCurrent).catch((fault) => {
    if (fault.status !== 403) throw fault;
    if (isCurrent()) location.replace(linkTo(path, 'access'));
  });
}

async function showObject(path, view, isCurrent) {
  const [kind] = await waitFor(Promise.all([kindOf(path), knowNights()]));
  await learnEditing([{ kind, name: api.nameOf(path) }]);
  if (!isCurrent()) return;
  const box = element('div', { class: 'sheet padded' });
  const head = objectHead(path, view, kind);
  const label = view === 'show' ? texts.page.document : texts.page.access;
  main.replaceChildren(element('section', { 'aria-label': label }, head, box));
  if (kind === 'document') arrived(path, kind);
  if (view === 'show' && kind === 'document') await showOrTell(path, box, isCurrent);
  else if (view === 'access' || view === 'show') await showAccess(path, kind, box, isCurrent);
  else if (view === 'rights') await showRights(path, kind, box, isCurrent);
  else await showList(path, view, kind, box, isCurrent);
}

async function show() {
  looks += 1;
  const look = looks;
  const isCurrent = () => look === looks;
  const { path, view, night } = whereIs(location.hash);
  const name = path === '/' ? texts.places.all : marked(api.nameOf(path));
  document.title = texts.page.title(name);
  // It has the focus by now, and this is what is read aloud.
  main.setAttribute('aria-label', [name, viewWords(view)].filter(Boolean).join(', '));
  document.getElementById('path').replaceChildren(pathLinks(path));
  clearNotices();
  try {
    if (view === 'new') await showNewest(path, main, isCurrent);
    else if (view === 'earlier') await showEarlier(path, night, main, isCurrent);
    else if (view) await showObject(path, view, isCurrent);
    else await showFolder(path, main, isCurrent);
    if (isCurrent()) focusLeft(main);
  } catch (fault) {
    if (!isCurrent()) return;
    main.replaceChildren(notShown(texts.page.notShown, show));
    tellFault(fault);
  }
}

async function showMe() {
  try {
    const [{ user, isFirst }, known] = await Promise.all([api.me(), people()]);
    const shown = document.getElementById('me');
    shown.replaceChildren(icon('person'), nameText(fullName(known, user)), accountMenu(user));
    shown.title = user;
    if (isFirst) await changeFirst(user);
  } catch (fault) {
    tellFault(fault);
  }
}

// What the page has before anything is known.
function speak() {
  document.documentElement.lang = language;
  document.getElementById('skip').textContent = texts.page.skip;
  document.getElementById('home').setAttribute('aria-label', texts.places.all);
  document.getElementById('path').setAttribute('aria-label', texts.page.path);
  document.getElementById('me').setAttribute('aria-label', texts.page.signedInAs);
}

window.addEventListener('hashchange', () => {
  window.scrollTo(0, 0);
  main.focus({ preventScroll: true });
  show();
});
window.addEventListener('beforeunload', (event) => {
  if (hasUnsent() || isWorking()) event.preventDefault();
});
// A file that is dropped outside the folder doesn't replace the page.
for (const kind of ['dragover', 'drop']) {
  window.addEventListener(kind, (event) => event.preventDefault());
}
// A link to what is open shows it anew, as after a search in it.
document.querySelector('header').addEventListener('click', ({ target }) => {
  const link = target instanceof Element && target.closest('a');
  if (!link || link.getAttribute('href') !== (location.hash || '#/')) return;
  keepNothing();
  show();
});
main.addEventListener('click', noteLeft);
document.getElementById('skip').addEventListener('click', (event) => {
  // The place follows the '#'.
  event.preventDefault();
  main.focus();
});

// 'replies' are those of requests that were sent already.
export function begin(replies) {
  withSent(replies, show);
  speak();
  keepClear(document.getElementById('notices'), document.getElementById('uploads'));
  whenWaiting(showWaiting);
  showMe();
}
