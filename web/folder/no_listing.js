// A folder whose contents may not be seen: what was shared further down, what was opened lately,
// what may be done there all the same, whom to ask, and the way elsewhere.

import * as api from '../net/api.js';
import { button, element, field, icon, nameText } from '../ui/dom.js';
import { texts } from '../language/language.js';
import { linkTo } from '../ui/links.js';
import { whereIs } from '../net/addresses.js';
import { askedFor } from '../ui/ask_whom.js';
import { dayWords, forget, mine, remembered } from '../net/directory.js';
import { forgetTags } from '../net/given_out.js';
import { marked } from '../text/invisible.js';
import { rightWords, sentenceOf } from '../text/words.js';

// A path, or an address of this page.
function placeIn(text) {
  const [, hash] = text.split('#');
  return hash === undefined ? { path: `/${text.split('/').filter(Boolean).join('/')}`, view: null }
    : whereIs(hash);
}

function opener() {
  const input = element('input', { type: 'text', autocomplete: 'off', spellcheck: 'false' });
  const open = (event) => {
    event.preventDefault();
    const text = input.value.trim();
    if (text === '') {
      input.focus();
      return;
    }
    const { path, view } = placeIn(text);
    location.hash = linkTo(path, view);
  };
  return element('form', { class: 'opener', onsubmit: open },
    field(texts.folder.openAddress, input, texts.folder.addressHint),
    element('button', { type: 'submit' }, texts.folder.open));
}

const isBelow = (path, folder) => folder === '/' || path.startsWith(`${folder}/`);

function mayWords(rights) {
  if (rights.includes('C')) return texts.folder.canManage;
  if (!rights.includes('r')) return texts.folder.canDrop;
  return /[wa]/.test(rights) ? texts.folder.canChange : texts.folder.canRead;
}

function line({ path, kind, rights = null }) {
  const above = api.parentOf(path);
  const words = [rights === null ? null : mayWords(rights),
    above === '/' ? null : texts.folder.within(marked(above))];
  return element('li', {},
    element('a', { class: 'object', href: linkTo(path, kind === 'folder' ? null : 'show') },
      icon(kind), nameText(api.nameOf(path))),
    element('span', { class: 'hint' }, words.filter(Boolean).join(', ')));
}

const part = (title, places, ...more) => element('section', { class: 'part' },
  element('div', { class: 'part-head' }, element('h2', {}, title), ...more),
  element('ul', { class: 'places' }, places.map(line)));

// What was given to me below a folder and can't be seen from it, and what I opened by its address.
// 'isListed' says that the folder shows what is in it.
export async function placesBelow(folder, isListed) {
  const [given, me] = await Promise.all([mine(), api.whoAmI().catch(() => '')]);
  const shared = (given?.places ?? []).filter(({ path }) => isBelow(path, folder)
    && !(isListed && api.parentOf(path) === folder));
  const late = remembered(me).filter(({ path }) => isBelow(path, folder)
    && !shared.some((one) => one.path === path));
  const clear = button(texts.folder.forgetThese, () => {
    forget(me);
    forgetTags(me);
    lately.remove();
    document.querySelector('main').focus({ preventScroll: true });
  }, { class: 'small plain' });
  const lately = late.length === 0 ? null : part(texts.folder.openedLately, late, clear);
  return [shared.length === 0 ? null : part(texts.folder.sharedWithYou, shared,
    element('span', { class: 'hint' }, texts.folder.asOf(dayWords(given.made)))), lately]
    .filter(Boolean);
}

// What is granted here although the list of what is in it isn't. Passing and looking at the list
// of who has access are of no use by themselves.
function grantedHere(may) {
  const rights = Object.entries(may ?? {}).filter(([letter, { ruling }]) =>
    ruling === 'allowed' && /[waDdCo]/.test(letter));
  return rights.length === 0 ? null : element('section', {},
    element('h2', {}, texts.folder.whatYouMayDo), element('ul', { class: 'granted' },
      rights.map(([letter]) => element('li', {}, rightWords(letter, 'folder')))));
}

// 'may' is what /can says of the folder, or null where that isn't told.
export async function closedFolder(fault, may, folder) {
  const [places, ask] = await Promise.all([placesBelow(folder, false),
    fault.body?.at ? askedFor(fault.body.at) : '']);
  const closed = folder === '/' ? texts.folder.closedRoom : texts.folder.closedFolder;
  const words = may?.x?.ruling === 'allowed'
    ? `${closed} ${ask}`
    : sentenceOf(fault, ask || undefined);
  return element('div', { class: 'closed' }, places,
    element('p', { class: places.length > 0 ? 'hint' : null }, words), grantedHere(may),
    places.length === 0 ? opener()
      : element('details', {}, element('summary', {}, texts.folder.openAddress), opener()),
    button(texts.acts.loadAgain, () => location.reload(), { class: 'small' }));
}
