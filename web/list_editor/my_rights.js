// What I may do with an object, and by which entry; its owner and group.

import { RULINGS, deletion } from '../acl/decide.js';
import * as api from '../net/api.js';
import { element, icon, button } from '../ui/dom.js';
import { isInherited, isName, printEntry, readListText } from '../acl/entries.js';
import { form, notShown, tell, tellFault, waitFor } from '../ui/messages.js';
import { texts } from '../language/language.js';
import {
  faultWords, isolated, placeWords, rightWords, sentenceOf, whomWords,
} from '../text/words.js';

const ASKED = { folder: 'rxwaDtcCo', document: 'rwatcCo' };

const none = (fault) => ({ fault });

// The entries of the object's dacl, or none where I may not see them.
async function entriesOf(path) {
  const text = await api.readList('dacl', path);
  return readListText(text).list?.entries ?? [];
}

// The entry that decided, as far as I may see it, in the object's own list or in that of a place.
function reason(ruling, entries, place = null) {
  if (ruling.ruling === 'silent') return texts.advanced.nobodyGave;
  const entry = entries[ruling.place - 1];
  if (!entry) return texts.advanced.byLine(ruling.place, place);
  const say = ruling.ruling === 'allowed' ? texts.advanced.allowedBy : texts.advanced.deniedBy;
  return element('span', { title: printEntry(entry) },
    say(ruling.place, place, isInherited(entry), whomWords(entry)));
}

// The rule of deleting: the object's list and its folder's list decide together.
function removal(own, above, entries, folder) {
  const rulings = { d: own, ...above };
  const [d, D, w] = ['d', 'D', 'w'].map((letter) => RULINGS[rulings[letter].ruling]);
  const { may, by } = deletion({ d, D, w });
  if (by === 'd') return { may, why: reason(own, entries) };
  if (by === 'D' || rulings[by].ruling === 'denied') {
    return { may, why: reason(rulings[by], [], placeWords(folder)) };
  }
  // Neither list mentions removing, so the right w on the folder decides.
  return { may, why: may ? texts.advanced.byAdding(placeWords(folder))
    : texts.advanced.nobodyGaveHere };
}

function line(may, words, why) {
  return element('tr', { class: may ? 'may' : 'may-not' },
    element('td', { class: 'mark' }, icon(may ? 'check' : 'dash'),
      element('span', { class: 'unseen' }, may ? texts.advanced.yes : texts.advanced.no)),
    element('th', { scope: 'row' }, words),
    element('td', { class: 'why' }, why));
}

async function removalLine(path, rulings, entries) {
  const what = texts.advanced.removeOrMove;
  if (path === '/') return line(false, what, texts.advanced.topStays);
  const folder = api.parentOf(path);
  const above = await api.can(folder, 'Dw').catch(none);
  if (above.fault) return line(rulings.d.ruling === 'allowed', what, sentenceOf(above.fault));
  const { may, why } = removal(rulings.d, above, entries, folder);
  return line(may, what, why);
}

async function rightsTable(path, kind) {
  const [rulings, entries] = await Promise.all([
    api.can(path, `${ASKED[kind]}d`), entriesOf(path).catch(() => [])]);
  const lines = [...ASKED[kind]].map((letter) => line(rulings[letter].ruling === 'allowed',
    rightWords(letter, kind), reason(rulings[letter], entries)));
  lines.splice(kind === 'folder' ? 5 : 3, 0, await removalLine(path, rulings, entries));
  return element('table', { class: 'rights' },
    element('caption', {}, texts.advanced.whatYouMay),
    element('thead', { class: 'unseen' }, element('tr', {},
      [texts.advanced.may, texts.advanced.what, texts.advanced.byWhich]
        .map((heading) => element('th', { scope: 'col' }, heading)))),
    element('tbody', {}, lines));
}

const ownerFault = (name) => (isName(name) ? null : faultWords('A3'));

async function changeOwners(path, attributes, refresh) {
  const names = await form(texts.advanced.owners, [
    { label: texts.advanced.ownerField, value: attributes.owner, fault: ownerFault },
    { label: texts.advanced.group, value: attributes.group, fault: ownerFault },
  ], texts.advanced.changeThem);
  if (!names) return;
  try {
    await waitFor(api.setOwners(path, names[0], names[1]));
    tell('good', texts.advanced.ownersNow(isolated(names[0]), isolated(names[1])));
    await refresh();
  } catch (fault) {
    tellFault(fault);
  }
}

function ownersBox(path, attributes, refresh) {
  if (attributes.fault) return element('p', { class: 'hint' }, sentenceOf(attributes.fault));
  return element('div', { class: 'owners' },
    element('dl', {},
      element('dt', {}, texts.advanced.owner), element('dd', {}, attributes.owner),
      element('dt', {}, texts.advanced.group), element('dd', {}, attributes.group)),
    button(texts.advanced.change, () => changeOwners(path, attributes, refresh),
      { class: 'small', 'aria-label': texts.advanced.changeOwners }));
}

export async function showRights(path, kind, box, isCurrent) {
  const refresh = async () => {
    try {
      const [table, attributes] = await waitFor(Promise.all([
        rightsTable(path, kind), api.readAttributes(path).catch(none)]));
      if (isCurrent()) box.replaceChildren(ownersBox(path, attributes, refresh), table);
    } catch (fault) {
      if (!isCurrent()) return;
      box.replaceChildren(notShown(texts.advanced.rightsNotShown, refresh));
      tellFault(fault);
    }
  };
  await refresh();
}
