// Who could do more and who less with objects if they were moved, as sentences, before they are:
// the program is asked what comes of the move.

import * as api from '../net/api.js';
import { foldersAbove, objectAt } from '../net/ancestors.js';
import { texts } from '../language/language.js';
import { people } from '../net/directory.js';
import { readPieces, wayObjects, withImagined } from '../net/pieces.js';
import { foresee } from '../net/would.js';
import { AFTER, BEFORE } from '../acl/answer.js';
import { shared, toTell } from '../acl/callers.js';
import { UNNAMED } from '../acl/question.js';
import { stoppable } from '../ui/panel.js';
import { partyName } from '../text/parties.js';
import { unreadNames } from '../text/unread.js';
import { shortened } from '../text/who_is.js';
import { isolated, placeWords } from '../text/words.js';
import { lessWords } from '../text/would_words.js';

const [MOST_PLACES, MOST_CALLERS] = [3, 6];
const LETTERS = { r: /r/, w: /[wa]/, C: /[Co]/ };
const IN_ORDER = 'rwdC';

// The letters of r, w, d and C that somebody has by one state of an object, or of what others make
// in it, and not by another one; null where that isn't known.
function lettersAt(said, { path, kind, isDeep }, caller, [had, has]) {
  const [before, then] = [had, has].map((side) => said.extentAt(path, kind, caller, side));
  if (before === null || then === null) return null;
  const isNew = (holds) => then.all.slice(0, isDeep ? 4 : 2).some((one, at) =>
    holds(one) && !holds(before.all[at]));
  return [...Object.keys(LETTERS).filter((letter) => isNew(({ mask }) =>
    LETTERS[letter].test(mask))), ...isNew(({ removes }) => removes) ? ['d'] : []];
}

// The places of which is told what changes: what is moved, and below it where there are rows.
// 'isDeep' says that there are folders in it.
function placesIn(said, { to, object, nodes }) {
  const then = (path) => `${to}${path.slice(object.path.length)}`;
  const folders = nodes.filter(({ kind }) => kind === 'folder');
  return [object, ...nodes].map((one) => ({ ...one, from: one.path, path: then(one.path),
    isDeep: folders.some(({ path }) => path.startsWith(`${one.path}/`)) }))
    .filter((one) => one.path === to || said.places.has(one.path)
      || [...said.places].some((path) => path.startsWith(`${one.path}/${UNNAMED}`)));
}

// What each caller gains or loses at the places of a piece, and wasn't told of nearer to the top:
// [{place, found: [{caller, says}]}]. 'sides' are the two states, the one to be had first.
function changesOf(said, places, sides, me) {
  const told = new Map();
  return places.map((place) => {
    const found = said.changing.filter(({ user }) => user !== me).flatMap((caller) => {
      const letters = lettersAt(said, place, caller, sides) ?? [];
      const above = [...told.get(caller.id) ?? []].filter(({ path }) =>
        place.path.startsWith(`${path}/`)).flatMap(({ says }) => says);
      const says = letters.filter((one) => !above.includes(one));
      told.set(caller.id, [...told.get(caller.id) ?? [], { path: place.path, says }]);
      return says.length === 0 ? [] : [{ caller, says: new Set(says) }];
    });
    return { place, found: toTell(found) };
  });
}

// What is told of places: [{who, letters, places, isPerhaps}]. Those who gain the same share a
// sentence, and so do places of which the same is told. Whoever is 'named' anywhere isn't one of
// everybody else.
function toldOf(changes, known, named) {
  const groups = new Map();
  for (const { place, found } of changes) {
    const alike = new Map();
    const apart = shared(found);
    for (const { caller, says } of found.filter((one) =>
      apart.includes(one) || named.has(one.caller.id))) {
      const letters = [...IN_ORDER].filter((one) => says.has(one)).join('');
      const key = JSON.stringify([letters, caller.isPerhaps]);
      alike.set(key, [...alike.get(key) ?? [], partyName(caller, known)]);
    }
    for (const [key, who] of alike) {
      const whole = JSON.stringify([key, who]);
      const [letters, isPerhaps] = JSON.parse(key);
      const places = [...groups.get(whole)?.places ?? [], place];
      groups.set(whole, { who, letters, isPerhaps, places });
    }
  }
  return [...groups.values()];
}

// What has no name here is some of what is in its folder.
function nameOf({ from, top }) {
  const [named, ...rest] = from.split(`/${UNNAMED}`);
  const shown = isolated(named.slice(api.parentOf(top).length).replace(/^\//, ''));
  return rest.length === 0 ? shown : texts.moving.someIn(shown);
}

const sentencesOf = (told, say, kind) => told.map(({ who, letters, places, isPerhaps }) => (
  { isPerhaps, kind, text: say(shortened(who, MOST_CALLERS), letters,
    shortened([...new Set(places.map(nameOf))], MOST_PLACES),
    places.some((one) => one.kind === 'folder' && !one.from.includes(UNNAMED))) }));

// What is asked about a move of these pieces: the answer, with where each goes.
async function ask(pieces, ways, folder, [known, me]) {
  const moves = pieces.map((one, at) => ({ ...one, to: api.join(folder, `${UNNAMED}m${at}`) }));
  const below = pieces.flatMap(({ object, nodes }) => [object, ...nodes]);
  const tops = pieces.map(({ object }) => object).filter(({ kind }) => kind === 'folder');
  const said = await foresee({ known, me,
    objects: [...wayObjects(...ways), ...withImagined(below, tops.map(({ path }) => path))],
    changes: moves.map(({ object, to }) => ({ move: object.path, to })) });
  return { said, moves };
}

// By an unread list of the old folder, everybody may have removed it.
const withoutRemoving = (changes) => changes.map((one) => ({ ...one,
  found: one.found.map(({ caller, says }) => (
    { caller, says: new Set([...says].filter((letter) => letter !== 'd')) }))
    .filter(({ says }) => says.size > 0) }));

// Who gains and who loses, as sentences: {gained, lost}.
function changeWords({ said, moves }, [from, to], [known, me]) {
  const places = moves.map((one) => placesIn(said, one)
    .map((place) => ({ ...place, top: one.object.path })));
  const changes = (sides) => places.flatMap((those) => changesOf(said, those, sides, me));
  const isRead = (folders) => folders.at(-1).text !== null;
  const gaining = changes([BEFORE, AFTER]);
  const gained = isRead(from) ? gaining : withoutRemoving(gaining);
  const lost = isRead(to) ? changes([AFTER, BEFORE]) : [];
  const named = new Set([...gained, ...lost].flatMap(({ found }) =>
    shared(found).map(({ caller }) => caller.id)));
  return { gained: sentencesOf(toldOf(gained, known, named), texts.moving.gaining, 'bad'),
    lost: sentencesOf(toldOf(lost, known, named), texts.moving.losing, 'unsure') };
}

// The folders of one way alone whose lists can't be read, as sentences.
const unreadOf = (way, other, say) => way.filter(({ text, path }) => text === null
  && !other.some((one) => one.path === path)).map(({ path }) => say(placeWords(path)));

// What can't be said: of folders on the way, of what is moved, and of what is in it. By a list of
// the old way somebody may have been barred, or may have removed it.
function unknownWords(pieces, [from, to]) {
  const unread = pieces.filter(({ object }) => object.text === null);
  const below = pieces.flatMap((one) => one.unread);
  return [...unreadOf(to, from, texts.moving.unknownAt),
    ...unreadOf(from, to, texts.moving.unknownFrom),
    ...unread.length === 0 ? [] : [texts.moving.unknownOf(shortened(unread.map(({ object }) =>
      isolated(api.nameOf(object.path))), MOST_PLACES))],
    ...below.length === 0 ? [] : [texts.outcome.unreadThere(unreadNames(below, MOST_PLACES))],
  ].map((text) => ({ kind: 'unsure', text }));
}

function titleOf(gained, lost) {
  const isSure = (all) => all.some(({ isPerhaps }) => !isPerhaps);
  if (isSure(gained)) return texts.moving.morePeople;
  return isSure(lost) ? texts.moving.fewerPeople : texts.moving.unknownPeople;
}

// {title, warned: [{kind, text}], perhaps: the same} for objects of a folder that are about to be
// moved into another one, or null if the user stopped that. 'perhaps' is what isn't sure.
export async function movedWords(objects, folder) {
  if (api.parentOf(objects[0].path) === folder) return { title: '', warned: [], perhaps: [] };
  const panel = stoppable(texts.moving.lookAtLists, objects.length);
  const [who, pieces, ...ways] = await Promise.all([
    Promise.all([people(), api.whoAmI().catch(() => '')]),
    readPieces(objects, panel.show, panel.isStopped), foldersAbove(objects[0].path, true),
    foldersAbove(api.join(folder, 'x'), true)]).finally(panel.remove);
  if (panel.isStopped()) return null;
  const read = pieces.filter(({ object }) => object.text !== null);
  const answer = read.length === 0 ? null : await ask(read, ways, folder, who);
  const { gained, lost } = answer === null ? { gained: [], lost: [] }
    : changeWords(answer, ways, who);
  const all = [...gained, ...lost];
  const less = answer && lessWords(answer.said.asked);
  return { title: titleOf(gained, lost), perhaps: all.filter(({ isPerhaps }) => isPerhaps),
    warned: [...all.filter(({ isPerhaps }) => !isPerhaps), ...unknownWords(pieces, ways),
      ...less === null ? [] : [{ kind: 'unsure', text: less }]] };
}

// Who may read at a place, as far as it is known, in a sentence.
export async function readersWords(path) {
  const [object, folders, known, me] = await Promise.all([
    objectAt(path), foldersAbove(path, true), people(), api.whoAmI().catch(() => '')]);
  if (object.text === null) return texts.moving.readersUnknown;
  const said = await foresee({ known, me,
    objects: [...wayObjects(folders), object] });
  const readers = toTell(said.callers.flatMap((caller) => (
    said.at(path, caller, BEFORE)?.mask.includes('r') ? [{ caller, says: new Set('r') }] : [])));
  const isSure = folders.every(({ text }) => text !== null);
  if (readers.length === 0) return isSure ? texts.moving.noReaders : texts.moving.noReadersPerhaps;
  return (isSure ? texts.moving.readers : texts.moving.readersPerhaps)(
    shortened(shared(readers).map(({ caller }) => partyName(caller, known)), 12));
}
