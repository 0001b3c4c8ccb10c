// Who could read something on an earlier night, and who could if it came back: as its folder is
// now, or with the lists of that night. The program is asked. Nothing here draws or changes.

import * as api from '../net/api.js';
import { foldersAbove } from '../net/ancestors.js';
import { people } from '../net/directory.js';
import { listThen } from '../net/nights.js';
import { wayObjects } from '../net/pieces.js';
import { foresee } from '../net/would.js';
import { AFTER, BEFORE } from '../acl/answer.js';
import { toTell } from '../acl/callers.js';
import { printList, readListText } from '../acl/entries.js';
import { cutOff } from '../acl/levels.js';
import { FOLLOWS, OF_EACH } from '../acl/question.js';
import { partyName } from '../text/parties.js';

// Of that night nobody tells who owned it.
const UNOWNED = { owner: null, group: null };
const SO_MANY = 20;

// Lists of a night, each asked for once; null where it can't be read.
export class ListsThen {
  constructor(night) {
    this.night = night;
    this.known = new Map();
  }

  textAt(path) {
    if (!this.known.has(path)) {
      this.known.set(path, listThen(this.night, path).catch((fault) => {
        if (fault.status !== 403 && fault.status !== 404) throw fault;
        return null;
      }));
    }
    return this.known.get(path);
  }

  async at(path) {
    const text = await this.textAt(path);
    return text === null ? null : readListText(text).list ?? null;
  }

  // The folders on the way to a path, from the top down, as foldersAbove has them.
  above(path) {
    const names = api.namesOf(path);
    return Promise.all(names.map(async (_, index) => {
      const above = `/${names.slice(0, index).join('/')}`;
      return { path: above, text: await this.textAt(above), object: UNOWNED };
    }));
  }
}

// The objects on the way to these as they are now. What comes below a list that can't be read isn't
// known.
async function wayNow(folders) {
  const ways = await Promise.all(folders.map((path) => foldersAbove(api.join(path, 'x'), true)));
  const unread = new Set(ways.map((way) => way.at(-1)).filter(({ text }) => text === null)
    .map(({ path }) => path));
  return wayObjects(...ways).map((one) => (
    unread.has(one.path) ? { ...one, text: null } : one));
}

// What comes back is mine, and of the group of the folder that it comes to.
function comingTo(way, missing, me, textOf) {
  const groups = new Map(way.map(({ path, object }) => [path, object.group]));
  return missing.map((one) => {
    const group = groups.get(api.parentOf(one.path)) ?? null;
    groups.set(one.path, group);
    return { come: one.path, kind: one.kind, text: textOf(one), object: { owner: me, group } };
  });
}

// What is known of that night and of now, for the questions: {night objects, way, missing, ..}.
async function readAll(night, missing, show, isStopped) {
  const lists = new ListsThen(night);
  const tops = missing.filter(({ path }) =>
    !missing.some((one) => one.path === api.parentOf(path)));
  const folders = [...new Set(tops.map(({ path }) => api.parentOf(path)))];
  const [me, known, way, ...ways] = await Promise.all([api.whoAmI().catch(() => ''), people(),
    wayNow(folders), ...folders.map((path) => lists.above(api.join(path, 'x')))]);
  const then = [];
  for (let at = 0; at < missing.length && !isStopped(); at += SO_MANY) {
    show(at, missing.length);
    then.push(...await Promise.all(missing.slice(at, at + SO_MANY).map(async ({ path, kind }) => (
      { path, kind, text: await lists.textAt(path), object: UNOWNED }))));
  }
  return { me, known, way, tops, then, objects: [...wayObjects(...ways), ...then] };
}

// Those for whom a condition holds at some of these paths, by name: [{name, paths, isPerhaps}].
function namedAt(said, paths, known, holds) {
  const found = said.callers.map((caller) => (
    { caller, says: new Set(paths.filter((path) => holds(caller, path))) }))
    .filter(({ says }) => says.size > 0);
  return toTell(found).map(({ caller, says }) => ({ count: says.size,
    isPerhaps: caller.isPerhaps, name: partyName(caller, known) }));
}

const readsAt = (said, side) => (caller, path) => {
  const row = said.at(path, caller, side);
  return row === null ? null : row.mask.includes('r');
};

// Who could read that night: {others, owner, members}, functions of a caller and a path. Whoever
// owned it, or was in its group, may have been denied it alone, or allowed.
async function readThen({ objects, known, way }, changes, ask) {
  const isNamed = (who) => objects.some(({ text }) => text?.includes(who));
  // Any group may have been that.
  const groups = known?.members && isNamed('GROUP@') ? Object.keys(known.groups) : [];
  const beside = [...objects, ...groups.map((group) => ({ object: { owner: '', group } }))];
  const of = (whose) => ask({ objects: objects.map((one) => (
    { ...one, object: { ...one.object, ...whose } })) }, [...way, ...changes, ...beside]);
  const [before, ofOwner, ofGroup, after] = await Promise.all([of({}),
    isNamed('OWNER@') ? of({ owner: OF_EACH }) : null,
    isNamed('GROUP@') ? of({ group: OF_EACH }) : null, ask({ objects: way, changes }, beside)]);
  const [others, owner, members] = [before, ofOwner ?? before, ofGroup ?? before]
    .map((said) => readsAt(said, BEFORE));
  return { others, owner, members, after, has: readsAt(after, AFTER) };
}

// Who may read more than that night: {gained: [{name, count, isPerhaps}], perhaps, unknown, all}.
// 'perhaps' has those for whom it depends on whose it was, 'unknown' says of how many objects it
// can't be seen, and 'all' is what was read, for those who ask for readers. 'show' is told how far
// it is.
export async function opensBy(night, missing, show, isStopped) {
  const all = await readAll(night, missing, show, isStopped);
  if (missing.length === 0 || isStopped()) return { gained: [], perhaps: [], unknown: 0, all };
  const { me, known, way, then } = all;
  const { others, owner, members, has, after } = await readThen(all,
    comingTo(way, missing, me, () => FOLLOWS),
    (given, beside) => foresee({ ...given, known, me, beside }));
  const [any] = after.callers;
  const paths = then.map(({ path }) => path);
  const isKnown = (path) => others(any, path) !== null && has(any, path) !== null;
  const isNew = (...each) => !others(...each) && !members(...each);
  const isPerhapsNew = (...each) => !isNew(...each)
    && ![others, owner, members].every((had) => had(...each));
  const [gained, perhaps] = [isNew, isPerhapsNew].map((holds) => namedAt(after,
    paths.filter(isKnown), known, (caller, path) => caller.user !== me && has(caller, path)
      && holds(caller, path)));
  return { gained, perhaps, unknown: paths.filter((path) => !isKnown(path)).length, all };
}

// Whether I may change the lists of what I make in each of these folders.
export async function mayClose(folders) {
  const all = await Promise.all([...new Set(folders)].map((path) =>
    api.can(path, 'C').catch(() => null)));
  return all.every((may) => may?.C.ruling === 'allowed');
}

// Whoever may then read what comes back with its lists of that night, and whoever may remove it if
// I alone may read it, as far as folders let them pass now: {readers, removers}, names. The readers
// are null where a list of that night can't be read.
export async function readersThen({ me, known, way, tops, then }) {
  const texts = new Map(then.map(({ path, text }) => [path, text]));
  const paths = tops.map(({ path }) => path);
  const ask = (textOf) => foresee({ objects: way, known, me,
    changes: comingTo(way, tops, me, textOf) });
  const isRead = paths.every((path) => texts.get(path) !== null);
  const cut = ({ path }) => printList(cutOff(readListText(texts.get(path)).list));
  const mine = ({ kind }) => `list:p\nA:${kind === 'folder' ? 'fd' : ''}:${me}:rwxC\n`;
  const [opened, closed] = await Promise.all([isRead ? ask(cut) : null, ask(mine)]);
  const named = (said, holds) => namedAt(said, paths, known, holds).map(({ name }) => name);
  return { readers: opened && named(opened, readsAt(opened, AFTER)),
    removers: named(closed, (caller, path) => caller.user !== me
      && closed.at(path, caller, AFTER)?.removes) };
}
