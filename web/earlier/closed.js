// What comes back for me alone: it is closed before anything is in it. Where it gets its lists of
// that night, it stays closed until all of it is there.

import * as api from '../net/api.js';
import { LETTERS, isInherited, printEntry, printList } from '../acl/entries.js';
import { isException } from '../acl/inherit.js';
import { cutOff } from '../acl/levels.js';
import { putDocument } from '../net/in_pieces.js';
import { seeList, setIfSame } from '../net/matched_list.js';
import { documentThen } from '../net/nights.js';
import { ListsThen } from './readers_then.js';

const mineAlone = (me, kind) => ({ type: 'A', flags: kind === 'folder' ? 'fd' : '', who: me,
  mask: LETTERS });

// Sets a list of what was made just now.
async function setList(path, text) {
  const isSet = await setIfSame('dacl', path, text, await seeList('dacl', path));
  if (!isSet) throw new api.Refusal(412, null, { method: 'PUT', word: 'dacl', path });
}

// What couldn't be closed isn't left open.
async function close(path, kind, me) {
  const first = kind === 'folder' ? 'list:ap' : 'list:p';
  try {
    await setList(path, `${first}\n${printEntry(mineAlone(me, kind))}\n`);
  } catch (fault) {
    await api.remove(path).catch(() => {});
    throw fault;
  }
}

// Brings back {path, kind}, and closes it first if it 'isTop', with nothing of it in sight before.
// What somebody else made there meanwhile is a fault.
export async function bringClosed(night, { path, kind }, isTop, me) {
  if (kind === 'folder') {
    await api.makeFolder(path);
    if (isTop) await close(path, kind, me);
    return;
  }
  const made = { 'If-None-Match': '*' };
  const file = await documentThen(night, path);
  if (!isTop) await putDocument(path, file, made);
  else {
    const { tag } = await putDocument(path, new Blob([]), made);
    await close(path, kind, me);
    await putDocument(path, file, { 'If-Match': tag ?? '*' });
  }
}

// The list of that night as it is sent: at the top it is cut off from today's folder, and I still
// manage it.
function listFor(list, isTop, kind, me) {
  if (!isTop) return { ...list, entries: list.entries.filter((entry) => !isInherited(entry)) };
  const cut = cutOff(list);
  const [first] = cut.entries;
  const isMine = first?.type === 'A' && first.who === me && first.mask.includes('C')
    && !/[gi]/.test(first.flags);
  return isMine ? cut : { ...cut, entries: [mineAlone(me, kind), ...cut.entries] };
}

// Gives what came back its lists of that night, from the inside out, so that nobody gets in before
// all of it is as it was. Returns the paths where that failed, which stay closed.
export async function giveLists(night, brought, isTop, me) {
  const lists = new ListsThen(night);
  for (const { path, kind } of [...brought].reverse()) {
    const list = await lists.at(path);
    if (list !== null && (isTop(path) || isException({ list, kind }))) {
      try {
        await setList(path, printList(listFor(list, isTop(path), kind, me)));
      } catch {
        // A list further in that lacks would open it.
        return brought.filter((one) => isTop(one.path)).map((one) => one.path);
      }
    }
  }
  return [];
}
