// List texts and entries, by the rules of docs/access-lists.md and docs/list-text.md.

export const LETTERS = 'rwanNxDtThHdcCoy';
const FLAGS = 'fdniSFgI';
const TYPES = 'ADUL';
export const SPECIAL = ['OWNER@', 'GROUP@', 'EVERYONE@', 'ANONYMOUS@', 'AUTHENTICATED@'];
const NAME = /^[A-Za-z0-9._\-+$\\]{1,64}(@[A-Za-z0-9.-]{1,64})?$/;
const MOST_ENTRIES = 4096;
const MOST_OWN = 64;

export const isName = (text) => NAME.test(text);
const isWho = (text) => SPECIAL.includes(text) || isName(text);
export const isInherited = (entry) => entry.flags.includes('I');
export const isGroup = (entry) => entry.flags.includes('g') && !SPECIAL.includes(entry.who);

// Each letter once, in the order in which they are printed.
const inOrder = (order, letters) => [...order].filter((one) => letters.includes(one)).join('');
export const orderMask = (letters) => inOrder(LETTERS, letters);
export const orderFlags = (letters) => inOrder(FLAGS, letters);
const onlyOf = (order, letters) => [...letters].every((one) => order.includes(one));

// {type, flags, who, mask}, all texts, or {fault}.
export function readEntry(line) {
  const parts = line.split(':');
  if (parts.length !== 4) return { fault: 'A5' };
  const [type, flags, who, mask] = parts;
  if (type.length !== 1 || !TYPES.includes(type)) return { fault: 'A1' };
  if (!onlyOf(FLAGS, flags)) return { fault: 'A2' };
  if (!isWho(who)) return { fault: 'A3' };
  if (!onlyOf(LETTERS, mask)) return { fault: 'A4' };
  return { entry: { type, flags: orderFlags(flags), who, mask: orderMask(mask) } };
}

export const printEntry = (entry) => `${entry.type}:${entry.flags}:${entry.who}:${entry.mask}`;

// The lines as the room counts them: what follows the last LF is a line, unless it is empty.
export function linesOf(text) {
  const lines = text.split('\n');
  if (lines.at(-1) === '') lines.pop();
  return lines.map((line) => (line.endsWith('\r') ? line.slice(0, -1) : line));
}

const isSkipped = (line) => /^[ \t]*$/.test(line) || line.startsWith('#');
const isUnicode = (line) => !/\p{Surrogate}/u.test(line);

// The fault of an entry's line; without one, the entry is added.
function takeEntry(list, line) {
  const { entry, fault } = readEntry(line);
  if (fault) return fault;
  list.entries.push(entry);
  if (list.entries.length > MOST_ENTRIES) return 'A7';
  if (list.entries.filter((one) => !isInherited(one)).length > MOST_OWN) return 'A8';
  return null;
}

function takeListLine(list, line) {
  const flags = /^list:([ap]*)$/.exec(line);
  if (!flags) return 'A6';
  list.auto = flags[1].includes('a');
  list.protect = flags[1].includes('p');
  return null;
}

// {list: {auto, protect, entries}}, or {fault: {line, code}} for the first line that has one.
export function readListText(text) {
  const list = { auto: false, protect: false, entries: [] };
  const lines = linesOf(text);
  let begun = false;
  for (const [index, line] of lines.entries()) {
    if (isSkipped(line)) continue;
    const taken = begun ? takeEntry : takeListLine;
    const code = isUnicode(line) ? taken(list, line) : 'A13';
    if (code) return { fault: { line: index + 1, code } };
    begun = true;
  }
  return begun ? { list } : { fault: { line: lines.length + 1, code: 'A6' } };
}

export function printList(list) {
  const first = `list:${list.auto ? 'a' : ''}${list.protect ? 'p' : ''}`;
  return [first, ...list.entries.map(printEntry)].map((line) => `${line}\n`).join('');
}

// The line of the text that has the entry at a place, both counted from 1.
export function lineOfEntry(text, place) {
  let seen = -1;
  for (const [index, line] of linesOf(text).entries()) {
    if (isSkipped(line)) continue;
    seen += 1;
    if (seen === place) return index + 1;
  }
  return null;
}

// What an entry is that somebody adds.
export function newEntry(which, kind) {
  const reach = kind === 'folder' ? 'fd' : '';
  if (which === 'sacl') {
    return { type: 'U', flags: `${reach}F`, who: '', mask: kind === 'folder' ? 'rx' : 'r' };
  }
  return { type: 'A', flags: reach, who: '', mask: 'rxtc' };
}
