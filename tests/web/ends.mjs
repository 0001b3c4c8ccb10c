// What the page says of accesses with an end date, for tests/web/ends.py, which asks the night:
//
// node ends.mjs PAGE COUNT [SEED]
//
// Each line is {kind, lines, ends, days}: the list, what its lines say of an end, and for some days
// the lines that the page has left then, without any that says an end. Lists are made by the
// panel's own functions, one change after the other, and by hand, from lines that are nearly right.
import { pathToFileURL } from 'node:url';
import { resolve } from 'node:path';

const [page, count, seed = '1'] = process.argv.slice(2);
const base = pathToFileURL(resolve(page)).href;
const { printEntry, printList, readListText } = await import(`${base}/entries.js`);
const { endEntry, endingOf } = await import(`${base}/end_dates.js`);
const { RANKS, cutOff, readLevels, withLevel } = await import(`${base}/levels.js`);
const { passedDown } = await import(`${base}/inherit.js`);

let state = Number(seed);
const random = (below) => {
  state = (Math.imul(state, 1103515245) + 12345) >>> 0;
  return Math.floor((state / 2 ** 32) * below);
};
const pick = (from) => from[random(from.length)];
const some = (most, make) => Array.from({ length: random(most + 1) }, make);

const DAYS = ['2027-05-31', '2027-06-01', '2027-06-02', '2027-12-31'];
const ODD_DAYS = [...DAYS, '0000-01-01', '2027-02-30', '9999-12-31', '0001-01-01'];
const USERS = ['eve', 'bob', 'OFFICE\\fay', 'a+b', 'x@y.example'];
const subject = () => ({ who: pick(USERS), isGroup: random(4) === 0 });
const MASKS = ['x', 'xt', 'wx', 'rxtc', 'rtc', 'rwatc', 'rwaxtc', 'rwaxDtc', 'rwanNxDtThHdcCoy',
  'Dd', 'D', 'd', 'wa', '', 'rxtcy', 'rwaxtcn', 'rxc'];
const FLAGS = ['fd', '', 'd', 'f', 'fdn', 'fdi', 'fi'];

function byHand() {
  const { who, isGroup } = subject();
  const g = isGroup ? 'g' : '';
  const turn = random(8);
  if (turn === 0) return pick(['D:d:EVERYONE@:Dd', 'A:fi:OWNER@:d', 'A::EVERYONE@:xt']);
  if (turn < 4) {
    const level = pick([...RANKS, 'foo', 'Read']);
    const end = endEntry({ day: pick(ODD_DAYS), level, who, isGroup, asker: pick(USERS),
      over: random(6) === 0 });
    if (end === null) return 'A::long:x';
    const nested = random(12) ? end.who : endEntry({ day: pick(DAYS), level: 'pass', who: end.who,
      isGroup: true, asker: 'al' })?.who ?? end.who;
    const name = random(9) ? nested
      : nested.replace(pick(['+', '.', '-']), pick(['.', '+40', '-']));
    return random(12) ? `A:g:${name}:` : pick([`A:gI:${name}:`, `D:g:${name}:`, `A:g:${name}:r`]);
  }
  return `${random(9) ? 'A' : 'D'}:${pick(FLAGS)}${g}${random(6) ? '' : 'I'}:${who}:${pick(MASKS)}`;
}

function byPanel(kind) {
  let list = readListText('list:a\nA:fd:alice:rwanNxDtThHdcCoy\n').list;
  for (let left = 2 + random(5); left > 0; left -= 1) {
    if (random(6) === 0) {
      list = random(2) ? cutOff(list) : { ...list, protect: false, entries: [
        ...list.entries.filter(({ flags }) => !flags.includes('I')),
        ...passedDown(list.entries, kind)] };
      continue;
    }
    const level = pick(kind === 'folder' ? RANKS : ['read', 'change', 'manage', 'remove']);
    const until = random(2) ? { day: pick(DAYS), asker: pick(USERS) } : null;
    list = withLevel(list, kind, subject(), random(5) ? level : null, level === 'pass', until)
      ?? list;
  }
  return list;
}

// As the room has them: each line once taken apart and printed.
function made(kind) {
  if (random(2)) return byPanel(kind);
  const start = random(2) ? printList(byPanel(kind)).trimEnd().split('\n') : ['list:a'];
  for (const line of some(5, byHand)) start.splice(1 + random(start.length), 0, line);
  return readListText(start.join('\n')).list ?? byPanel(kind);
}

for (let left = Number(count); left > 0; left -= 1) {
  const kind = random(3) ? 'folder' : 'document';
  const list = made(kind);
  const ends = list.entries.map(endingOf);
  const { rows } = readLevels(list, kind);
  const leftOn = (day) => list.entries.filter((entry, at) => ends[at] === null && !rows.some(
    (row) => row.ends && row.until < day && row.entries.includes(entry))).map(printEntry);
  console.log(JSON.stringify({ kind, lines: printList(list).trimEnd().split('\n'), ends,
    days: ['2027-05-31', '2027-06-01', '2027-06-02', '2028-01-01'].map((day) => [day, leftOn(day)]),
  }));
}
