// What a dialog says, against what came of it: 'rooms review' before and after.
//
// What is shown is {path, kind, text, lines}: a line has its sentence and all names that it is
// about. A caller is {name, user, groups}: a user of the room, with the groups that count, or null
// for any other name. The states are {at(path, caller), inside(path, caller)}: {rights, removes} of
// the object, and of a document that somebody else has in that folder.

// The names of a sentence. Of who may be in groups the words stay together.
const GROUP = '(?:staff|sales|board|office)';
const SETS = new RegExp(
  `whoever is in ${GROUP}(?:(?:, | and )${GROUP})*|[^, ]+ \\(if in [^)]*\\)`, 'gi');
export function namesIn(text) {
  return [...text.match(SETS) ?? [], ...text.replace(SETS, '').split(/, | and /)]
    .map((one) => one.replace(/^(, |and )/, '').trim()).filter((one) => one !== '');
}

export const plain = (text) => text.replace(/[\u2066-\u2069]/g, '');

// The most that a level is, and what has to be so where it is said.
const MOST = { 'can pass through': 'xt', 'can drop documents in': 'wxat',
  'can see the names here': 'rxtc', 'can read': 'rxtc', 'can read and add': 'rwaxtc',
  'can add and change': 'rwaxtc', 'can change': 'rwaxtc',
  'can add, change and remove': 'rwaxDtc', 'can change and remove': 'rwaxDtc',
  'can manage': 'rwaxDtcCo', 'no access': '', 'can remove what is there': 'D' };
const LEAST = { 'can pass through': ({ here }) => here.includes('x'),
  'can drop documents in': ({ here }) => here.includes('w'),
  'can see the names here': ({ here }) => here.includes('r'),
  'can read': ({ here, inside }) => here.includes('r') && inside.includes('r'),
  'can read and add': ({ here }) => here.includes('r') && here.includes('w'),
  'can add and change': ({ here, inside }) => here.includes('r') && inside.includes('w'),
  'can change': ({ here }) => here.includes('w'),
  'can add, change and remove': ({ here, clears }) => here.includes('r') && clears,
  'can change and remove': ({ here, removes }) => here.includes('w') && removes,
  'can manage': ({ here }) => here.includes('C'),
  'no access': ({ here }) => !/[rwC]/.test(here), 'can remove what is there': () => true };
const ANYTHING = { letters: 'rwaxDtcCo', removes: true };
const REMOVING = ['can add, change and remove', 'can change and remove', 'can manage'];
const REMOVED = { 'remove it': 'it', 'remove what is there': 'inside',
  'remove what they made there': 'own', 'remove documents there': 'document',
  'remove folders there': 'folder' };
// Words that say that there are more rights, and not which: of lists that somebody wrote by hand.
const VAGUE = ['not the same rights as now', 'some more rights', 'custom'];
const ASKED = 'rxwaDtcCo';

// {level, removes} of the words of a line: 'removes' has words of REMOVED. The level is null where
// they are about removing alone.
export function meaningOf(text) {
  const said = text.replace(/ \(.*\)$/, '')
    .replace(/^no access any more( by this list)?$/, 'no access').replace(/^.* now, then /, '');
  if (Object.hasOwn(MOST, said)) return { level: said, removes: [] };
  // So the level isn't all that they have.
  const [rest, more] = said.split(', and has some more rights');
  if (more !== undefined) {
    const { level, removes } = meaningOf(rest);
    return { level, removes, isVague: true };
  }
  const gained = said.replace(/(^|, but )can’t .*$/, '');
  const removes = Object.keys(REMOVED).filter((words) => gained.includes(words))
    .map((words) => REMOVED[words]);
  const level = Object.keys(MOST).findLast((words) => gained.startsWith(`${words} and `));
  const isVague = removes.length === 0 && gained !== '';
  return { level: isVague ? said : level ?? null, removes };
}

// Of one person the level is said in a sentence of its own.
const VERBS = { read: 'can read', change: 'can change', 'add to and change': 'can add and change',
  manage: 'can manage', 'add to, change and remove from': 'can add, change and remove',
  'change and remove': 'can change and remove' };
function sentencesOf({ path, text }) {
  const said = /^(.*) can then (.*?) “/m.exec(text);
  const goes = /^At “.*” (.*) goes from “.*” to “(.*)”/m.exec(text);
  // Whoever can't get here has it once they do, which is said beside.
  const isStopped = (name) => new RegExp(`\\b${name}\\b[^.]* can’t get here`).test(text);
  const claim = (names, level) => ({ isGain: true, isSentence: true, at: path, text: level,
    names: names.replace(/\([^)]*\)/g, '').split(/, | and /)
      .filter((name) => /^\w+$/.test(name) && name !== 'Everyone' && !isStopped(name)),
    ...meaningOf(level) });
  return [...said ? [claim(said[1], VERBS[said[2]])] : [],
    ...goes ? [claim(goes[1], goes[2].toLowerCase())] : []];
}

const WORDS = new RegExp('^(?:.*?) – (.*?)'
  + '(?:, (?:at|with (?:some )?(?:documents|folders) in) (/.*?))?'
  + '(?:, by lines there)?$');
const HEAD = /^(Perhaps )?(gains|loses|keeps): /i;

// What the lines say: [{isGain, isKept, isPerhaps, names, at, level, removes, text}].
export function claimsOf(shown) {
  const { path, lines } = shown;
  return [...sentencesOf(shown), ...lines.flatMap(({ text, names }) => {
    const head = HEAD.exec(text);
    const match = head && WORDS.exec(text.slice(head[0].length));
    if (!match || names.length === 0) return [];
    const word = head[2].toLowerCase();
    return [{ isGain: word === 'gains', isKept: word === 'keeps', isPerhaps: Boolean(head[1]),
      names, at: match[2] ?? path, text: match[1], ...meaningOf(match[1]),
      isInside: /, with (?:some )?(documents|folders) in \//.exec(text)?.[1] ?? null,
      isSome: /, with some \w+ in \//.test(text) }];
  })];
}

const isIn = (path, folder) => path === folder || path.startsWith(`${folder}/`);
const minus = (one, other) => [...one].filter((letter) => !other.includes(letter));
export const asked = ({ rights, removes }) => (
  { letters: [...ASKED].filter((letter) => rights.includes(letter)).join(''), removes });
const OWNERS = 'Whoever made a document here may then also remove and rename it.';

// Whether it is said of a caller's own objects, also if they are in these groups.
const isOwnSaid = (text, { name, groups }, words) => text.includes(`${name} ${words}`)
  || [...text.matchAll(new RegExp(`\\b${name} \\(if in ([^)]*)\\) ${words}`, 'g'))]
    .some(([, those]) => those.split(/, | and /).every((one) => groups.includes(one)));

const TAKEN = /Also take back that (.*?) may pass through ([^.]*)\./;
// Whether it is offered, and ticked, that one no longer passes through a place.
function isTakenBack({ text, covers }, caller, path, lost) {
  const [, names = '', places = ''] = TAKEN.exec(text) ?? [];
  return lost.every((letter) => 'xt'.includes(letter))
    && namesIn(names).some((name) => covers(name, caller))
    && places.includes(`“${path.slice(path.lastIndexOf('/') + 1)}”`);
}

// What wasn't said of what one gains or loses at an object {path, kind, owner}, or null.
export function unsaidAt(said, caller, one, had, has) {
  const { text, claims, covers } = said;
  const about = claims.filter(({ names, at }) => isIn(one.path, at)
    && names.some((name) => covers(name, caller)));
  const isTheirs = one.owner !== null && one.owner === caller.user;
  const lost = minus(had.letters, has.letters)
    .filter((letter) => letter !== 'D' || one.kind !== 'document');
  const isOwnLost = isTheirs && isOwnSaid(text, caller, 'can then no longer remove');
  if (lost.length > 0 || (had.removes && !has.removes && !isOwnLost)) {
    if (!about.some((claim) => !claim.isGain && !claim.isKept)
      && !isTakenBack(said, caller, one.path, lost)) {
      return `lost ${lost.join('')}${had.removes && !has.removes ? ' and removing' : ''}, unsaid`;
    }
  }
  // Whoever can't pass removes nothing.
  const gains = minus(has.letters, had.letters)
    .filter((letter) => letter !== 'D'
      || (has.letters.includes('x') && one.kind !== 'document'));
  const isOwnGot = isTheirs && one.kind === 'document'
    && (text.includes(OWNERS) || isOwnSaid(text, caller, 'then gets at'));
  const removing = has.removes && !had.removes && !isOwnGot;
  const name = one.path.slice(one.path.lastIndexOf('/') + 1);
  const isOpened = new RegExp(`pass through [^.]*“${name}”`).test(text);
  // That somebody passes is said beside.
  const left = gains.filter((letter) => !isOpened || !'xt'.includes(letter));
  gains.splice(0, gains.length, ...left);
  if (gains.length === 0 && !removing) return null;
  const got = `got ${gains.join('')}${removing ? ' and removing' : ''}`;
  const those = nearestIn(about.filter(({ isKept }) => !isKept), (name) => covers(name, caller));
  if (those.length === 0) return `${got}, unsaid`;
  return beyond(those, { one, gains, removing, isTheirs })
    ? `${got}, beyond “${those.map((claim) => claim.text).join('”, “')}”` : null;
}

// Of each name that means the caller what is said nearest, also of documents inside alone.
function nearestIn(claims, isMeant) {
  const found = new Map();
  for (const claim of [...claims].sort((one, other) => one.at.length - other.at.length)) {
    for (const name of claim.names.filter(isMeant)) found.set(`${name} ${claim.isInside}`, claim);
  }
  return [...found.values()];
}

// Whether several that mean one say less together. On a document D says nothing.
const beyond = (claims, { gains, removing, ...rest }) => {
  const left = claims.map((claim) => lessThan(claim, { gains, removing, ...rest }));
  return gains.some((letter) => left.every(({ more }) => more.includes(letter)))
    || (removing && left.every(({ isMore }) => isMore));
};

function lessThan({ level, removes, at, isVague, isInside }, { one, gains, removing, isTheirs }) {
  if (isVague || VAGUE.includes(level)) return { more: [], isMore: false };
  const most = level === null ? '' : MOST[level] ?? ASKED;
  const more = gains.filter((letter) => !most.includes(letter)
    && !(letter === 'D' && (/inside|folder|document/.test(removes) || one.kind === 'document'
      || (isInside && removes.includes('it')))));
  const isRemovingSaid = REMOVING.includes(level) || removes.includes(one.kind)
    || (isTheirs && (level === 'can add and change' || removes.includes('own')))
    || removes.includes(at === one.path || isInside ? 'it' : 'inside');
  return { more, isMore: removing && !isRemovingSaid };
}

// What was said of one who is meant and isn't so, or null. 'kindOf' says what stands at a path.
export function wrongOf(claim, caller, kindOf, before, after) {
  if (claim.isInside) {
    // What a folder has there that only follows isn't known.
    if (claim.isInside === 'folders' || after.inside(claim.at, caller) === null) return null;
    return wrongOf({ ...claim, isInside: null, at: `${claim.at}/other` }, caller,
      () => 'document', before, after);
  }
  const [had, has] = [before, after].map((state) => state.at(claim.at, caller));
  const isFolder = kindOf(claim.at) === 'folder';
  const inside = isFolder ? after.inside(claim.at, caller) ?? ANYTHING : has;
  const so = { here: has.letters, inside: inside.letters, removes: has.removes,
    clears: inside.removes };
  const said = `“${claim.text}” at ${claim.at}`;
  if (claim.level !== null && Object.hasOwn(LEAST, claim.level) && !LEAST[claim.level](so)) {
    return `${said} isn’t so: ${so.here}, inside ${so.inside}`;
  }
  if (claim.removes.includes('it') && !has.removes) return `${said}: can’t remove it`;
  if (claim.isKept || claim.isSentence) return null;
  const isSame = (one, other) => one.letters === other.letters && one.removes === other.removes;
  return isFolder || !isSame(had, has) ? null : `${said}: nothing changes`;
}

// Whoever loses something here and can do more further down, by lines there, is named.
export function unkept({ path: top, claims, covers, placesBelow }, caller, before, after) {
  const letters = (state, path) => state.at(path, caller).letters;
  if (minus(letters(before, top), letters(after, top)).length === 0) return null;
  const has = [...letters(after, top)].filter((letter) => 'rwC'.includes(letter));
  const place = placesBelow.find((path) => [...letters(after, path)].some((letter) =>
    'rwC'.includes(letter) && !has.includes(letter) && !(letter === 'w' && has.includes('C')))
    && !claims.some(({ isKept, names, at }) => isKept && at === path
      && names.some((name) => covers(name, caller))));
  return place ? `keeps ${letters(after, place)} at ${place}, unsaid` : null;
}

const THEIRS = 'what is theirs there: ';

// What is said of one person, {who, lines: [{path, words, groups}]}, against what they may do: of a
// line that isn't so, or of more than is said. 'reads' are the objects that were to be looked at.
export function looksWrong({ who, lines }, callers, objects, state) {
  const told = [];
  for (const caller of callers.filter(({ user }) => user === who)) {
    const those = lines.filter(({ groups }) => groups.every((one) =>
      caller.groups.includes(one))).map((one) => ({ ...one, ...meaningOf(one.words) }));
    const kindOf = (path) => objects.find((one) => one.path === path)?.kind;
    for (const { path, words, ...claim } of those) {
      if (claim.groups.length !== caller.groups.length) continue;
      const places = words.startsWith(THEIRS) ? objects.filter((one) => one.owner === who
        && one.list === null && one.path.startsWith(`${path}/`)).map((one) => one.path) : [path];
      const found = places.map((at) => wrongOf({ ...claim, ...meaningOf(words.replace(THEIRS, '')),
        at, text: words, isKept: true }, caller, kindOf, state, state));
      // Of what is theirs it has to be so of one.
      if (found.every(Boolean)) told.push(`${who} ${caller.groups}: ${found[0] ?? words}`);
    }
    for (const one of objects) {
      const has = state.at(one.path, caller);
      const isTheirs = one.owner === who;
      const near = those.filter(({ path, words }) => isIn(one.path, path)
        && (isTheirs || !words.startsWith(THEIRS)));
      const gains = [...has.letters].filter((letter) => letter !== 'D'
        || has.letters.includes('x'));
      const isSaid = near.some((claim) => !beyond([{ ...claim, at: claim.path }],
        { one, gains, removing: has.removes, isTheirs }));
      const isTheirsSaid = isTheirs && near.some(({ words }) => words.startsWith(THEIRS));
      if ((gains.length > 0 || has.removes) && !isSaid && !isTheirsSaid) {
        told.push(`${who} ${caller.groups} has ${has.letters} at ${one.path}${
          has.removes ? ', and removes it' : ''}, unsaid`);
      }
    }
  }
  return told;
}
