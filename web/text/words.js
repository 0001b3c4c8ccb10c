// Letters, entries and faults in the words of an office.

import { isGroup, isInherited, readEntry } from '../acl/entries.js';
import { UNREADABLE, namesOf } from '../net/api.js';
import { mostBytes } from '../net/large.js';
import { texts } from '../language/language.js';
import { doorWords } from './door_words.js';
import { marked } from './invisible.js';

// The rights in the groups in which the page shows them. 'idle' ones are kept, but no request asks
// for them.
export const GROUPS = [
  { word: 'read', letters: 'rxtc', idle: 'n' },
  { word: 'write', letters: 'wa', idle: 'NT' },
  { word: 'manage', letters: 'Co', idle: 'hHy' },
  { word: 'remove', letters: 'Dd', idle: '' },
];

export const groupName = ({ word }, kind) =>
  (kind === 'document' ? texts.rights.groupsOfDocument : texts.rights.groups)[word];

const ASKED_RIGHTS = GROUPS.map((group) => group.letters).join('').length;

export function rightWords(letter, kind = 'both') {
  const words = texts.rights.letters[letter];
  return words[kind] ?? words.both;
}

// Rights that no request asks for are named only if there are no others.
export function rightsIn(mask, kind) {
  const isAsked = (letter) => GROUPS.some((group) => group.letters.includes(letter));
  const asked = [...mask].filter(isAsked);
  if (asked.length === ASKED_RIGHTS) return texts.rights.everything;
  return (asked.length > 0 ? asked : [...mask]).map((letter) => rightWords(letter, kind));
}

// 'all', 'some' or 'none' of a group's letters.
export function coverageOf(group, mask) {
  const held = [...group.letters].filter((letter) => mask.includes(letter));
  if (held.length === group.letters.length) return 'all';
  const hasIdle = [...group.idle].some((letter) => mask.includes(letter));
  return held.length > 0 || hasIdle ? 'some' : 'none';
}

// Somebody may be called 'constructor'.
const nameIn = (special, { who }, say) =>
  (Object.hasOwn(special, who) ? special[who] : say(who));
export const whoWords = (entry) => nameIn(texts.who.special, entry,
  isGroup(entry) ? texts.who.group : texts.who.user);
// The same as the object of a sentence.
export const whomWords = (entry) => nameIn(texts.who.whom.special, entry,
  isGroup(entry) ? texts.who.whom.group : texts.who.whom.user);

// Where an entry counts, by its flags f, d, n, i, in the order in which they are offered.
export const REACHES = ['', 'fd', 'f', 'd', 'fdi', 'fi', 'di', 'fdn']
  .map((flags) => [flags, texts.advanced.reaches[flags || 'here']]);

export function reachWords(entry) {
  const reach = [...'fdni'].filter((flag) => entry.flags.includes(flag)).join('');
  const known = REACHES.find(([flags]) => flags === reach);
  if (known) return known[1];
  const wider = REACHES.find(([flags]) => flags === reach.replace('n', ''));
  return wider ? texts.advanced.oneLevel(wider[1]) : texts.advanced.nowhere;
}

// An entry's text as half a sentence: 'denies the group interns to write ..'.
export function entryWords(text, kind = 'both') {
  const { entry } = readEntry(text);
  if (!entry) return text;
  const say = isInherited(entry) ? texts.advanced.inheritedEntry : texts.advanced.entry;
  return say(entry.type, whomWords(entry), rightsIn(entry.mask, kind));
}

export const placeWords = (path) => {
  const names = namesOf(path);
  return names.length === 0 ? texts.places.top
    : texts.places.quoted(isolated(`/${names.join('/')}`));
};

// A name in its own direction, inside a sentence.
export const isolated = (name) => `\u2068${marked(name)}\u2069`;

export const faultWords = (code) => texts.faults.ofLists[code] ?? texts.faults.ofList(code);

function badRequest(body) {
  const [why, code] = (body?.why ?? '').split(' ');
  if (why === 'bad-target' && texts.faults.targets[code]) return texts.faults.targets[code];
  if (why === 'bad-user') return texts.faults.badUser;
  return why === 'bad-body' ? texts.faults.badBody : texts.faults.badRequest(why);
}

// The kind of the object at which a request was denied, as far as the request tells it.
function kindAt(denial, asked) {
  if (/[xD]/.test(denial.bits) || asked?.word === 'folder') return 'folder';
  if (asked?.word === 'doc') return denial.at === asked.path ? 'document' : 'folder';
  return /[wa]/.test(denial.bits) && asked?.word === 'move' ? 'folder' : 'both';
}

function mayNotWords(denial, asked) {
  const place = placeWords(denial.at);
  if (asked?.isRename && /[dD]/.test(denial.bits)) {
    return texts.folder.mayNotRename(placeWords(asked.path));
  }
  // Where no entry says who may remove something, the right to put documents beside it decides.
  if (asked?.word === 'object' && denial.bits === 'w') return texts.faults.deniedRemoval(place);
  const kind = kindAt(denial, asked);
  const here = kind === 'folder' ? texts.faults.deniedHere : {};
  return texts.faults.denied(place,
    [...denial.bits].map((letter) => here[letter] ?? rightWords(letter, kind)));
}

// Said where it isn't known whom to ask.
const ASK = texts.ask.whoever;

// What I may not do and where, and what says so, or null: {text, why}. 'asked' is the request, and
// 'ask' says whom to ask.
export function denialWords(denial, asked, ask = ASK) {
  if (denial?.why === 'first') return { text: texts.faults.first, why: null };
  if (!denial?.bits) return { text: texts.faults.frontEnd, why: null };
  const why = denial.entry === null ? texts.faults.noEntry
    : texts.faults.byEntry(denial.entry, entryWords(denial.text), isolated(denial.text));
  return { text: `${mayNotWords(denial, asked)} ${ask}`, why };
}

// Any refusal as a sentence that says what to do, and whom to ask, where that is known.
export function sentenceOf(fault, ask = ASK) {
  const changes = fault.asked && fault.asked.method !== 'GET';
  const isAnswer = fault.status >= 400 && fault.status < 500;
  const text = answerWords(fault, ask);
  return fault.repeated && changes && isAnswer ? `${text} ${texts.faults.twice}` : text;
}

function conflictWords(why, at) {
  const words = texts.faults.conflicts[why] ?? texts.faults.conflict;
  return typeof words === 'string' ? words : words(at);
}

// A list has a limit of its own, which nginx keeps, and names no object.
function longWords({ body, asked }, at) {
  const ofList = texts.faults.longLists[asked?.word];
  if (ofList) return ofList;
  return body?.at ? texts.faults.largeAt(at, mostBytes()) : texts.faults.largeThis(mostBytes());
}

function answerWords(fault, ask) {
  const { status, body } = fault;
  if (status === undefined) return texts.faults.page(fault.message);
  const at = body?.at ? placeWords(body.at) : texts.places.that;
  if (status === 400) return badRequest(body);
  if (status === 403) return denialWords(body, fault.asked, ask).text;
  if (status === 404) return texts.faults.nothingAt(at);
  if (status === 409) return conflictWords(body?.why, at);
  if (doorWords(fault) !== null) return doorWords(fault);
  if (status === 413) return longWords(fault, at);
  if (status === 507 && Number.isSafeInteger(body?.left)) return texts.faults.leftFor(body.left);
  if (status === 422) return faultWords(body?.why?.split(' ')[1]);
  const word = { 0: 'lost', [UNREADABLE]: 'unreadable' }[status] ?? status;
  return texts.faults.statuses[word] ?? texts.faults.status(status);
}

// Why a name can't be an object's, or null.
export function nameFault(name) {
  if (name === '') return texts.faults.noName;
  if (name === '.' || name === '..') return texts.faults.specialName;
  if (name.includes('/')) return texts.faults.slash;
  if (/[\u0000-\u001f\u007f]/.test(name) || /\p{Surrogate}/u.test(name)) {
    return texts.faults.characters;
  }
  const { length } = new TextEncoder().encode(name);
  return length > 255 ? texts.faults.longName : null;
}
