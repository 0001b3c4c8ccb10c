// What a new list would bring about, in sentences with people's names. Nothing here draws.

import { texts } from '../language/language.js';
import { nameOf } from '../net/api.js';
import { UNNAMED } from '../acl/question.js';
import { dayWords, isOld } from '../net/directory.js';
import { insideWords } from '../text/removers.js';
import { WHO_HAS_ACCESS, lossWords } from '../text/loss.js';
import { isolated } from '../text/words.js';
import { partyName } from '../text/parties.js';
import { shortened } from '../text/who_is.js';
import { subjectsOf } from './subjects.js';
import { unreadNames } from '../text/unread.js';
import { lessWords } from '../text/would_words.js';

export const MOST_NAMED = 6;
const MOST_PLACES = 6;
const FEW = 3;

export const placeName = (path) => (path === '/' ? texts.places.allQuoted
  : texts.places.quoted(isolated(nameOf(path))));
export const levelWords = (level, kind) => texts.access.level(level, kind);

// What they may then remove beyond what their level says.
const beyondLevel = ({ to, gained }) => (['remove', 'manage'].includes(to) ? []
  : gained.filter((one) => one !== 'own'));

// Of somebody whose level stays as it is.
function sameLevelWords({ from, more, gained, lost, isRemoval }) {
  if (isRemoval ? gained.length + lost.length === 0 : !more || gained.length === 0) {
    return more ? texts.outcome.moreRights : texts.outcome.otherRights;
  }
  const words = texts.outcome.removals(gained, lost, from === 'none');
  return isRemoval ? words : texts.outcome.withMore(words);
}

// Of a person whose groups aren't known, no more can be said than what this list gives.
const isAllKnown = ({ user, isExact, isPerhaps }) => user === null || isExact || isPerhaps;

function changeWords(change, kind) {
  const { from, to, more, isBeyond } = change;
  if (from === to) return sameLevelWords(change);
  const removals = beyondLevel(change);
  const whole = (words) => (isBeyond ? texts.outcome.withMore(words) : words);
  if (more) return whole(texts.outcome.gains(to, kind, removals));
  if (to !== 'none') return whole(texts.outcome.loses(from, to, kind, removals));
  const say = isAllKnown(change) ? texts.outcome.losesAll : texts.outcome.losesByList;
  return say(from, kind);
}

export const shownName = (known) => (caller) => partyName(caller, known);

// What is imagined in a folder is whatever is there; what follows it and differs is some of that.
function atWords(words, { path, kind, isSome }) {
  const [folder, ...rest] = path.split(`/${UNNAMED}`);
  const ofFolders = isSome ? texts.outcome.atSomeFoldersIn : texts.outcome.atFoldersIn;
  const ofDocuments = isSome ? texts.outcome.atSomeInside : texts.outcome.atInside;
  const inside = kind === 'folder' ? ofFolders : ofDocuments;
  const say = rest.length === 0 ? texts.outcome.at : inside;
  return say(words, isolated(folder === '' ? '/' : folder));
}

// Those who have the same words share a line: [{look, head, words, names}]. 'told' are {look, head,
// words, caller}.
function joinedLines(told, known) {
  const groups = new Map();
  for (const { caller, ...line } of told) {
    const key = `${line.head} ${line.words}`;
    const names = [...groups.get(key)?.names ?? [], shownName(known)(caller)];
    groups.set(key, { ...line, names });
  }
  return [...groups.values()].map((line) => (
    { ...line, words: texts.outcome.line(shortened(line.names, MOST_NAMED), line.words) }));
}

// Of an owner who isn't known it isn't known either what they have by other lines.
function headOf({ more, owns }) {
  const { gain, loss, perhapsGain, perhapsLoss } = texts.outcome.heads;
  if (owns) return more ? perhapsGain : perhapsLoss;
  return more ? gain : loss;
}

// The place is null for the object itself.
const changeLines = (changes, kind, known, place = null) => joinedLines(changes.map((caller) => {
  const words = changeWords(caller, kind);
  return { look: caller.more ? 'gain' : 'loss', head: headOf(caller), caller,
    words: place === null ? words : atWords(words, place) };
}), known);

// What those who lose something keep further down, by lines that stand there.
function keptLines({ path, kind, kept }, known) {
  const may = (caller) => {
    const removals = beyondLevel(caller);
    return removals.length > 0 && ['none', 'pass'].includes(caller.to)
      ? texts.outcome.keepsRemoving(removals) : texts.outcome.keeps(caller.to, kind, removals);
  };
  return joinedLines(kept.map((caller) => ({ look: 'loss', head: texts.outcome.heads.keeps, caller,
    words: texts.outcome.keepsAt(may(caller), isolated(path)) })), known);
}

// 'rest' are further lines, which are shown if somebody asks for them.
const plain = (look, head, words, rest = []) => ({ look, head, words, names: [], rest });

const isUnchanged = ({ changes, below, owners, losers, perhaps }) => changes.length + below.length
  + owners.length + losers.length + Object.values(perhaps).flat().length === 0;

// Who gains and who loses: [{look, head, words, names}].
export function saidLines({ known, kind }, outcome, subject) {
  const { gains, losses, below, kept, losers, perhaps } = outcome;
  // Of what wasn't looked at, or isn't known, nothing is said.
  const isAll = outcome.isAll && outcome.isKnown;
  // What the sentence above says already isn't said twice.
  const isNamed = ({ user }) => subjectsOf(subject)
    .some((one) => !one.isGroup && one.who === user);
  const isSaid = gains.every((one) => isNamed(one) && one.to === subject.level
    && beyondLevel(one).length === 0 && !one.isBeyond);
  const deeper = (those) => those.flatMap((one) =>
    changeLines(one.changes, one.kind, known, one));
  const stays = (those) => those.flatMap((one) => keptLines(one, known));
  const [more, moreKept] = [below, kept].map((those) => those.length - MOST_PLACES);
  const isNone = isUnchanged(outcome);
  const isHarmless = losses.length === 0 && losers.length === 0 && perhaps.below.length === 0
    && perhaps.losers.length === 0 && perhaps.changes.every(({ more }) => more)
    && below.every((one) => one.changes.every((each) => each.more));
  return [
    ...isSaid ? [] : changeLines(gains, kind, known), ...changeLines(losses, kind, known),
    ...deeper(below.slice(0, MOST_PLACES)), ...stays(kept.slice(0, MOST_PLACES)),
    moreKept > 0 && plain('loss', texts.outcome.heads.keeps,
      texts.outcome.keepsMore(moreKept), stays(kept.slice(MOST_PLACES))),
    more > 0 && plain('loss', texts.outcome.heads.also, texts.outcome.changesMore(more),
      deeper(below.slice(MOST_PLACES))),
    isAll && isNone && plain('same', texts.outcome.nobody, texts.outcome.nobodyNow),
    isAll && !isNone && isHarmless && plain('same', texts.outcome.nobodyLoses,
      texts.outcome.anything),
  ].filter(Boolean);
}

// What isn't sure, since it isn't known who is in which groups.
export function perhapsLines({ known, kind }, { perhaps }) {
  const { gettingOwn, losingOwn } = texts.outcome;
  const own = (look, say) => (one) => plain(look, '', say(shownName(known)(one), one.count));
  return [...changeLines(perhaps.changes, kind, known),
    ...perhaps.below.flatMap((one) => changeLines(one.changes, one.kind, known, one)),
    ...perhaps.owners.map(own('gain', gettingOwn)), ...perhaps.losers.map(own('loss', losingOwn))];
}

// That lists on the way can't be read: whom these bar gets nothing here. Whoever doesn't pass the
// top gets nowhere, so of that it isn't told each time. Of the last one 'aboveUnknown' says it.
export function wayWords({ folders }, isKnown = true) {
  const unread = folders.filter(({ path, list }, at) => list === null && path !== '/'
    && (isKnown || at < folders.length - 1)).map(({ path }) => placeName(path));
  return unread.length === 0 ? null : texts.outcome.wayUnread(shortened(unread, FEW));
}

// What isn't known, and what stays as it is.
export function hintsOf(state, outcome) {
  const { known } = state;
  const { hasGroups, isKnown, isOwnNew, apart, unread, changes, below, owners, losers,
    asked } = outcome;
  const names = (paths) =>
    shortened(paths.map((path) => texts.places.quoted(isolated(path))), FEW);
  const isExact = known?.members === true;
  const isUnowned = [...changes, ...below.flatMap((one) => one.changes)].some(({ owns }) => owns);
  return [
    hasGroups && isExact && isOld(known.made) && texts.outcome.groupsAsOf(dayWords(known.made)),
    hasGroups && !isExact && texts.outcome.groupsUnknown,
    isOwnNew && texts.outcome.ownNew,
    ...owners.map((one) => texts.outcome.gettingOwn(shownName(known)(one), one.count)),
    ...losers.map((one) => texts.outcome.losingOwn(shownName(known)(one), one.count)),
    lessWords(asked),
    isUnowned && texts.outcome.notOwned,
    !isKnown && texts.outcome.aboveUnknown,
    !isUnchanged(outcome) && wayWords(state, isKnown),
    changes.length > 0 && apart.length > 0
      && texts.outcome.apart(names(apart.map(({ path }) => path)), apart.length),
    unread.length > 0 && texts.outcome.unreadThere(unreadNames(unread, FEW)),
  ].filter(Boolean);
}

const namesIn = (subject) => shortened(subjectsOf(subject).map(({ name }) => name), FEW);

// What is offered beside the list: [{key, words, isOn, steps, isFirst}]. 'isFirst' says that the
// steps come before the list, and 'isOn' that they are taken unless somebody says otherwise.
export function offersOf({ known }, { opening, left, below, back, keptFrom }, subject) {
  const open = opening.filter(({ next }) => next !== null);
  const passing = [...new Set(open.flatMap((way) => way.callers.map(shownName(known))))];
  const isShown = below.length > 0;
  const placesOf = (steps) => steps.map(({ path }) => placeName(path));
  const pathsOf = (steps) =>
    shortened(steps.map(({ path }) => texts.places.quoted(isolated(path))));
  const letPass = texts.outcome.letPass(shortened(passing, FEW), placesOf(open));
  const ofBack = (isSame, words) => {
    const steps = back.filter((one) => one.isSame === isSame);
    return { key: `back ${isSame}`, isOn: isSame, isFirst: false, steps, words: words(steps) };
  };
  const ofLeft = (sure, words) => {
    const steps = left.filter((one) => one.sure === sure);
    return { key: `left ${sure}`, isOn: sure, isFirst: false, steps,
      words: words(subject?.name, placesOf(steps)) };
  };
  const offers = [
    { key: 'ways', isOn: true, isFirst: true, steps: open,
      words: isShown ? letPass : `${letPass} ${texts.outcome.nothingShown}` },
    ofBack(true, (steps) => texts.outcome.takeKept(pathsOf(steps))),
    ofBack(false, (steps) => texts.outcome.takeGiven(subject?.name, pathsOf(steps))),
    ofLeft(true, texts.outcome.takePassing), ofLeft(false, texts.outcome.takePassingPerhaps),
    { key: 'kept', isOn: false, isFirst: false, steps: keptFrom.steps,
      words: texts.outcome.letRemoveAt(namesIn(subject), pathsOf(keptFrom.steps),
        subject?.level === 'manage') },
  ];
  return offers.filter(({ steps }) => steps.length > 0);
}

// As the panel calls what is protected.
const SET_APART = [texts.warnings.includesApart, texts.warnings.includesSeveralApart];

// What one has to mind: [{kind, text}].
export function warningsOf({ known }, { opening, removal, keptFrom }, subject) {
  const barred = opening.filter(({ next }) => next === null).map(({ path, callers }) => ({
    kind: 'bad',
    text: texts.outcome.cantGet(shortened(callers.map(shownName(known)), FEW), placeName(path)),
  }));
  const { inside, opens } = removal;
  return [...barred,
    ...inside !== null && inside.shut.length > 0
      ? [{ kind: 'bad', text: insideWords(inside, SET_APART, known) }] : [],
    ...keptFrom.others.length > 0 ? [{ kind: 'unsure', text: texts.outcome.removesNotAt(
      namesIn(subject), shortened(keptFrom.others.map((path) =>
        texts.places.quoted(isolated(path)))), subject?.level === 'manage') }] : [],
    ...opens ? [{ kind: 'unsure', text: texts.outcome.moves }] : []];
}

// That I lose the list, and who could give it back: {title, text}.
export function lockWords({ known }, { loss, exact, nobody, givers }) {
  const { title, text } = lossWords(loss, WHO_HAS_ACCESS);
  const names = shortened(givers.map(shownName(known)), FEW);
  const others = givers.length > 0 && exact ? texts.outcome.givers(names) : text;
  return { title, text: nobody ? texts.outcome.noGiver : others };
}
