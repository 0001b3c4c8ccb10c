// Who has access, and what a change of it brings about, in English.

import { capital, formsOf, small } from './forms.js';

const { number, and, or, count } = formsOf('en-GB', 'and', 'or');

const LEVELS = {
  pass: 'Can pass through',
  clear: 'Can remove what is there',
  drop: 'Can drop documents in',
  see: 'Can see the names here',
  read: 'Can read',
  add: 'Can read and add',
  change: 'Can add and change',
  remove: 'Can add, change and remove',
  manage: 'Can manage',
  custom: 'Custom',
};
const LEVELS_OF_DOCUMENT = { ...LEVELS, change: 'Can change', remove: 'Can change and remove' };
const levelOf = (level, kind) => (kind === 'document' ? LEVELS_OF_DOCUMENT : LEVELS)[level];

const HINTS = {
  pass: 'to what is named to them further down; sees nothing here',
  clear: 'by this line alone; sees nothing here',
  drop: 'sees nothing of what is there',
  see: 'not what is in them',
  read: 'sees and downloads',
  add: 'what is there stays as it is',
  change: 'reads, adds and changes; removes only what they added',
  remove: 'removes and renames what others added, too',
  manage: 'everything, and decides who has access',
};

const VERBS = {
  read: 'read', change: 'add to and change', remove: 'add to, change and remove from',
  manage: 'manage',
};
const VERBS_OF_DOCUMENT = { ...VERBS, change: 'change', remove: 'change and remove' };
const doesTo = (level, kind, place) => (kind === 'document'
  ? `${VERBS_OF_DOCUMENT[level]} ${place}` : `${VERBS[level]} ${place} and what is in it`);
const untilEnd = (day) => (day === null ? '' : ` until ${day}, as far as the nightly run can`);
// 'who' are these members, if there are some.
const someone = (who, members) =>
  `${capital(who)}${members.length === 0 ? '' : ` (${members.join(', ')})`}`;

export const EN_ACCESS = {
  level: levelOf,
  hint: (level, kind) => `${levelOf(level, kind)}: ${
    kind === 'document' && level === 'change' ? 'reads and replaces it' : HINTS[level]}.`,
  // Where nobody may remove what they added.
  hintWithoutOwn: (level, kind) => `${levelOf(level, kind)}: ${
    level === 'change' ? 'reads, adds and changes; removes nothing' : HINTS[level]}.`,
  // 'many' says how many people 'who' are, where that is known.
  thenCan: (who, members, many, level, kind, place, day) =>
    `${someone(who, members)} can then ${doesTo(level, kind, place)}${untilEnd(day)}.`,
  nowCan: (who, members, many, level, kind, place, day) =>
    `${someone(who, members)} can now ${doesTo(level, kind, place)}${untilEnd(day)}.`,
  unsure: (who) => `${who} isn’t among the names that are known here. If it is misspelled, nobody `
    + 'gets access.',
  notByLevels: 'This can’t be said by levels. Change it under “Advanced”.',
  noDate: 'There can’t be an end on this day: it is over, or a name is too long.',
  partOfDate: 'The day isn’t complete. Complete it, or clear it for no end.',
  notChosen: (typed) => `“${typed}” stands in the field and isn’t chosen: choose a name from the `
    + 'list, or clear the field.',
  addedToo: (who) => `${capital(who)} stood in the field, and is added now. Then press “Share” `
    + 'once more.',
  lookedAgain: 'Some minutes went by, so what is further down is looked at again. Then press '
    + '“Share” once more.',
  workedOut: 'It is being worked out who gains and who loses by this.',
  writeMail: 'Write a mail',
  share: 'Share',
  shareAllTheSame: 'Share all the same',
  untilLabel: 'Until, if it is to end',
  until: 'Until',
  onlyIfEnds: 'only if it is to end',
  whatTheyCan: 'What they can do',
  keptFromAbove: 'kept from the folder above',
  fromFolderAbove: 'from a folder above',
  from: (place) => ['from ', place],
  goneGroup: (name) => `${capital(name)} is taken off the list. Members who have access in another `
    + 'way keep that.',
  goneKeeping: (name) => `${capital(name)} is taken off the list. What a group or a folder above `
    + 'gives stays.',
  gone: (name) => `${capital(name)} is taken off the list.`,
  // 'from' says where the level comes from that stays.
  goneHere: (name, level, from) =>
    `${capital(name)} is taken off this list. “${level}” stays, ${from}.`,
  removeAccessTo: (place) => `Remove access to ${place}?`,
  removeAccess: 'Remove access',
  removeAccessOf: (name) => `Remove access: ${name}`,
  removeAccessOfGroup: (name) => `Remove access: the group ${name}`,
  takeOff: 'Take off this list',
  takeOffOf: (place) => `Take off the list of ${place}?`,
  takeLine: (name) => `Take off this list: ${name}`,
  takeLineOfGroup: (name) => `Take off this list: the group ${name}`,
  takeOffAllTheSame: 'Take off all the same',
  notThis: (name) => `Not ${name}`,
  removeAllTheSame: 'Remove access all the same',
  changeAccess: 'Change access?',
  changeIt: 'Change it',
  changeAllTheSame: 'Change it all the same',
  goes: (place, name, from, to) => `At ${place} ${name} goes from “${from}” to “${to}”.`,
  whatCan: (name) => `What ${name} can do`,
  whatGroupCan: (name) => `What the group ${name} can do`,
  may: (rights) => `may ${and(rights)}`,
  mayNot: (rights) => `may not ${and(rights)}`,
  untilDay: (day) => `until ${day}`,
  wasToEnd: (day) => `was to end on ${day}, and isn’t taken back yet`,
  doesntEnd: (day) =>
    `was to end on ${day}, but was changed since: it doesn’t end by itself`,
  theGroup: (name) => `the group ${name}`,
  hasNoEnd: (name) => `The access of ${name} has no end.`,
  ends: (name, day) =>
    `The access of ${name} ends on ${day}, as far as the nightly run can.`,
  lastDay: (name) => `Last day of ${name}`,
  lastDayOfGroup: (name) => `Last day of the group ${name}`,
  removesNothing: (level) => `${level}, removes nothing here`,
  removesNoFolders: (level) => `${level}, removes no folders here`,
  letRemoveHere: 'Let them remove here too',
  letRemoveHereFor: (name) => `Let ${name} remove here too`,
  letRemoveTitle: 'Let them remove here too?',
  letThem: 'Let them',
  letAllTheSame: 'Let them all the same',
  letRemoveSays: (name, level) => `By the folder above, ${name} has “${level}”. What others made `
    + 'is kept in place here; then it isn’t for them.',
  set: 'Set',
  noEnd: 'no end',
  onTheWay: (names) => `Only on the way to something further down: ${and(names)}`,
  why: {
    denies: 'Something here is denied to somebody, so the order of the lines counts. This list is '
      + 'changed under “Advanced”.',
    order: 'Somebody here may remove only in part, so the order of the lines counts. This list is '
      + 'changed under “Advanced”.',
    apart: 'What is in this folder doesn’t follow its list. It is changed under “Advanced”.',
    unsent: 'There are changes under “Advanced” that you haven’t sent yet.',
  },
  open: 'Whoever may add documents here may also remove and rename what others made.',
  openFirst: 'To add people, first press this.',
  letOnly: 'Let only those remove who are said to',
  own: 'Whoever adds a document may also remove and rename it.',
  allFollows: 'Everything further down follows this list.',
  restFollows: 'Everything else further down follows this list.',
  onlyThese: 'Only these people',
  onlyTheseAllTheSame: 'Only these people all the same',
  cutOff: 'Only these people?',
  cutOffSays: (kind, above) => `This ${kind} then has a list of its own. Whoever gets access to ${
    above} later doesn’t get it here, and whoever loses it there keeps it here.`,
  whomFor: 'Tick whom it is for, and nobody else but those who manage it keeps access. Without a '
    + 'tick all keep what they have.',
  staysAsIs: (names) => `What ${and(names)} can do isn’t said by a level, and stays as it is.`,
  followAgain: (above) => `Follow ${above} again?`,
  followIt: 'Follow it',
  followAllTheSame: 'Follow it all the same',
  followSays: (above) => `Who has access to ${above} then has it here too, now and whenever that `
    + 'changes. Those below keep it.',
  doesntFollow: (kind, above) => `This ${kind} doesn’t follow ${above}.`,
  follows: (kind, above) =>
    `This ${kind} follows ${above}: whoever has access there has it here too.`,
  greyLines: 'The grey lines come from there.',
  ownList: (kind, above) =>
    `This ${kind} has a list of its own: what changes at ${above} doesn’t count here.`,
  keepInPlace: 'Keep things in place?',
  keepThem: 'Keep them in place',
  keepAllTheSame: 'Keep them in place all the same',
  keepSays:
    'Then only those remove and rename who “can add, change and remove” or “can manage”.',
  removersUnseen: (place, kind) => `You may not see who has access to ${place}, so it isn’t known `
    + `who may also remove this ${kind} or move it away.`,
  removers: (place, names, kind) => `By the list of ${place}, or because it is theirs, ${
    and(names)} may also remove this ${kind} or move it away.`,
  onlyTheseThere: 'only these people',
  onlyTheseAre: (names) => `only these people: ${names.join('; ')}`,
  linesThere: 'lines of its own',
  unseen: (names) => `You may not see who has access to ${and(names)}.`,
  documentsIn: (many, place) => `${count(many, 'document', 'documents')} in ${place}`,
  exceptions: 'Exceptions further down',
  ended: (name, day) => `The access of ${name} ended, and was taken back on ${day}.`,
  loose: (name, day) => `${name} was to have access until ${day}, and has none now. The day can be `
    + 'removed under “Advanced”.',
  onlyLook: 'You can see who has access, but not change it.',
  canChangeDocument: 'You can change this document. You may not see who else has access.',
  canPutInto: 'You can put documents into this folder. You may not see who else has access.',
  canRead: (kind) => `You can read this ${kind}. You may not see who else has access.`,
  cantRead: (kind) => `You can’t read this ${kind}. You may not see who else has access.`,
  changedMeanwhile: 'Somebody else changed who has access meanwhile, so nothing was sent. This is '
    + 'how it is now: do it again.',
  wayStays: (places) => `${and(places)} ${places.length === 1 ? 'lets' : 'let'} somebody pass `
    + 'through now, which couldn’t be taken back. Do that there, under “Only on the way”.',
  lineChanged: (place) => `Somebody changed ${place} meanwhile: its line stays.`,
  lineStays: (place) => `The line at ${place} stays.`,
  notAdded: (place) => `Somebody changed ${place} meanwhile: nothing was changed there.`,
  notAddedAt: (place) => `Nothing was changed at ${place}.`,
  takenBack: 'What was sent first was taken back.',
  replaces: 'It takes the place of this list. You see what changes before it is sent.',
  takeList: 'Take this list',
  whichList: 'Which list',
};

const shortOf = (level, kind) => (level === 'none' ? 'no access' : small(levelOf(level, kind)));

const REMOVALS = { it: 'remove it', inside: 'remove what is there',
  own: 'remove what they made there', documents: 'remove documents there',
  folders: 'remove folders there' };
const removing = (what) => what.map((one) => REMOVALS[one]);
const withRemovals = (level, kind, removals) => (removals.length > 0
  ? `${shortOf(level, kind)} and ${and(removing(removals))}` : shortOf(level, kind));

// Words of one who gains or loses. 'gained' and 'lost' are what they may remove: it, inside, own.
export const EN_OUTCOME = {
  heads: {
    gain: 'Gains:', loss: 'Loses:', perhapsGain: 'Perhaps gains:', perhapsLoss: 'Perhaps loses:',
    keeps: 'Keeps:', also: 'Also:',
  },
  line: (names, words) => `${and(names)} – ${words}`,
  at: (words, path) => `${words}, at ${path}`,
  atInside: (words, path) => `${words}, with documents in ${path}`,
  atFoldersIn: (words, path) => `${words}, with folders in ${path}`,
  atSomeInside: (words, path) => `${words}, with some documents in ${path}`,
  atSomeFoldersIn: (words, path) => `${words}, with some folders in ${path}`,
  keepsAt: (words, path) => `${words}, at ${path}, by lines there`,
  withMore: (words) => `${words}, and has some more rights`,
  moreRights: 'some more rights',
  otherRights: 'not the same rights as now',
  // 'isNew' says that they had no access before.
  removals: (gained, lost, isNew) => [
    ...gained.length === 0 ? [] : [`can ${isNew ? '' : 'also '}${and(removing(gained))}`],
    ...lost.length === 0 ? [] : [`can’t ${or(removing(lost))} any more`]].join(', but '),
  gains: withRemovals,
  loses: (from, to, kind, removals) => `${shortOf(from, kind)} now, then ${
    withRemovals(to, kind, removals)}`,
  losesAll: (from, kind) => `no access any more (${shortOf(from, kind)} now)`,
  losesByList: (from, kind) => `no access any more by this list (${shortOf(from, kind)} now)`,
  keeps: withRemovals,
  keepsRemoving: (removals) => `can ${and(removing(removals))}`,
  keepsMore: (places) => `something at ${count(places, 'more place', 'more places')}`,
  changesMore: (places) => `${count(places, 'more place', 'more places')} further down change`,
  showAll: 'Show all',
  nobody: 'Nobody gains or loses anything',
  nobodyNow: 'by this now.',
  nobodyLoses: 'Nobody loses',
  anything: 'anything.',
  notOwned: 'You may not see who owns it, so it isn’t known who that is, and what else they have.',
  gettingOwn: (name, objects) => `${name} then gets at ${count(objects, 'object', 'objects')} of `
    + `their own, and may remove ${objects === 1 ? 'it' : 'them'}.`,
  losingOwn: (name, objects) => `${name} can then no longer remove ${
    count(objects, 'object', 'objects')} of their own.`,
  groupsAsOf: (day) => `Who is in a group is known as of ${day}.`,
  groupsUnknown: 'Who is in a group isn’t known here: members may have more by that.',
  ownNew: 'Whoever made a document here may then also remove and rename it.',
  aboveUnknown:
    'You may not see who has access to the folder above, so it isn’t known who gets it here.',
  wayUnread: (places) => `You may not see who may pass through ${and(places)} on the way here, so `
    + 'it isn’t known who gets here.',
  apart: (names, places) => `Set to “Only these people”, and left as ${
    places === 1 ? 'it is' : 'they are'}: ${and(names)}.`,
  unreadThere: (names) =>
    `You may not see who has access to ${and(names)}: what happens there isn’t known.`,
  letPass: (names, places) => `Let ${and(names)} pass through ${and(places)} on the way here.`,
  nothingShown: 'By that alone nothing there is shown.',
  takeKept: (places) => `Also take back what is kept there: ${and(places)}.`,
  takeGiven: (name, places) =>
    `Also take back what ${name} was given there by itself: ${and(places)}.`,
  takePassing: (name, places) =>
    `Also take back that ${name} may pass through ${and(places)}. Nothing further down needs it `
    + 'any more.',
  takePassingPerhaps: (name, places) => `Also take back that ${name} may pass through ${
    and(places)}. It isn’t known whether something further down needs it.`,
  letRemoveAt: (names, places, isFolder) => `Also let ${and(names)} remove ${
    isFolder ? 'folders that' : 'what'} others made at ${and(places)}, where ${
    isFolder ? 'they are' : 'it is'} kept in place. Otherwise they can’t.`,
  removesNotAt: (names, places, isFolder) => `${capital(and(names))} can’t remove ${
    isFolder ? 'folders that' : 'what'} others made at ${and(places)}: whoever manages that can `
    + 'change it.',
  moves: 'Whoever may remove something can also move it to a folder of their own and open it '
    + 'there, even if they can’t open it here. What is set to “Only these people” stays shut.',
  cantGet: (names, place) => `${capital(and(names))} can’t get here: ${place} doesn’t let them `
    + 'pass through. Whoever manages it can change that.',
  givers: (names) => `Then only ${or(names)} can give it back.`,
  noGiver: 'Nobody else can either: then only the administrator can give it back.',
  all: (many) => `All ${number(many)}`,
  changes: 'Who gains and who loses',
};
