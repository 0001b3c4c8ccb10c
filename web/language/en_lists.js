// Rights and lists, entry by entry, and what they would bring about, in English.

import { capital, formsOf } from './forms.js';

const { and } = formsOf('en-GB', 'and', 'or');

export const EN_RIGHTS = {
  groups: {
    read: 'Read', write: 'Write', manage: 'Manage', remove: 'Remove and rename what others made',
  },
  groupsOfDocument: {
    read: 'Read', write: 'Write', manage: 'Manage', remove: 'Remove and rename it',
  },
  letters: {
    r: {
      document: 'read it', folder: 'see what is in it',
      both: 'read documents or see what is in folders',
    },
    x: { both: 'pass through to what is in it' },
    t: { both: 'see its kind, owner and group' },
    c: { both: 'see its access lists' },
    n: { both: 'read named attributes' },
    w: {
      document: 'replace its contents', folder: 'put new documents into it',
      both: 'replace documents or put new ones into folders',
    },
    a: {
      document: 'add to its end', folder: 'make folders in it',
      both: 'add to documents or make folders',
    },
    D: { both: 'remove or move away what is in it' },
    d: { both: 'remove it or move it away' },
    N: { both: 'write named attributes' },
    T: { both: 'write attributes' },
    C: { both: 'change its access lists' },
    o: { both: 'change its owner and group' },
    h: { both: 'write retention' },
    H: { both: 'write retention hold' },
    y: { both: 'synchronize' },
  },
  everything: ['do everything'],
};

// How an entry is told beside its text. 'who' is the object of the sentence.
const VERBS = { A: 'allows', D: 'denies', U: 'records of', L: 'gives alarm of' };
const entry = (type, who, rights) =>
  `${VERBS[type]} ${who} ${rights.length === 0 ? 'nothing' : `to ${and(rights)}`}`;

// The line of a list that decides something, and where that list is.
const byLine = (line, place) => `By line ${line} of ${place === null ? 'its list'
  : `the list of ${place}`}`;

export const EN_ADVANCED = {
  types: { A: 'Allow', D: 'Deny', U: 'Audit', L: 'Alarm' },
  reaches: {
    here: 'only here',
    fd: 'here and all below',
    f: 'here and documents below',
    d: 'here and folders below',
    fdi: 'all below, not here',
    fi: 'documents below, not here',
    di: 'folders below, not here',
    fdn: 'here and one level below',
  },
  oneLevel: (reach) => `${reach}, one level deep`,
  nowhere: 'nowhere',
  entry,
  inheritedEntry: (type, who, rights) =>
    `${entry(type, who, rights)} (it comes from a folder above)`,
  outcomes: {
    F: 'what was refused', S: 'what was granted', SF: 'both', none: 'nothing',
  },
  type: 'Type',
  who: 'Who',
  user: 'User',
  group: 'Group',
  rights: 'Rights',
  records: 'Records',
  reach: 'Where it counts',
  kept: 'Kept, but nothing asks for it',
  single: 'Single rights: ',
  noLetters: 'none',
  inPart: (group) => `${group} in part`,
  nothing: 'nothing',
  asText: 'The list as text',
  line: (line, fault) => `Line ${line}: ${fault}`,
  form: (form) => ['The first line is “list:” with a (pass on) and p (protect). Then an entry '
    + 'stands on each line: ', form, '. Entries with the flag I come from a folder above.'],
  // The parts of an entry, as its text has them.
  parts: 'type:flags:who:rights',
  decides: 'The list is read from top to bottom: each right is decided by the first entry that '
    + 'applies to the caller and has that right. What no entry allows is denied.',
  recording: 'These entries grant and deny nothing. They make the room record what was tried.',
  unsent: 'Your changes have no effect until you send them.',
  table: 'Table',
  text: 'Text',
  ways: 'Ways to look at the list',
  sent: 'The list was sent and counts from now on.',
  review: 'Review and send',
  drop: 'Drop changes',
  ready: 'Ready-made lists',
  mayOnlyLook: 'You may look at this list, but not change it (C).',
  order: 'Order',
  orderAndRemoval: 'Order and removal',
  moveUp: (entryNumber) => `Move entry ${entryNumber} up`,
  moveDown: (entryNumber) => `Move entry ${entryNumber} down`,
  removeEntry: (entryNumber) => `Remove entry ${entryNumber}`,
  fromAbove: 'from above',
  faultAt: (entryNumber, fault) => `Entry ${entryNumber}: ${fault}`,
  passOn: 'Pass on',
  passOnHint: 'What lies in this folder follows this list, also when it changes.',
  protect: 'Protect',
  protectHint: 'Nothing comes here from the folder above any more. The grey entries stay as they '
    + 'are now, unless they are dropped.',
  dropGrey: 'Drop the grey entries',
  number: 'No.',
  unread: (line, fault) =>
    `The text can’t be read: line ${line}. ${fault} Correct it under “Text”.`,
  add: 'Add an entry',
  empty: 'The list has no entries.',
  caption: 'Entries in order. The first one that applies to a caller and has a right decides it.',
  fresh: 'New: ',
  gone: 'Gone: ',
  sendChanges: 'Send these changes?',
  send: 'Send',
  changedElsewhere: 'The list was changed elsewhere',
  since: 'Since you opened it, somebody changed this list or one that it inherits from:',
  takeOrGoOn: 'Take the list as it is now and drop your changes, or go on with yours. Then you are '
    + 'shown what they would undo.',
  takeTheirs: 'Take the list as it is',
  goOn: 'Go on with mine',
  sendAllTheSame: 'Send it all the same',
  nobodyGave: 'Nobody gave it to you.',
  byLine: (line, place) => `${byLine(line, place)}.`,
  // 'who' is the object of the sentence.
  allowedBy: (line, place, isInherited, who) =>
    `${byLine(line, place)}${isInherited ? ', from a folder above' : ''}, which allows it to ${
      who}.`,
  deniedBy: (line, place, isInherited, who) =>
    `${byLine(line, place)}${isInherited ? ', from a folder above' : ''}, which denies it to ${
      who}.`,
  byAdding: (place) => `Nothing says otherwise, and you may put documents into ${place}.`,
  nobodyGaveHere: 'Nobody gave it to you, here or at the folder above.',
  yes: 'Yes',
  no: 'No',
  removeOrMove: 'remove it or move it away',
  topStays: 'The top of the room stays where it is.',
  whatYouMay: 'What you may do',
  may: 'May',
  what: 'What',
  byWhich: 'By which entry',
  owners: 'Owner and group',
  ownerField: 'Owner (a user)',
  owner: 'Owner',
  changeThem: 'Change them',
  ownersNow: (owner, group) => `The owner is now ${owner}, the group ${group}.`,
  change: 'Change',
  changeOwners: 'Change owner and group',
  rightsNotShown: 'Your rights can’t be shown.',
};

const LOSING = { C: 'change it (C)', c: 'see it (c)' };
const CANT_SHOW = ' This page can’t change a list that it can’t show.';
const ending = (letter) => (letter === 'C' ? '' : CANT_SHOW);
const NO_GROUPS = 'This page doesn’t know who is in a group.';
const getThere = (place) => (place === null ? 'to what is in this folder' : 'here');
const folderAt = (place) => place ?? 'this folder';

export const EN_WARNINGS = {
  depends: {
    group: (name) => `the group ${name}`,
    above: 'the list of the folder above, which you may not read',
  },
  // The letter is C for changing the list, and c for seeing it.
  losesList: {
    C: 'After this you may no longer change this list',
    c: 'After this you may no longer see this list',
  },
  perhapsLosesList: {
    C: 'After this you perhaps may no longer change this list',
    c: 'After this you perhaps may no longer see this list',
  },
  losesAccess: {
    C: 'After this you may no longer change who has access.',
    c: 'After this you may no longer see who has access.',
  },
  perhapsLosesAccess: {
    C: 'After this you perhaps may no longer change who has access.',
    c: 'After this you perhaps may no longer see who has access.',
  },
  notSurely: (letter, depends) => `No entry of it surely lets you ${LOSING[letter]}: that depends `
    + `on ${and(depends)}. ${NO_GROUPS}${ending(letter)}`,
  letsNobody: (letter) => `No entry of it lets anybody ${LOSING[letter]}: then only the `
    + `administrator can.${ending(letter)}`,
  letsYouNot: (letter) => `No entry of it lets you ${LOSING[letter]}.${ending(letter)}`,
  deniesYou: (letter, text) => `An entry denies it to you: ${text}.${ending(letter)}`,
  // The place is null for the folder itself, whose contents are meant then.
  noPassage: (who, place) => `${capital(who)} can’t get ${getThere(place)}: ${folderAt(place)} `
    + `doesn’t let ${who} pass through (x).`,
  noPassageForAll: (place) => `Not everyone can get ${getThere(place)}: ${folderAt(place)} doesn’t `
    + 'let everyone pass through (x).',
  noPassageForSome: (who, place, names) => `Not everyone in ${who} can get ${getThere(place)}: ${
    folderAt(place)} doesn’t let ${and(names)} pass through (x).`,
  passageUnread: (who, place) => `It isn’t known whether ${who} can get ${getThere(place)}: you `
    + `may not read the list of ${folderAt(place)}.`,
  passageDepends: (who, place, depends) => `It isn’t known whether ${who} can get `
    + `${getThere(place)}: at ${folderAt(place)} that depends on ${and(depends)}. ${NO_GROUPS}`,
  removes: (names) => `${capital(and(names))} may then remove, rename and move away what others `
    + 'made in this folder, even what they can’t open.',
  removesUnsaid: (names) => `${capital(and(names))} may put documents here, and no entry says who `
    + 'may remove: so they may remove, rename and move away what others made in this folder, even '
    + 'what they can’t open.',
  includesProtected: (places) => `That includes the protected folder ${and(places)}: they could `
    + 'make another one in its place.',
  includesSeveralProtected: (places) => `That includes the protected folders ${and(places)}: they `
    + 'could make others in their place.',
  includesApart: (places) => `That includes the folder ${and(places)}, set to “Only these people”: `
    + 'they could make another one in its place.',
  includesSeveralApart: (places) => `That includes the folders ${and(places)}, set to “Only these `
    + 'people”: they could make others in their place.',
  remedy: (entryText) => `An entry that denies it to everyone (${entryText}), below the entries of `
    + 'those who may, prevents that.',
  opens: 'Whoever may move something away can put it into a folder of their own, and there read '
    + 'what follows that folder’s list. What has to stay shut has to be protected (p).',
  unseen: 'Not everything below could be looked at: there may be more protected folders.',
  removesFolder: (names) =>
    `${capital(and(names))} may then remove, rename and move away this folder itself.`,
  removesDocument: (names) =>
    `${capital(and(names))} may then remove, rename and move away this document itself.`,
};
