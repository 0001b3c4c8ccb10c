// The texts of the page in English: what stands everywhere. en_*.js have the rest.

import { EN_ACCESS, EN_OUTCOME } from './en_access.js';
import { EN_EARLIER } from './en_earlier.js';
import { EN_FAULTS } from './en_faults.js';
import { EN_FIND, EN_FOLDER, EN_MOVING, EN_UPLOAD } from './en_folder.js';
import { EN_HELP } from './en_help.js';
import { EN_ADVANCED, EN_RIGHTS, EN_WARNINGS } from './en_lists.js';
import { EN_MOMENTS } from './en_moments.js';
import { EN_PAGES } from './en_pages.js';
import { EN_PERSON } from './en_person.js';
import { EN_READY } from './en_ready.js';
import { EN_SEARCH } from './en_search.js';
import { formsOf } from './forms.js';
import { EN_WOULD } from './en_would.js';

const { number, and, or, count, day } = formsOf('en-GB', 'and', 'or');

const LISTS = {
  and, day,
  others: (rest) => count(rest, 'other', 'others'),
  unknownDay: 'an unknown day',
  // Beside 'space' there are signs without a name, such as U+202E.
  space: 'space',
  unseenSign: 'This sign can’t be seen.',
};

const NAMED = {
  special: {
    'OWNER@': 'the owner',
    'GROUP@': 'the owning group',
    'EVERYONE@': 'everyone',
    'ANONYMOUS@': 'callers without a name',
    'AUTHENTICATED@': 'everyone with a name',
  },
  group: (name) => `the group ${name}`,
  user: (name) => `the user ${name}`,
};

const WHO = {
  ...NAMED,
  // As the object of a sentence.
  whom: NAMED,
  signingIn: 'everyone who signs in',
  others: 'everyone else who signs in',
  unknownOwner: 'whoever owns it',
  unknownGroup: 'the owning group',
  inGroups: (groups) => `whoever is in ${and(groups)}`,
  ifIn: (name, groups) => `${name} (if in ${and(groups)})`,
};

// As the panel of access calls them.
const NAMES = {
  special: {
    'OWNER@': 'The owner of each document',
    'GROUP@': 'The owning group',
    'EVERYONE@': 'Everyone',
    'AUTHENTICATED@': 'Everyone who signs in',
    'ANONYMOUS@': 'Whoever hasn’t signed in',
  },
  inSentence: {
    'OWNER@': 'the owner of each document',
    'GROUP@': 'the owning group',
    'EVERYONE@': 'everyone',
    'AUTHENTICATED@': 'everyone who signs in',
    'ANONYMOUS@': 'whoever hasn’t signed in',
  },
  membersOf: (name) => `the members of ${name}`,
  countedMembers: (members, name) => `the ${count(members, 'member', 'members')} of ${name}`,
  unfolded: (members, first) => `${number(members)} members: ${first.join(', ')} …`,
  you: 'you',
  cannotSignIn: 'not among the people who can sign in',
  emptyGroup: 'a group that has no members',
  unknownMembers: 'a group',
  noMembers: 'nobody is in this group',
};

const PLACES = {
  all: 'All documents',
  allQuoted: '“All documents”',
  top: 'the top of the room',
  that: 'that place',
  quoted: (name) => `“${name}”`,
};

const PAGE = {
  title: (name) => `${name} – rooms`,
  skip: 'Skip to the contents',
  path: 'Path',
  signedInAs: 'Signed in as',
  document: 'Document',
  whoHasAccess: 'Who has access',
  myRights: 'My rights',
  advanced: 'Advanced',
  recorded: 'What is recorded',
  access: 'Access',
  openFolder: 'Open the folder',
  backToFolder: 'Back to the folder',
  notShown: 'This place can’t be shown.',
};

const ACTS = {
  cancel: 'Cancel',
  close: 'Close',
  download: 'Download',
  copyLink: 'Copy link',
  remove: 'Remove',
  stop: 'Stop',
  name: 'Name',
  why: 'Why',
  loadAgain: 'Load again',
  tryAgain: 'Try the failed ones again',
  anew: 'Try again',
  mindThis: 'Mind this',
};

const MESSAGES = {
  close: 'Close this message',
  signInAgain: 'Sign in again',
  waiting: 'The room doesn’t answer. The page tries again for half a minute.',
  details: 'Details',
  fold: 'Fold',
  progress: (done, whole) => `${number(done)} of ${number(whole)}`,
  lookingAtAll: 'Looking at what is further down.',
  stopped: 'What is further down wasn’t looked at, since you stopped it. Exceptions there may be '
    + 'missing here.',
  failed: 'What is further down wasn’t looked at. Exceptions there may be missing here.',
};

const PICKER = {
  add: 'Add people or groups',
  choices: 'People and groups',
  asGroup: 'as a group',
  asPerson: 'as a person',
  groupAllTheSame: 'add as a group all the same',
  personAllTheSame: 'add as a person all the same',
  person: 'person',
  group: 'group',
  groupOf: (members) => `group, ${count(members, 'member', 'members')}`,
  isBelow: 'This one is in the list below.',
  spell: 'Names can’t be looked up here: spell them exactly.',
  nobody: (made) => `Nobody of this name is known (as of ${made}). Look at the spelling.`,
};

const ASK = {
  changing: (names) => `Ask ${or(names)}, who can change that.`,
  managing: (names) => `Ask ${or(names)}, who manages the room.`,
  owning: (names) => `Ask ${or(names)}, who owns it.`,
  administrator: 'Ask your administrator.',
  whoever: 'Ask whoever manages it.',
};

// Who could have changed what isn't any more as it was seen.
const CHANGED = {
  could: (names) => `By its list, that could have been ${or(names)}.`,
  unknown: 'Who could have done that isn’t known here, since you may not see who has access.',
  above: 'By its list nobody else could have done that: it was removed and put there again.',
};

const ACCOUNT = {
  menu: 'Your account',
  change: 'Change your password',
  elsewhere: {
    directory: 'Your password is kept in a directory of your organisation, and is changed there.',
    session: 'You have signed in through another service. Your password is changed there.',
    file: 'Here the administrator alone changes passwords. Ask for a new one.',
  },
  why: {
    old: 'The present password isn’t right.',
    tries: 'Too many wrong tries. Wait a quarter of an hour.',
    short: 'It needs at least 10 characters.',
    weak: 'It is easy to guess: take several words that have nothing to do with one another.',
    same: 'It is the present one.',
    form: 'It may have at most 72 bytes, and no unusual signs.',
    changed: 'The administrator has changed your password meanwhile.',
    busy: 'Somebody else changes a password. Try again in a minute.',
  },
  notChanged: 'It was not changed.',
  differ: 'The two new ones differ.',
  present: 'Present password',
  fresh: 'New password',
  freshHint: 'At least 10 characters. Several words are easy to keep in mind.',
  again: 'The new one again',
  changeIt: 'Change it',
  changed: 'Your password was changed. Use the new one on all your devices.',
  chooseOwn: 'Choose a password of your own',
  first: 'You have signed in with a first password. It opens nothing until you choose another one.',
  firstChanged: 'Your password was changed. The room opens in some seconds.',
};

export const EN = {
  lists: LISTS, who: WHO, names: NAMES, places: PLACES, page: PAGE, acts: ACTS,
  messages: MESSAGES, picker: PICKER, ask: ASK, changed: CHANGED, account: ACCOUNT,
  moments: EN_MOMENTS, help: EN_HELP,
  folder: EN_FOLDER, find: EN_FIND, moving: EN_MOVING, upload: EN_UPLOAD, rights: EN_RIGHTS,
  faults: EN_FAULTS, warnings: EN_WARNINGS, access: EN_ACCESS, outcome: EN_OUTCOME,
  advanced: EN_ADVANCED, ready: EN_READY, earlier: EN_EARLIER, pages: EN_PAGES, search: EN_SEARCH,
  would: EN_WOULD,
  person: EN_PERSON,
};
