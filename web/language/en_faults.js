// What the room refuses and why, in English.

import { formsOf } from './forms.js';

const { number } = formsOf('en-GB', 'and', 'or');

const OF_LISTS = {
  A1: 'The type has to be A (allow) or D (deny), for records U (audit) or L (alarm).',
  A2: 'The flags may be the letters f d n i S F g I and no others.',
  A3: 'This is no name of a user or a group. Names have letters, digits and . _ - + $ \\, no '
    + 'spaces and no umlauts; the special names are OWNER@, GROUP@, EVERYONE@, ANONYMOUS@ and '
    + 'AUTHENTICATED@.',
  A4: 'The rights may be the letters rwanNxDtThHdcCoy and no others, and no spaces.',
  A5: 'An entry has four parts with three colons between them: type:flags:who:rights.',
  A6: 'The first line has to be “list:”, followed by a, p or both if you want them, and by nothing '
    + 'else.',
  A7: 'A list that is sent may have 4,096 entries at most.',
  A8: 'A list may have 64 entries of its own at most. Put people into a group and name that '
    + 'instead.',
  A9: 'An entry of this type belongs in the other list: allow and deny decide access, audit and '
    + 'alarm ask for records.',
  A10: 'S and F are for audit and alarm alone: an entry that allows or denies has neither.',
  A11: '“Not here” needs something below to which the entry is passed on (f or d).',
  A12: 'Nothing lies below a document, so its entries can’t be passed on (no f, d, n, i).',
  A13: 'This line has characters that can’t be sent.',
};

const CONFLICTS = {
  'not-folder': (at) => `${at} is a document, so nothing lies below it. Load the folder again.`,
  'wrong-kind': (at) => `${at} is of another kind, a folder where a document is wanted or the `
    + 'other way round. Choose another name.',
  exists: (at) => `There is already something at ${at}. Choose another name, or remove what is `
    + 'there first.',
  'not-empty': (at) => `${at} isn’t empty. Remove or move what is in it first.`,
  root: 'The top of the room can’t be removed or moved.',
  loop: 'A folder can’t be moved into itself or into a folder below it. Choose another place.',
  'no-place': (at) => `${at} belongs to somebody else, and so large a file doesn’t fit into its `
    + 'place. Upload it under another name, or have its owner replace it.',
  'not-whole': (at) => `A part of ${at} is missing. If it was being moved, move it again to the `
    + 'same place; otherwise put back an earlier one.',
  'left-over': (at) => `Parts of an upload of ${at} that was broken off are still there. Remove `
    + 'them, or choose another name.',
};

const STATUSES = {
  lost: 'The connection was lost. The request may or may not have been carried out: look, and '
    + 'repeat it if it wasn’t.',
  unreadable: 'The file can’t be read on this computer any more: it was changed, moved or removed '
    + 'after it was chosen. Choose it again.',
  401: 'You aren’t signed in any more: your session ended, or your password was changed. Load the '
    + 'page again and sign in.',
  405: 'The room doesn’t know this request. Load the page again.',
  429: 'Too much was asked for at once, or too many passwords were tried. Wait a minute, then load '
    + 'the page again.',
  431: 'The request was too long. Choose a shorter name.',
  500: 'The room couldn’t store or read this. It may or may not have been changed: look first, '
    + 'then try again; if that doesn’t help, tell the administrator.',
  502: 'The room doesn’t answer at the moment. Try again in a minute; if it still doesn’t, tell '
    + 'the administrator.',
  503: 'Passwords can’t be checked at the moment. Try again in a minute.',
  504: 'The room took too long to answer. The request may or may not have been carried out: look '
    + 'before you repeat it.',
  507: 'The room is full, so nothing was added. Remove what nobody needs any more, then try again; '
    + 'if that doesn’t help, tell the administrator.',
};

const OF_DOOR = {
  'too-many-requests': 'You ask for too much at once. Wait until the rest is answered, then try '
    + 'again.',
  'too-many': 'Too much lies below this folder. Do it further down, folder by folder.',
  'too-long': 'It takes too long to look at all that lies below this folder. Do it further down, '
    + 'folder by folder.',
  'no-room': 'The room doesn’t answer at the moment, so nothing was done. Try again in some '
    + 'seconds.',
  busy: 'Too many ask at the moment, so nothing was done. Try again in some seconds.',
  'room-ended': 'The room ended before it answered. It may or may not have been done: look before '
    + 'you repeat it.',
  changed: 'Somebody else changed it meanwhile, so nothing was done. Load it again.',
  gone: 'Somebody removed or moved it meanwhile, so nothing was done. Load its folder again.',
  exists: 'Somebody put something of that name there meanwhile, so nothing was done. Load the '
    + 'folder again.',
};

const MOST = (bytes) => `has more than ${number(bytes)} bytes (${number(bytes / 1048576)} MiB), `
  + 'which is the most a document may have. Make it smaller, or cut it into parts.';

const LEFT = (bytes) => `The room has place for ${number(bytes)} bytes `
  + `(${number(bytes / 1048576)} MiB) more, so nothing was added. Make it smaller, or remove what `
  + 'nobody needs any more; if that doesn’t help, tell the administrator.';

export const EN_FAULTS = {
  ofLists: OF_LISTS,
  ofList: (code) => `The room doesn’t accept this (${code}).`,
  ofDoor: OF_DOOR,
  doorAway: 'What looks at whole folders for the room doesn’t answer at the moment. Try again; if '
    + 'that doesn’t help, tell the administrator.',
  conflicts: CONFLICTS,
  conflict: 'What is there doesn’t fit. Load the folder again.',
  targets: {
    P1: 'A name may not be empty, “.” or “..”, nor longer than 255 bytes, nor have invisible '
      + 'characters. Choose another name.',
    P2: 'The path is longer than 4,096 bytes. Choose shorter names, or a place further up.',
    P3: 'The name has characters that can’t be sent. Choose another name.',
  },
  badUser: 'The room doesn’t accept your user name. Tell the administrator: names have only '
    + 'letters, digits and . _ - + $ \\.',
  badBody: 'The name of a user, a group or an object wasn’t accepted. Names of users and groups '
    + 'have letters, digits and . _ - + $ \\, no spaces.',
  badRequest: (why) =>
    `The room couldn’t read the request${why ? ` (${why})` : ''}. Load the page again.`,
  first: 'You have signed in with a first password. Load the page again, and choose your own.',
  frontEnd: 'The front end refused this, as if another site had asked for it. Load the page again.',
  denied: (place, rights) => `At ${place} you may not ${rights.join(' or ')}.`,
  deniedRemoval: (place) =>
    `At ${place} you may not remove what is in it, nor put documents here.`,
  deniedHere: { w: 'put documents here', a: 'make folders here' },
  noEntry: 'No entry of its access list grants that.',
  byEntry: (number, words, entry) =>
    `Entry ${number} of its access list denies it: it ${words} (${entry}).`,
  statuses: STATUSES,
  status: (status) => `The room answered with status ${status}. Try again; if that doesn’t help, `
    + 'tell the administrator.',
  page: (message) => `The page itself failed: ${message}. Load it again.`,
  nothingAt: (at) => `There is nothing at ${at}. It may have been removed, renamed or moved: load `
    + 'its folder again.',
  largeAt: (at, bytes) => `${at} ${MOST(bytes)}`,
  largeThis: (bytes) => `This ${MOST(bytes)}`,
  largeFile: (bytes) => `It ${MOST(bytes)}`,
  longLists: {
    dacl: 'The access list is too long. Remove entries that nobody needs any more, or put people '
      + 'into a group and name that instead.',
    sacl: 'The list of what is recorded is too long. Remove entries that nobody needs any more.',
  },
  leftFor: LEFT,
  twice: 'The room didn’t answer at first, so it may have been carried out already: look.',
  noName: 'Type a name.',
  specialName: 'This name has a special meaning. Choose another one.',
  slash: 'A name can’t have a slash in it.',
  characters: 'The name has characters that can’t be used.',
  longName: 'The name is too long: 255 bytes at most.',
};
