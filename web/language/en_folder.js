// A folder, and what is done with what is in it, in English.

import { capital, formsOf } from './forms.js';

const { number, and, or, count } = formsOf('en-GB', 'and', 'or');

const objects = (many) => count(many, 'object', 'objects');
const documents = (many) => count(many, 'document', 'documents');
const amountOf = (documentsIn, foldersIn) => and([
  ...documentsIn > 0 ? [documents(documentsIn)] : [],
  ...foldersIn > 0 ? [count(foldersIn, 'folder', 'folders')] : []]);

export const EN_FOLDER = {
  label: 'Folder',
  folder: 'Folder',
  document: 'Document',
  ending: (ending) => `${ending} document`,
  mayNot: {
    w: 'You may not put documents here.',
    a: 'You may not make folders here.',
  },
  upload: 'Upload',
  add: 'Add',
  more: 'More',
  uploadFolder: 'Upload a folder',
  filesField: 'Documents to upload',
  wholeField: 'Folder to upload',
  newFolder: 'New folder',
  makeIt: 'Make it',
  made: (name) => `The folder ${name} was made.`,
  access: 'Access',
  filter: 'Filter by name',
  chosen: 'What is selected',
  move: 'Move',
  selected: (many) => `${number(many)} selected`,
  notShown: 'What is in this folder can’t be shown.',
  empty: 'Nothing is in this folder yet.',
  addHere: 'Drop documents here, or use “Upload”.',
  addByThumb: 'Add something by “+”.',
  nothingFits: 'Nothing in this folder has these letters in its name.',
  caption: 'What is in this folder. The arrow keys go from row to row.',
  kind: 'Kind',
  whatCanBeDone: 'What can be done',
  select: (name) => `Select: ${name}`,
  selectAll: 'Select all',
  accessOf: (name) => `Access: ${name}`,
  actions: 'Actions',
  actionsOf: (name) => `Actions: ${name}`,
  preview: 'Preview',
  openIn: (program) => `Open in ${program}`,
  newVersion: 'Replace by a file',
  renameOrMove: 'Rename or move',
  taken: 'There is already something of this name. Choose another one.',
  amount: amountOf,
  mayNotRename: (place) => `You may not rename ${place}.`,
  mayNotRemove: (place) => `You may not remove ${place}, so nothing was removed.`,
  removeFolder: 'Remove the folder?',
  removeDocument: 'Remove the document?',
  removeAmount: (amount) => `Remove ${amount}?`,
  goneOne: (name) => `${name} will be gone for everybody, and can’t be brought back.`,
  goneOneWith: (name, amount) => `${name} and what is in it, ${amount}, will be gone for `
    + 'everybody, and can’t be brought back.',
  goneSeveral: (amount) => `${amount} will be gone for everybody, and can’t be brought back.`,
  goneSeveralWith: (amount, inside) => `${amount} and what is in them, ${inside}, will be gone for `
    + 'everybody, and can’t be brought back.',
  notCounted: (places) =>
    `You may not see what is in ${and(places)}, so it isn’t counted here.`,
  removeIt: 'Remove it',
  removeThem: 'Remove them',
  removing: (what) => `Remove ${what}`,
  removedSome: (done, whole) =>
    `${number(done)} of ${number(whole)} were removed.`,
  removedSomeOf: (done, whole) => `${number(done)} of ${number(whole)} removed`,
  stoppedRemoval: (done, whole) =>
    `Stopped. ${number(done)} of ${number(whole)} were removed.`,
  restUnknown: 'It isn’t known what is still there: look.',
  stillThere: (names, amount) => `Still there: ${names} (${amount}).`,
  removedOne: (name) => `${name} was removed.`,
  removedSeveral: (amount) => `${amount} were removed.`,
  leaveThem: 'Leave them',
  linkGives: 'It gives nobody a right.',
  linkCopied: 'The link was copied.',
  link: 'Link',
  theLink: 'The link',
  copyFromHere: 'Copy it from here.',
  tooMany: 'These are too many for one download. Select fewer.',
  zip: 'documents',
  openAddress: 'Open an address',
  addressHint: 'A link to this page, or a path such as /letters/2026.',
  open: 'Open',
  canManage: 'Can manage',
  canDrop: 'Can drop documents into it',
  canChange: 'Can change',
  canRead: 'Can read',
  within: (folder) => `in ${folder}`,
  forgetThese: 'Forget these',
  openedLately: 'Opened lately',
  sharedWithYou: 'Shared with you',
  asOf: (day) => `as of ${day}`,
  whatYouMayDo: 'What you may do here',
  closedRoom: 'You can’t see the list of what is in the room, only what was shared with you.',
  closedFolder:
    'You can’t see the list of what is in this folder, only what was shared with you.',
  noPreview: 'There is no preview of this document. Download it to look at it.',
  pdf: 'The browser shows PDF documents in a tab of their own.',
  openInTab: 'Open in a tab',
  textAlone: 'Only its text is shown, not how it looks.',
  emptyDocument: 'The document is empty.',
  beginning: 'This is its beginning. Download it to see all of it.',
  cantOpen: 'You can’t open this',
};

export const EN_FIND = {
  find: 'Find further down',
  busy: 'Looking further down …',
  none: 'Nothing in this folder or further down has these letters in its name.',
  more: 'There are more, or more to look through than at once: open a folder and find there, or '
    + 'type more of the name.',
  tooLong: 'No name is as long as that.',
  found: (many, text) => `${count(many, 'name', 'names')} with “${text}”`,
  unseen: (places) => `You may not see what is in ${and(places)}.`,
};

const RIGHTS = { r: 'read', w: 'change', d: 'remove or move away', C: 'manage' };
const rightsOf = (letters) => [...letters].map((letter) => RIGHTS[letter]);
const INSIDE = ' and what is in it, apart from what is protected';

// Where objects are moved, and what that brings about.
export const EN_MOVING = {
  into: (place) => ['In ', place],
  above: 'The folder above',
  noFolders: 'No folders in it.',
  folder: 'Folder',
  folders: 'Folders',
  renameFolder: 'Rename or move the folder',
  renameDocument: 'Rename or move the document',
  moveIt: 'Move it',
  renameIt: 'Rename it',
  several: (many) => `Move ${objects(many)}`,
  moveHere: 'Move them here',
  allTheSame: 'Move all the same',
  now: (name, place) => `${name} is now ${place}.`,
  to: (place) => `Move to ${place}`,
  ofThese: (names, place) => `Move to ${place}: ${and(names)}.`,
  movedSomeOf: (done, whole) => `${number(done)} of ${number(whole)} moved`,
  moved: (many, place) => `${objects(many)} moved to ${place}.`,
  stopped: (many) => `Stopped. Not moved: ${objects(many)}.`,
  staysHere: (name) => `${name} stays here.`,
  notMoved: (many) => `${count(many, 'more object', 'more objects')} couldn’t be moved.`,
  lookAtLists: 'Look at the lists',
  gaining: (callers, letters, names, isFolder) => `${capital(and(callers))} may then `
    + `${and(rightsOf(letters))} ${and(names)}${isFolder ? INSIDE : ''}.`,
  losing: (callers, letters, names, isFolder) => `${capital(and(callers))} can then no longer `
    + `${or(rightsOf(letters))} ${and(names)}${isFolder ? INSIDE : ''}.`,
  someIn: (name) => `some of what is in ${name}`,
  unanswered: 'It can’t be said who could get at it there',
  morePeople: 'More people could get at it there',
  fewerPeople: 'Fewer people can get at it there',
  unknownPeople: 'It isn’t known who can get at it there',
  unknownAt: (place) =>
    `It isn’t known who could do more there: you may not read the list of ${place}.`,
  unknownFrom: (place) =>
    `It isn’t known who gains or loses by this: you may not read the list of ${place}.`,
  unknownOf: (names) =>
    `It isn’t known who could do more with ${and(names)} there: you may not read the list.`,
  readersUnknown: 'Who may read there isn’t known: you may not read its list.',
  readers: (names) => `By its list, ${and(names)} may read there.`,
  readersPerhaps: (names) =>
    `By its list, ${and(names)} may read there, if the folders above let them pass.`,
  noReaders: 'By its list, nobody may read there.',
  noReadersPerhaps: 'By its list, nobody may read there, if the folders above let them pass.',
};

export const EN_UPLOAD = {
  of: (name) => `Upload of ${name}`,
  title: 'Upload',
  to: (place) => `Upload to ${place}`,
  waits: 'waits',
  sent: 'is sent',
  uploaded: 'uploaded',
  uploadedAs: (name) => `uploaded as ${name}`,
  ended: (ended, whole) => `${number(ended)} of ${documents(whole)}`,
  uploadedWith: (whole) => `uploaded, with ${documents(whole)}`,
  uploadedSome: (good, whole) => `${number(good)} of ${documents(whole)} uploaded`,
  more: (many) => `and ${number(many)} more`,
  sameForAll: 'The same for all that are there already',
  keepBoth: 'Keep both',
  showTheirs: 'Show theirs',
  // Why it isn't simply sent: 'replace' is what the button says that sends it all the same.
  taken: {
    exists: {
      title: 'Replace the document?',
      text: (name) => `There is a document ${name} in this folder already. If it is replaced, its `
        + 'contents are lost.',
      replace: 'Replace it',
    },
    changed: {
      title: 'Somebody else changed it meanwhile',
      text: (name) => `${name} isn’t any more what you saw of it last. If it is `
        + 'replaced, what somebody else wrote is lost.',
      replace: 'Replace theirs',
    },
    gone: {
      title: 'Somebody removed it meanwhile',
      text: (name) => `${name} isn’t there any more: somebody removed, renamed or moved it.`,
      replace: 'Upload it all the same',
    },
    left: {
      title: 'Remove what an upload left?',
      text: (name) => `An upload of ${name} was broken off, and its parts are still there, with a `
        + 'number behind that name. Without all of them they are no use.',
      replace: 'Remove them, and upload it',
    },
  },
  noFolder: 'its folder couldn’t be made',
  left: 'left as it was',
  notSent: 'not sent',
  tooMuch: 'not sent, since too much was asked for at once: wait a minute, then press “Try the '
    + 'failed ones again”',
  lost: 'it was uploaded, but the room doesn’t have it any more',
  interrupted: (many) => 'The room was interrupted during the upload, and '
    + `${documents(many)} that it had taken ${many === 1 ? 'is' : 'are'} gone. It was probably set `
    + 'back to an earlier copy: ask the administrator what else is gone, and try the failed ones '
    + 'again.',
  done: (whole) => `${documents(whole)} uploaded.`,
  stopped: (good, whole) => `Stopped: ${number(good)} of ${documents(whole)} uploaded.`,
  failed: (bad, whole) => `${documents(bad)} of ${number(whole)} failed.`,
  folderIntoDocument: (name) => `A folder can’t be put into a document, and ${name} is one. Drop `
    + 'it on a folder, or beside the rows.',
  isDocument: 'This is a document',
  besideOne: (target, name, place) => `Nothing can be put into ${target}, since it is a document. `
    + `Put ${name} beside it, into the open folder (${place})?`,
  besideSeveral: (target, many, place) => `Nothing can be put into ${target}, since it is a `
    + `document. Put the ${documents(many)} beside it, into the open folder (${place})?`,
  beside: 'Put beside it',
};
