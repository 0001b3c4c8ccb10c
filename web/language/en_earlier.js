// What was there on an earlier night, and how it comes back, in English.

import { capital, formsOf } from './forms.js';

const LOCALE = 'en-GB';
const { count, and } = formsOf(LOCALE, 'and', 'or');
const objects = (many) => count(many, 'object', 'objects');

const moment = (time) =>
  time.toLocaleString(LOCALE, { dateStyle: 'long', timeStyle: 'short' });

export const EN_EARLIER = {
  earlier: 'Earlier',
  titleOf: (name) => [name, ' – earlier'],
  which: 'Which night',
  dayOf: (time) => time.toLocaleString(LOCALE, { dateStyle: 'full' }),
  timeOf: (time) => time.toLocaleString(LOCALE, { timeStyle: 'short' }),
  timeOnDay: (at, day) => `${at}, ${day}`,
  backToNow: 'Back to now',
  hint: 'You see what you could see that night and may see now. What was made and removed between '
    + 'two nights is in none.',
  get: 'Get',
  getOf: (name) => `Get ${name} as it was`,
  getAll: 'Get all of it',
  putBack: 'Put back',
  putBackOf: (name) => `Put back ${name}`,
  putBackMissing: 'Put back what is missing',
  headings: ['Name', 'Kind', 'Now', 'What can be done'],
  caption: 'What was in this folder that night, and what is there now.'
    + ' The arrow keys go from row to row.',
  // What is there now of a row.
  still: 'still there',
  anotherKind: 'something else has this name',
  goneNow: 'not there any more',
  cameLater: 'came later',
  unknownNow: 'what is there now isn’t shown to you',
  // And of a document.
  same: 'It is the same now.',
  changed: 'There is another one now.',
  gone: 'It isn’t there any more.',
  unknown: 'What is there now isn’t shown to you.',
  empty: 'Nothing was in this folder that night that you can see now.',
  noNights: 'No night is kept yet. The first one comes with the next backup.',
  notShown: 'This can’t be shown as it was.',
  notThere: 'It wasn’t there that night.',
  notOpen: 'You couldn’t see it that night.',
  why: {
    now: 'You can’t see this: it isn’t open to you now; or it is gone, was not yours, and you '
      + 'don’t manage the folder where it was.',
    'no-night': 'This night isn’t kept any more. Choose another one.',
    'no-earlier': 'This room shows no earlier nights. Ask the administrator for what is lost.',
    busy: 'Others look at earlier nights too, and no more can be open. Try again in a minute.',
    large: 'This room is too large for its nights to be shown. Ask the administrator.',
    damaged: 'The backup of this night can’t be read. Choose another one, and tell the '
      + 'administrator.',
    away: 'Earlier nights can’t be shown at the moment. Try again in a minute; if that doesn’t '
      + 'help, tell the administrator.',
    'too-many-requests': 'You have asked for too much at once. Wait a moment, and try again.',
  },
  // Before something comes back.
  question: (name) => `Put ${name} back?`,
  asOf: (time) => `As of ${moment(time)}:`,
  missing: (many) => (many === 1 ? '1 object that is missing comes back as yours.'
    : `${objects(many)} that are missing come back as yours.`),
  following: 'What comes back follows the access list of its folder.',
  there: (many) => (many === 1
    ? '1 document is still there: if it is replaced, what is in it now is lost, and its access '
      + 'stays.'
    : `${count(many, 'document', 'documents')} are still there: if they are replaced, what is in `
      + 'them now is lost, and their access stays.'),
  // Who could read more than on that night, if it came back as its folder is.
  opens: (names, many) => `${capital(and(names))} couldn’t read ${objects(many)} of it that night, `
    + 'and may as the folder is now.',
  opensByOwners: (names, many) => `Perhaps ${and(names)} couldn’t read ${objects(many)} of it that `
    + 'night, which depends on whose it was, and may as the folder is now.',
  perhapsOpens: (many) => `You can’t see who could read ${objects(many)} of it that night: whoever `
    + 'may read the folder now will.',
  whoReads: 'Who may read what comes back',
  alone: 'I alone',
  peopleThen: (names) => `The people of that night: ${and(names)}`,
  peopleNow: 'Whoever may read the folder now',
  removable: (names) => `${capital(and(names))} may remove it or move it away, whoever reads it.`,
  staysShut: (places) => `${and(places)} stays open to you alone: its list of that night couldn’t `
    + 'be set.',
  onlyMissing: 'Only what is missing',
  allOfIt: 'All, and replace what is there',
  replace: 'Replace what is there',
  nothingMissing: 'Nothing is missing: all of it is still there.',
  putting: (name) => `Put ${name} back`,
  putSomeOf: (done, whole) => `${done} of ${objects(whole)} put back`,
  isBack: (many, place) => `${objects(many)} put back in ${place}.`,
  notBack: (many) => `Not put back: ${objects(many)}.`,
  leftOut: (places) => `Left out, since you may not see all of it: ${and(places)}.`,
  // Before something is removed, in the place of what texts.folder says where nothing comes back.
  goneOne: (name) => `${name} will be gone for everybody.`,
  goneOneWith: (name, amount) =>
    `${name} and what is in it, ${amount}, will be gone for everybody.`,
  goneSeveral: (amount) => `${amount} will be gone for everybody.`,
  goneSeveralWith: (amount, inside) =>
    `${amount} and what is in them, ${inside}, will be gone for everybody.`,
  backByOwners: (time) => 'Whoever owned it, and whoever manages the folder, can get back by '
    + `“Earlier” what of it was there on ${moment(time)}; what came later is lost.`,
  backByMembers: (time) => 'Whoever may add to the folder can get back by “Earlier” what of it was '
    + `there on ${moment(time)}; what came later is lost.`,
};
