// What was there on an earlier night, and how it comes back, in German.

import { verb } from './de_people.js';
import { capital, formsOf } from './forms.js';

const LOCALE = 'de';
const { count, and } = formsOf(LOCALE, 'und', 'oder');
const objects = (many) => count(many, 'Objekt', 'Objekte');

const moment = (time) =>
  time.toLocaleString(LOCALE, { dateStyle: 'long', timeStyle: 'short' });

export const DE_EARLIER = {
  earlier: 'Früher',
  titleOf: (name) => [name, ' – früher'],
  which: 'Welche Nacht',
  dayOf: (time) => time.toLocaleString(LOCALE, { dateStyle: 'full' }),
  timeOf: (time) => time.toLocaleString(LOCALE, { timeStyle: 'short' }),
  timeOnDay: (at, day) => `${at}, ${day}`,
  backToNow: 'Zurück zu heute',
  hint: 'Sie sehen, was Sie in dieser Nacht sehen konnten und jetzt sehen dürfen. Was zwischen '
    + 'zwei Nächten angelegt und entfernt wurde, ist in keiner.',
  get: 'Holen',
  getOf: (name) => `${name} holen, wie es war`,
  getAll: 'Alles holen',
  putBack: 'Zurücklegen',
  putBackOf: (name) => `${name} zurücklegen`,
  putBackMissing: 'Zurücklegen, was fehlt',
  headings: ['Name', 'Art', 'Jetzt', 'Was man tun kann'],
  caption: 'Was in dieser Nacht in diesem Ordner war, und was jetzt da ist.'
    + ' Die Pfeiltasten gehen von Zeile zu Zeile.',
  still: 'noch da',
  anotherKind: 'etwas anderes hat diesen Namen',
  goneNow: 'nicht mehr da',
  cameLater: 'kam später',
  unknownNow: 'was jetzt da ist, wird Ihnen nicht gezeigt',
  same: 'Es ist jetzt dasselbe.',
  changed: 'Jetzt ist ein anderes da.',
  gone: 'Es ist nicht mehr da.',
  unknown: 'Was jetzt da ist, wird Ihnen nicht gezeigt.',
  empty: 'In diesem Ordner war in dieser Nacht nichts, was Sie jetzt sehen dürfen.',
  noNights: 'Noch ist keine Nacht aufbewahrt. Die erste kommt mit der nächsten Sicherung.',
  notShown: 'Dies kann nicht gezeigt werden, wie es war.',
  notThere: 'Es war in dieser Nacht nicht da.',
  notOpen: 'Sie konnten es in dieser Nacht nicht sehen.',
  why: {
    now: 'Sie können dies nicht sehen: Es steht Ihnen jetzt nicht offen; oder es ist weg, gehörte '
      + 'Ihnen nicht, und Sie verwalten den Ordner nicht, in dem es war.',
    'no-night': 'Diese Nacht wird nicht mehr aufbewahrt. Wählen Sie eine andere.',
    'no-earlier': 'Dieser Raum zeigt keine früheren Nächte. Fragen Sie den Administrator nach dem, '
      + 'was verloren ist.',
    busy: 'Auch andere sehen frühere Nächte an, und mehr können nicht offen sein. Versuchen Sie es '
      + 'in einer Minute erneut.',
    large: 'Dieser Raum ist zu groß, um seine Nächte zu zeigen. Fragen Sie den Administrator.',
    damaged: 'Die Sicherung dieser Nacht ist nicht lesbar. Wählen Sie eine andere, und '
      + 'benachrichtigen Sie den Administrator.',
    away: 'Frühere Nächte können im Moment nicht gezeigt werden. Versuchen Sie es in einer Minute '
      + 'erneut; wenn das nicht hilft, benachrichtigen Sie den Administrator.',
    'too-many-requests': 'Sie haben zu viel auf einmal verlangt. Warten Sie einen Augenblick, und '
      + 'versuchen Sie es erneut.',
  },
  question: (name) => `${name} zurücklegen?`,
  asOf: (time) => `Stand ${moment(time)}:`,
  missing: (many) => (many === 1 ? '1 Objekt, das fehlt, kommt als Ihres zurück.'
    : `${objects(many)}, die fehlen, kommen als Ihre zurück.`),
  following: 'Was zurückkommt, folgt der Zugriffsliste seines Ordners.',
  there: (many) => (many === 1
    ? '1 Dokument ist noch da: Wird es ersetzt, ist sein jetziger Inhalt verloren, und sein '
      + 'Zugriff bleibt.'
    : `${count(many, 'Dokument', 'Dokumente')} sind noch da: Werden sie ersetzt, ist ihr jetziger `
      + 'Inhalt verloren, und ihr Zugriff bleibt.'),
  // Wer mehr lesen könnte als in jener Nacht, käme es zurück, wie sein Ordner ist.
  opens: (names, many) => `Für ${and(names)} ${many === 1 ? 'war' : 'waren'} in jener Nacht ${
    objects(many)} davon nicht lesbar; wie der Ordner jetzt ist, doch.`,
  opensByOwners: (names, many) => `Vielleicht ${many === 1 ? 'war' : 'waren'} für ${and(names)} in `
    + `jener Nacht ${objects(many)} davon nicht lesbar, je nachdem, wem es gehörte; wie der Ordner `
    + 'jetzt ist, doch.',
  perhapsOpens: (many) => `Sie sehen nicht, wer in jener Nacht ${objects(many)} davon lesen `
    + 'konnte: Wer den Ordner jetzt lesen darf, wird es können.',
  whoReads: 'Wer lesen darf, was zurückkommt',
  alone: 'Nur ich',
  peopleThen: (names) => `Die Leute jener Nacht: ${and(names)}`,
  peopleNow: 'Wer den Ordner jetzt lesen darf',
  removable: (names) => `${capital(and(names))} ${verb(names, 'darf', 'dürfen')} es entfernen oder `
    + 'wegverschieben, wer immer es liest.',
  staysShut: (places) => `${and(places)} bleibt für Sie allein offen: Die Liste jener Nacht konnte `
    + 'nicht gesetzt werden.',
  onlyMissing: 'Nur was fehlt',
  allOfIt: 'Alles, und ersetzen, was da ist',
  replace: 'Ersetzen, was da ist',
  nothingMissing: 'Es fehlt nichts: Alles davon ist noch da.',
  putting: (name) => `${name} zurücklegen`,
  putSomeOf: (done, whole) => `${done} von ${objects(whole)} zurückgelegt`,
  isBack: (many, place) => `${objects(many)} zurückgelegt in ${place}.`,
  notBack: (many) => `Nicht zurückgelegt: ${objects(many)}.`,
  leftOut: (places) => `Ausgelassen, da Sie nicht alles davon sehen dürfen: ${and(places)}.`,
  goneOne: (name) => `${name} ist dann für alle weg.`,
  goneOneWith: (name, amount) => `${name} und der Inhalt, ${amount}, sind dann für alle weg.`,
  goneSeveral: (amount) => `${amount} sind dann für alle weg.`,
  goneSeveralWith: (amount, inside) =>
    `${amount} und deren Inhalt, ${inside}, sind dann für alle weg.`,
  backByOwners: (time) => `Was davon am ${moment(time)} da war, kann durch „Früher“ zurückholen, `
    + 'wem es gehörte und wer den Ordner verwaltet; was später kam, ist verloren.',
  backByMembers: (time) => `Was davon am ${moment(time)} da war, kann durch „Früher“ zurückholen, `
    + 'wer in dem Ordner etwas hinzufügen darf; was später kam, ist verloren.',
};
