// The texts of the page in German: what stands everywhere. de_*.js have the rest.

import { DE_ACCESS, DE_OUTCOME } from './de_access.js';
import { DE_EARLIER } from './de_earlier.js';
import { DE_FAULTS } from './de_faults.js';
import { DE_FIND, DE_FOLDER, DE_MOVING, DE_UPLOAD } from './de_folder.js';
import { DE_HELP } from './de_help.js';
import { DE_ADVANCED, DE_RIGHTS, DE_WARNINGS } from './de_lists.js';
import { DE_MOMENTS } from './de_moments.js';
import { DE_PAGES } from './de_pages.js';
import { DE_PERSON } from './de_person.js';
import { DE_READY } from './de_ready.js';
import { EVERYONE, OTHERS, SIGNED_IN, verb } from './de_people.js';
import { DE_SEARCH } from './de_search.js';
import { formsOf } from './forms.js';
import { DE_WOULD } from './de_would.js';

const { number, and, or, count, day } = formsOf('de', 'und', 'oder');

const LISTS = {
  and, day,
  others: (rest) => count(rest, 'weiterer', 'weitere'),
  unknownDay: 'unbekannt',
  space: 'Leerzeichen',
  unseenSign: 'Dieses Zeichen ist unsichtbar.',
};

const WHO = {
  special: {
    'OWNER@': 'der Eigentümer',
    'GROUP@': 'die Eigentümergruppe',
    'EVERYONE@': EVERYONE,
    'ANONYMOUS@': 'Aufrufer ohne Namen',
    'AUTHENTICATED@': 'alle mit Namen',
  },
  group: (name) => `die Gruppe ${name}`,
  user: (name) => `der Benutzer ${name}`,
  // The fourth case.
  whom: {
    special: {
      'OWNER@': 'den Eigentümer',
      'GROUP@': 'die Eigentümergruppe',
      'EVERYONE@': 'alle',
      'ANONYMOUS@': 'Aufrufer ohne Namen',
      'AUTHENTICATED@': 'alle mit Namen',
    },
    group: (name) => `die Gruppe ${name}`,
    user: (name) => `den Benutzer ${name}`,
  },
  // These have one form for the first and the fourth case.
  signingIn: SIGNED_IN,
  others: OTHERS,
  unknownOwner: 'die besitzende Person',
  unknownGroup: 'die Eigentümergruppe',
  inGroups: (groups) => `wer in ${and(groups)} ist`,
  ifIn: (name, groups) => `${name} (falls in ${and(groups)})`,
};

const NAMES = {
  special: {
    'OWNER@': 'Der Eigentümer jedes Dokuments',
    'GROUP@': 'Die Eigentümergruppe',
    'EVERYONE@': 'Alle',
    'AUTHENTICATED@': 'Alle Angemeldeten',
    'ANONYMOUS@': 'Alle ohne Anmeldung',
  },
  inSentence: {
    'OWNER@': 'der Eigentümer jedes Dokuments',
    'GROUP@': 'die Eigentümergruppe',
    'EVERYONE@': EVERYONE,
    'AUTHENTICATED@': SIGNED_IN,
    'ANONYMOUS@': 'alle ohne Anmeldung',
  },
  membersOf: (name) => `die Mitglieder von ${name}`,
  countedMembers: (members, name) => (members === 1 ? `das eine Mitglied von ${name}`
    : `die ${number(members)} Mitglieder von ${name}`),
  unfolded: (members, first) => `${number(members)} Mitglieder: ${first.join(', ')} …`,
  you: 'Sie',
  cannotSignIn: 'nicht unter denen, die sich anmelden können',
  emptyGroup: 'eine Gruppe ohne Mitglieder',
  unknownMembers: 'eine Gruppe',
  noMembers: 'niemand ist in dieser Gruppe',
};

const PLACES = {
  all: 'Alle Dokumente',
  allQuoted: '„Alle Dokumente“',
  top: '„Alle Dokumente“',
  that: 'dieser Stelle',
  quoted: (name) => `„${name}“`,
};

const PAGE = {
  title: (name) => `${name} – rooms`,
  skip: 'Zum Inhalt springen',
  path: 'Pfad',
  signedInAs: 'Angemeldet als',
  document: 'Dokument',
  whoHasAccess: 'Wer Zugriff hat',
  myRights: 'Meine Berechtigungen',
  advanced: 'Erweitert',
  recorded: 'Was protokolliert wird',
  access: 'Zugriff',
  openFolder: 'Ordner öffnen',
  backToFolder: 'Zurück zum Ordner',
  notShown: 'Diese Stelle kann nicht gezeigt werden.',
};

const ACTS = {
  cancel: 'Abbrechen',
  close: 'Schließen',
  download: 'Herunterladen',
  copyLink: 'Link kopieren',
  remove: 'Entfernen',
  stop: 'Anhalten',
  name: 'Name',
  why: 'Warum',
  loadAgain: 'Neu laden',
  tryAgain: 'Fehlgeschlagenes erneut versuchen',
  anew: 'Erneut versuchen',
  mindThis: 'Bitte beachten',
};

const MESSAGES = {
  close: 'Diese Meldung schließen',
  signInAgain: 'Erneut anmelden',
  waiting: 'Der Raum antwortet nicht. Die Seite versucht es noch eine halbe Minute lang.',
  details: 'Einzelheiten',
  fold: 'Zuklappen',
  progress: (done, whole) => `${number(done)} von ${number(whole)}`,
  lookingAtAll: 'Was weiter unten liegt, wird angesehen.',
  stopped: 'Was weiter unten liegt, wurde nicht angesehen, da Sie es angehalten haben. Ausnahmen '
    + 'dort fehlen hier vielleicht.',
  failed: 'Was weiter unten liegt, wurde nicht angesehen. Ausnahmen dort fehlen hier vielleicht.',
};

const PICKER = {
  add: 'Personen oder Gruppen hinzufügen',
  choices: 'Personen und Gruppen',
  asGroup: 'als Gruppe',
  asPerson: 'als Person',
  groupAllTheSame: 'trotzdem als Gruppe hinzufügen',
  personAllTheSame: 'trotzdem als Person hinzufügen',
  person: 'Person',
  group: 'Gruppe',
  groupOf: (members) => `Gruppe, ${count(members, 'Mitglied', 'Mitglieder')}`,
  isBelow: 'Dieser Name steht schon in der Liste unten.',
  spell: 'Namen können hier nicht nachgeschlagen werden: Schreiben Sie sie genau.',
  nobody: (made) => `Niemand dieses Namens ist bekannt (Stand: ${made}). Prüfen Sie die `
    + 'Schreibweise.',
};

const ASK = {
  changing: (names) => (names.length === 1 ? `Fragen Sie ${names[0]}: Diese Person kann das ändern.`
    : `Fragen Sie ${or(names)}: Diese Personen können das ändern.`),
  managing: (names) => (names.length === 1
    ? `Fragen Sie ${names[0]}: Diese Person verwaltet den Raum.`
    : `Fragen Sie ${or(names)}: Diese Personen verwalten den Raum.`),
  owning: (names) => (names.length === 1 ? `Fragen Sie ${names[0]}: Dieser Person gehört es.`
    : `Fragen Sie ${or(names)}: Diesen Personen gehört es.`),
  administrator: 'Fragen Sie Ihren Administrator.',
  whoever: 'Fragen Sie die Person, die es verwaltet.',
};

const CHANGED = {
  could: (names) => `Nach der Liste ${verb(names.slice(0, 1), 'kann', 'können')} das ${or(names)} `
    + 'gewesen sein.',
  unknown: 'Wer das getan haben kann, ist hier nicht bekannt, da Sie nicht sehen dürfen, wer '
    + 'Zugriff hat.',
  above: 'Nach der Liste kann das niemand anders getan haben: Es wurde entfernt und neu dorthin '
    + 'gelegt.',
};

const ACCOUNT = {
  menu: 'Ihr Konto',
  change: 'Kennwort ändern',
  elsewhere: {
    directory: 'Ihr Kennwort steht in einem Verzeichnis Ihrer Organisation und wird dort geändert.',
    session: 'Sie haben sich über einen anderen Dienst angemeldet. Ihr Kennwort wird dort '
      + 'geändert.',
    file: 'Hier ändert nur der Administrator Kennwörter. Bitten Sie ihn um ein neues.',
  },
  why: {
    old: 'Das bisherige Kennwort stimmt nicht.',
    tries: 'Zu viele falsche Versuche. Warten Sie eine Viertelstunde.',
    short: 'Es braucht mindestens 10 Zeichen.',
    weak: 'Es ist leicht zu erraten: Nehmen Sie mehrere Wörter, die nichts miteinander zu tun '
      + 'haben.',
    same: 'Es ist das bisherige.',
    form: 'Es darf höchstens 72 Bytes und keine ungewöhnlichen Zeichen haben.',
    changed: 'Der Administrator hat Ihr Kennwort inzwischen geändert.',
    busy: 'Gerade ändert jemand anders ein Kennwort. Versuchen Sie es in einer Minute erneut.',
  },
  notChanged: 'Es wurde nicht geändert.',
  differ: 'Die beiden neuen sind verschieden.',
  present: 'Bisheriges Kennwort',
  fresh: 'Neues Kennwort',
  freshHint: 'Mindestens 10 Zeichen. Mehrere Wörter sind leicht zu merken.',
  again: 'Das neue noch einmal',
  changeIt: 'Ändern',
  changed: 'Ihr Kennwort wurde geändert. Verwenden Sie das neue auf allen Ihren Geräten.',
  chooseOwn: 'Wählen Sie ein eigenes Kennwort',
  first: 'Sie haben sich mit einem ersten Kennwort angemeldet. Es öffnet nichts, bis Sie ein '
    + 'anderes wählen.',
  firstChanged: 'Ihr Kennwort wurde geändert. Der Raum öffnet sich in einigen Sekunden.',
};

export const DE = {
  lists: LISTS, who: WHO, names: NAMES, places: PLACES, page: PAGE, acts: ACTS,
  messages: MESSAGES, picker: PICKER, ask: ASK, changed: CHANGED, account: ACCOUNT,
  moments: DE_MOMENTS, help: DE_HELP,
  folder: DE_FOLDER, find: DE_FIND, moving: DE_MOVING, upload: DE_UPLOAD, rights: DE_RIGHTS,
  faults: DE_FAULTS, warnings: DE_WARNINGS, access: DE_ACCESS, outcome: DE_OUTCOME,
  advanced: DE_ADVANCED, ready: DE_READY, earlier: DE_EARLIER, pages: DE_PAGES, search: DE_SEARCH,
  would: DE_WOULD,
  person: DE_PERSON,
};
