// Rights and lists, entry by entry, and what they would bring about, in German.

import { verb } from './de_people.js';
import { capital, formsOf } from './forms.js';

const { and } = formsOf('de', 'und', 'oder');

export const DE_RIGHTS = {
  groups: {
    read: 'Lesen', write: 'Schreiben', manage: 'Verwalten',
    remove: 'Entfernen und umbenennen, was andere angelegt haben',
  },
  groupsOfDocument: {
    read: 'Lesen', write: 'Schreiben', manage: 'Verwalten', remove: 'Entfernen und umbenennen',
  },
  letters: {
    r: {
      document: 'das Dokument lesen', folder: 'den Inhalt sehen',
      both: 'Dokumente lesen oder den Inhalt von Ordnern sehen',
    },
    x: { both: 'zum Inhalt durchgehen' },
    t: { both: 'Art, Eigentümer und Gruppe sehen' },
    c: { both: 'die Zugriffslisten sehen' },
    n: { both: 'benannte Attribute lesen' },
    w: {
      document: 'den Inhalt ersetzen', folder: 'neue Dokumente ablegen',
      both: 'Dokumente ersetzen oder neue in Ordnern ablegen',
    },
    a: {
      document: 'am Ende anfügen', folder: 'darin Ordner anlegen',
      both: 'an Dokumente anfügen oder Ordner anlegen',
    },
    D: { both: 'Enthaltenes entfernen oder wegverschieben' },
    d: { both: 'das Objekt entfernen oder wegverschieben' },
    N: { both: 'benannte Attribute schreiben' },
    T: { both: 'Attribute schreiben' },
    C: { both: 'die Zugriffslisten ändern' },
    o: { both: 'Eigentümer und Gruppe ändern' },
    h: { both: 'die Aufbewahrung schreiben' },
    H: { both: 'die Aufbewahrungssperre schreiben' },
    y: { both: 'synchronisieren' },
  },
  everything: ['alles tun'],
};

const VERBS = { A: 'erlaubt', D: 'verweigert', U: 'protokolliert', L: 'gibt Alarm' };
const entry = (type, who, rights) =>
  `${VERBS[type]} für ${who}: ${rights.length === 0 ? 'nichts' : and(rights)}`;

const line = (lineNumber, place) => `Zeile ${lineNumber} der Liste${
  place === null ? '' : ` von ${place}`}`;
const ruling = (lineNumber, place, isInherited) =>
  `${line(lineNumber, place)}${isInherited ? ' (von einem übergeordneten Ordner)' : ''}`;

export const DE_ADVANCED = {
  types: { A: 'Zulassen', D: 'Verweigern', U: 'Überwachen', L: 'Alarm' },
  reaches: {
    here: 'nur hier',
    fd: 'hier und überall darunter',
    f: 'hier und für Dokumente darunter',
    d: 'hier und für Ordner darunter',
    fdi: 'überall darunter, nicht hier',
    fi: 'für Dokumente darunter, nicht hier',
    di: 'für Ordner darunter, nicht hier',
    fdn: 'hier und eine Ebene darunter',
  },
  oneLevel: (reach) => `${reach}, eine Ebene tief`,
  nowhere: 'nirgends',
  entry,
  inheritedEntry: (type, who, rights) =>
    `${entry(type, who, rights)} (kommt von einem übergeordneten Ordner)`,
  outcomes: {
    F: 'was abgelehnt wurde', S: 'was gewährt wurde', SF: 'beides', none: 'nichts',
  },
  type: 'Typ',
  who: 'Wer',
  user: 'Benutzer',
  group: 'Gruppe',
  rights: 'Berechtigungen',
  records: 'Protokolliert',
  reach: 'Wo es gilt',
  kept: 'Aufbewahrt, aber nichts fragt danach',
  single: 'Einzelne Berechtigungen: ',
  noLetters: 'keine',
  inPart: (group) => `${group} (teilweise)`,
  nothing: 'nichts',
  asText: 'Die Liste als Text',
  line: (line, fault) => `Zeile ${line}: ${fault}`,
  form: (form) => ['Die erste Zeile ist „list:“ mit a (vererben) und p (schützen). Danach steht in '
    + 'jeder Zeile ein Eintrag: ', form, '. Einträge mit dem Kennzeichen I kommen von einem '
    + 'übergeordneten Ordner.'],
  parts: 'type:flags:who:rights',
  decides: 'Die Liste wird von oben nach unten gelesen: Über jede Berechtigung entscheidet der '
    + 'erste Eintrag, der für den Aufrufer gilt und diese Berechtigung hat. Was kein Eintrag '
    + 'zulässt, ist verweigert.',
  recording: 'Diese Einträge gewähren und verweigern nichts. Durch sie protokolliert der Raum, was '
    + 'versucht wurde.',
  unsent: 'Ihre Änderungen wirken erst, wenn Sie sie senden.',
  table: 'Tabelle',
  text: 'Text',
  ways: 'Ansichten der Liste',
  sent: 'Die Liste wurde gesendet und gilt von jetzt an.',
  review: 'Prüfen und senden',
  drop: 'Änderungen verwerfen',
  ready: 'Fertige Listen',
  mayOnlyLook: 'Sie dürfen diese Liste ansehen, aber nicht ändern (C).',
  order: 'Reihenfolge',
  orderAndRemoval: 'Reihenfolge und Entfernen',
  moveUp: (entryNumber) => `Eintrag ${entryNumber} nach oben`,
  moveDown: (entryNumber) => `Eintrag ${entryNumber} nach unten`,
  removeEntry: (entryNumber) => `Eintrag ${entryNumber} entfernen`,
  fromAbove: 'von oben',
  faultAt: (entryNumber, fault) => `Eintrag ${entryNumber}: ${fault}`,
  passOn: 'Vererben',
  passOnHint: 'Was in diesem Ordner liegt, folgt dieser Liste, auch wenn sie sich ändert.',
  protect: 'Schützen',
  protectHint: 'Vom übergeordneten Ordner kommt nichts mehr hierher. Die grauen Einträge bleiben, '
    + 'wie sie jetzt sind, solange sie nicht entfernt werden.',
  dropGrey: 'Die grauen Einträge entfernen',
  number: 'Nr.',
  unread: (line, fault) => `Der Text kann nicht gelesen werden: Zeile ${line}. ${fault} `
    + 'Korrigieren Sie ihn unter „Text“.',
  add: 'Eintrag hinzufügen',
  empty: 'Die Liste hat keine Einträge.',
  caption: 'Einträge der Reihe nach. Der erste, der für einen Aufrufer gilt und eine Berechtigung '
    + 'hat, entscheidet über sie.',
  fresh: 'Neu: ',
  gone: 'Entfällt: ',
  sendChanges: 'Diese Änderungen senden?',
  send: 'Senden',
  changedElsewhere: 'Die Liste wurde anderswo geändert',
  since: 'Seit Sie sie geöffnet haben, hat jemand diese Liste geändert oder eine, von der sie '
    + 'erbt:',
  takeOrGoOn: 'Nehmen Sie die Liste, wie sie jetzt ist, und verwerfen Sie Ihre Änderungen, oder '
    + 'machen Sie mit Ihrer weiter. Dann wird Ihnen gezeigt, was Ihre Änderungen rückgängig machen '
    + 'würden.',
  takeTheirs: 'Die jetzige Liste nehmen',
  goOn: 'Mit meiner weitermachen',
  sendAllTheSame: 'Trotzdem senden',
  nobodyGave: 'Niemand hat es Ihnen gegeben.',
  byLine: (line, place) => `Durch ${ruling(line, place, false)}.`,
  allowedBy: (line, place, isInherited, who) =>
    `${ruling(line, place, isInherited)} erlaubt es für ${who}.`,
  deniedBy: (line, place, isInherited, who) =>
    `${ruling(line, place, isInherited)} verweigert es für ${who}.`,
  byAdding: (place) =>
    `Nichts sagt etwas anderes, und Sie dürfen in ${place} Dokumente ablegen.`,
  nobodyGaveHere: 'Niemand hat es Ihnen gegeben, weder hier noch beim übergeordneten Ordner.',
  yes: 'Ja',
  no: 'Nein',
  removeOrMove: 'das Objekt entfernen oder wegverschieben',
  topStays: 'Die oberste Ebene des Raums bleibt, wo sie ist.',
  whatYouMay: 'Was Sie dürfen',
  may: 'Erlaubt',
  what: 'Was',
  byWhich: 'Durch welchen Eintrag',
  owners: 'Eigentümer und Gruppe',
  ownerField: 'Eigentümer (ein Benutzer)',
  owner: 'Eigentümer',
  changeThem: 'Ändern',
  ownersNow: (owner, group) => `Der Eigentümer ist jetzt ${owner}, die Gruppe ${group}.`,
  change: 'Ändern',
  changeOwners: 'Eigentümer und Gruppe ändern',
  rightsNotShown: 'Ihre Berechtigungen können nicht gezeigt werden.',
};

const LOSING = { C: 'sie zu ändern (C)', c: 'sie zu sehen (c)' };
const CANT_SHOW = ' Diese Seite kann keine Liste ändern, die sie nicht zeigen kann.';
const ending = (letter) => (letter === 'C' ? '' : CANT_SHOW);
const NO_GROUPS = 'Diese Seite weiß nicht, wer in einer Gruppe ist.';
const there = (place) => (place === null ? 'zum Inhalt dieses Ordners' : 'hierher');
const folderAt = (place) => place ?? 'dieser Ordner';
const listOf = (place) => (place === null ? 'die Liste dieses Ordners' : `die Liste von ${place}`);
const can = (names) => `${capital(and(names))} ${verb(names, 'darf', 'dürfen')}`;

export const DE_WARNINGS = {
  // The third case.
  depends: {
    group: (name) => `der Gruppe ${name}`,
    above: 'der Liste des übergeordneten Ordners (die Sie nicht lesen dürfen)',
  },
  losesList: {
    C: 'Danach dürfen Sie diese Liste nicht mehr ändern',
    c: 'Danach dürfen Sie diese Liste nicht mehr sehen',
  },
  perhapsLosesList: {
    C: 'Danach dürfen Sie diese Liste vielleicht nicht mehr ändern',
    c: 'Danach dürfen Sie diese Liste vielleicht nicht mehr sehen',
  },
  losesAccess: {
    C: 'Danach dürfen Sie nicht mehr ändern, wer Zugriff hat.',
    c: 'Danach dürfen Sie nicht mehr sehen, wer Zugriff hat.',
  },
  perhapsLosesAccess: {
    C: 'Danach dürfen Sie vielleicht nicht mehr ändern, wer Zugriff hat.',
    c: 'Danach dürfen Sie vielleicht nicht mehr sehen, wer Zugriff hat.',
  },
  notSurely: (letter, depends) => `Kein Eintrag der Liste erlaubt Ihnen sicher, ${LOSING[letter]}: `
    + `Das hängt von ${and(depends)} ab. ${NO_GROUPS}${ending(letter)}`,
  letsNobody: (letter) => `Kein Eintrag der Liste erlaubt irgendjemandem, ${LOSING[letter]}: Dann `
    + `kann das nur der Administrator.${ending(letter)}`,
  letsYouNot: (letter) =>
    `Kein Eintrag der Liste erlaubt Ihnen, ${LOSING[letter]}.${ending(letter)}`,
  deniesYou: (letter, text) => `Ein Eintrag verweigert es Ihnen: ${text}.${ending(letter)}`,
  noPassage: (who, place) => `${capital(who)} ${verb([who], 'kann', 'können')} nicht `
    + `${there(place)} gelangen: ${capital(folderAt(place))} lässt ${who} nicht durch (x).`,
  noPassageForAll: (place) => `Nicht alle können ${there(place)} gelangen: ${
    capital(folderAt(place))} lässt nicht alle durch (x).`,
  noPassageForSome: (who, place, names) => `${capital(who)} kann nur zum Teil ${there(place)} `
    + `gelangen: ${capital(folderAt(place))} lässt ${and(names)} nicht durch (x).`,
  passageUnread: (who, place) => `Es ist nicht bekannt, ob ${who} ${there(place)} gelangen `
    + `${verb([who], 'kann', 'können')}: Sie dürfen ${listOf(place)} nicht lesen.`,
  passageDepends: (who, place, depends) => `Es ist nicht bekannt, ob ${who} ${there(place)} `
    + `gelangen ${verb([who], 'kann', 'können')}: Bei ${place ?? 'diesem Ordner'} hängt das von ${
      and(depends)} ab. ${NO_GROUPS}`,
  removes: (names) => `${can(names)} dann entfernen, umbenennen und wegverschieben, was andere in `
    + 'diesem Ordner angelegt haben, auch ohne es öffnen zu können.',
  removesUnsaid: (names) => `${can(names)} hier Dokumente ablegen, und kein Eintrag sagt, wer `
    + 'entfernen darf: Damit ist auch erlaubt, zu entfernen, umzubenennen und wegzuverschieben, '
    + 'was andere in diesem Ordner angelegt haben, auch ohne es öffnen zu können.',
  includesProtected: (places) => `Dazu gehört der geschützte Ordner ${and(places)}: An seiner `
    + 'Stelle könnte ein anderer angelegt werden.',
  includesSeveralProtected: (places) => `Dazu gehören die geschützten Ordner ${and(places)}: An `
    + 'ihrer Stelle könnten andere angelegt werden.',
  includesApart: (places) => `Dazu gehört der Ordner ${and(places)}, für den „Nur diese Personen“ `
    + 'gilt: An seiner Stelle könnte ein anderer angelegt werden.',
  includesSeveralApart: (places) => `Dazu gehören die Ordner ${and(places)}, für die „Nur diese `
    + 'Personen“ gilt: An ihrer Stelle könnten andere angelegt werden.',
  remedy: (entryText) => `Ein Eintrag, der es allen verweigert (${entryText}), unter den Einträgen `
    + 'derer, die es dürfen, verhindert das.',
  opens: 'Wer etwas wegverschieben darf, kann es in einen eigenen Ordner verschieben und dort '
    + 'lesen, was der Liste jenes Ordners folgt. Was verschlossen bleiben soll, muss geschützt '
    + 'sein (p).',
  unseen: 'Nicht alles darunter konnte angesehen werden: Es gibt vielleicht weitere geschützte '
    + 'Ordner.',
  removesFolder: (names) =>
    `${can(names)} dann diesen Ordner selbst entfernen, umbenennen und wegverschieben.`,
  removesDocument: (names) =>
    `${can(names)} dann dieses Dokument selbst entfernen, umbenennen und wegverschieben.`,
};
