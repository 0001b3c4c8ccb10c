// Who has access, and what a change of it brings about, in German.

import { verb } from './de_people.js';
import { capital, formsOf } from './forms.js';

const { number, and, or, count } = formsOf('de', 'und', 'oder');

const LEVELS = {
  pass: 'Kann durchgehen',
  clear: 'Kann Vorhandenes entfernen',
  drop: 'Kann Dokumente ablegen',
  see: 'Kann hier die Namen sehen',
  read: 'Kann lesen',
  add: 'Kann lesen und hinzufügen',
  change: 'Kann hinzufügen und ändern',
  remove: 'Kann hinzufügen, ändern und entfernen',
  manage: 'Kann verwalten',
  custom: 'Benutzerdefiniert',
};
const LEVELS_OF_DOCUMENT = {
  ...LEVELS, change: 'Kann ändern', remove: 'Kann ändern und entfernen',
};
const levelOf = (level, kind) => (kind === 'document' ? LEVELS_OF_DOCUMENT : LEVELS)[level];

const HINTS = {
  pass: 'zu dem, was weiter unten freigegeben ist; sieht hier nichts',
  clear: 'durch diese Zeile allein; sieht hier nichts',
  drop: 'sieht nichts von dem, was dort liegt',
  see: 'nicht, was darin steht',
  read: 'sieht und lädt herunter',
  add: 'was dort liegt, bleibt, wie es ist',
  change: 'liest, fügt hinzu und ändert; entfernt nur selbst Hinzugefügtes',
  remove: 'entfernt auch, was andere hinzugefügt haben, und benennt es um',
  manage: 'alles, und entscheidet, wer Zugriff hat',
};

const DOES = {
  read: (place) => `${place} und den ganzen Inhalt lesen`,
  change: (place) => `in ${place} etwas hinzufügen und den ganzen Inhalt ändern`,
  remove: (place) => `in ${place} etwas hinzufügen und den ganzen Inhalt ändern und entfernen`,
  manage: (place) => `${place} und den ganzen Inhalt verwalten`,
};
const DOES_WITH_DOCUMENT = {
  read: (place) => `${place} lesen`,
  change: (place) => `${place} ändern`,
  remove: (place) => `${place} ändern und entfernen`,
  manage: (place) => `${place} verwalten`,
};
const doesTo = (level, kind, place) =>
  (kind === 'document' ? DOES_WITH_DOCUMENT : DOES)[level](place);
const untilEnd = (day) => (day === null ? '' : `, bis ${day}, soweit der nächtliche Lauf es kann`);
// Of a group it may not be known how many they are.
const someone = (who, members, many) => `${capital(who)}${
  members.length === 0 ? '' : ` (${members.join(', ')})`} ${
  many === 1 ? verb([who], 'kann', 'können') : 'können'}`;

const THIS = { folder: 'Dieser Ordner', document: 'Dieses Dokument' };
const THIS_AS_OBJECT = { folder: 'diesen Ordner', document: 'dieses Dokument' };
const UNSEEN = 'Sie dürfen nicht sehen, wer sonst noch Zugriff hat.';

export const DE_ACCESS = {
  level: levelOf,
  hint: (level, kind) => `${levelOf(level, kind)}: ${
    kind === 'document' && level === 'change' ? 'liest und ersetzt es' : HINTS[level]}.`,
  hintWithoutOwn: (level, kind) => `${levelOf(level, kind)}: ${
    level === 'change' ? 'liest, fügt hinzu und ändert; entfernt nichts' : HINTS[level]}.`,
  thenCan: (who, members, many, level, kind, place, day) =>
    `${someone(who, members, many)} dann ${doesTo(level, kind, place)}${untilEnd(day)}.`,
  nowCan: (who, members, many, level, kind, place, day) =>
    `${someone(who, members, many)} jetzt ${doesTo(level, kind, place)}${untilEnd(day)}.`,
  unsure: (who) => `${who} ist nicht unter den Namen, die hier bekannt sind. Wenn der Name falsch `
    + 'geschrieben ist, bekommt niemand Zugriff.',
  notByLevels: 'Das lässt sich nicht durch Stufen sagen. Ändern Sie es unter „Erweitert“.',
  noDate: 'An diesem Tag kann es nicht enden: Er ist vorbei, oder ein Name ist zu lang.',
  partOfDate: 'Der Tag ist nicht vollständig. Vervollständigen Sie ihn, oder leeren Sie das Feld '
    + 'für kein Ende.',
  notChosen: (typed) => `„${typed}“ steht im Feld und ist nicht gewählt: Wählen Sie einen Namen `
    + 'aus der Liste, oder leeren Sie das Feld.',
  addedToo: (who) => `${capital(who)} stand im Feld und ist jetzt dabei. Drücken Sie dann noch `
    + 'einmal „Freigeben“.',
  lookedAgain: 'Es sind einige Minuten vergangen, also wird noch einmal angesehen, was weiter '
    + 'unten liegt. Drücken Sie dann noch einmal „Freigeben“.',
  workedOut: 'Es wird ermittelt, wer dadurch etwas bekommt und wer etwas verliert.',
  writeMail: 'E-Mail schreiben',
  share: 'Freigeben',
  shareAllTheSame: 'Trotzdem freigeben',
  untilLabel: 'Bis, wenn es enden soll',
  until: 'Bis',
  onlyIfEnds: 'nur wenn es enden soll',
  whatTheyCan: 'Was möglich sein soll',
  keptFromAbove: 'vom übergeordneten Ordner behalten',
  fromFolderAbove: 'von einem übergeordneten Ordner',
  from: (place) => ['von ', place],
  goneGroup: (name) => `${capital(name)} wird aus der Liste genommen. Mitglieder, die auf andere `
    + 'Weise Zugriff haben, behalten ihn.',
  goneKeeping: (name) => `${capital(name)} wird aus der Liste genommen. Was eine Gruppe oder ein `
    + 'übergeordneter Ordner gibt, bleibt.',
  gone: (name) => `${capital(name)} wird aus der Liste genommen.`,
  goneHere: (name, level, from) =>
    `${capital(name)} wird aus dieser Liste genommen. „${level}“ bleibt, ${from}.`,
  removeAccessTo: (place) => `Zugriff auf ${place} entfernen?`,
  removeAccess: 'Zugriff entfernen',
  removeAccessOf: (name) => `Zugriff entfernen: ${name}`,
  removeAccessOfGroup: (name) => `Zugriff entfernen: die Gruppe ${name}`,
  takeOff: 'Aus dieser Liste nehmen',
  takeOffOf: (place) => `Aus der Liste von ${place} nehmen?`,
  takeLine: (name) => `Aus dieser Liste nehmen: ${name}`,
  takeLineOfGroup: (name) => `Aus dieser Liste nehmen: die Gruppe ${name}`,
  takeOffAllTheSame: 'Trotzdem herausnehmen',
  notThis: (name) => `Ohne ${name}`,
  removeAllTheSame: 'Zugriff trotzdem entfernen',
  changeAccess: 'Zugriff ändern?',
  changeIt: 'Ändern',
  changeAllTheSame: 'Trotzdem ändern',
  goes: (place, name, from, to) => `Bei ${place} wechselt ${name} von „${from}“ zu „${to}“.`,
  whatCan: (name) => `Was ${name} kann`,
  whatGroupCan: (name) => `Was die Gruppe ${name} kann`,
  may: (rights) => `darf ${and(rights)}`,
  mayNot: (rights) => `darf nicht ${or(rights)}`,
  untilDay: (day) => `bis ${day}`,
  wasToEnd: (day) => `sollte am ${day} enden und ist noch nicht zurückgenommen`,
  doesntEnd: (day) =>
    `sollte am ${day} enden, wurde aber seitdem geändert: endet nicht von selbst`,
  theGroup: (name) => `die Gruppe ${name}`,
  hasNoEnd: (name) => `Der Zugriff für ${name} hat kein Ende.`,
  ends: (name, day) =>
    `Der Zugriff für ${name} endet am ${day}, soweit der nächtliche Lauf es kann.`,
  lastDay: (name) => `Letzter Tag von ${name}`,
  lastDayOfGroup: (name) => `Letzter Tag der Gruppe ${name}`,
  removesNothing: (level) => `${level}, entfernt hier nichts`,
  removesNoFolders: (level) => `${level}, entfernt hier keine Ordner`,
  letRemoveHere: 'Auch hier entfernen lassen',
  letRemoveHereFor: (name) => `${name} auch hier entfernen lassen`,
  letRemoveTitle: 'Auch hier entfernen lassen?',
  letThem: 'Entfernen lassen',
  letAllTheSame: 'Trotzdem entfernen lassen',
  letRemoveSays: (name, level) => `Durch den Ordner darüber gilt für ${name}: „${level}“. Was `
    + 'andere angelegt haben, bleibt hier an seinem Ort; dann nicht mehr für diese.',
  set: 'Setzen',
  noEnd: 'kein Ende',
  onTheWay: (names) => `Nur auf dem Weg zu etwas weiter unten: ${and(names)}`,
  why: {
    denies: 'Hier wird jemandem etwas verweigert, also zählt die Reihenfolge der Zeilen. Diese '
      + 'Liste wird unter „Erweitert“ geändert.',
    order: 'Hier darf jemand nur zum Teil entfernen, also zählt die Reihenfolge der Zeilen. Diese '
      + 'Liste wird unter „Erweitert“ geändert.',
    apart: 'Was in diesem Ordner liegt, folgt seiner Liste nicht. Sie wird unter „Erweitert“ '
      + 'geändert.',
    unsent: 'Unter „Erweitert“ gibt es Änderungen, die Sie noch nicht gesendet haben.',
  },
  open: 'Wer hier Dokumente hinzufügen darf, darf auch entfernen und umbenennen, was andere '
    + 'angelegt haben.',
  openFirst: 'Um Personen hinzuzufügen, drücken Sie zuerst dies.',
  letOnly: 'Nur die entfernen lassen, bei denen es steht',
  own: 'Wer ein Dokument hinzufügt, darf es auch entfernen und umbenennen.',
  allFollows: 'Alles weiter unten folgt dieser Liste.',
  restFollows: 'Alles andere weiter unten folgt dieser Liste.',
  onlyThese: 'Nur diese Personen',
  onlyTheseAllTheSame: 'Trotzdem nur diese Personen',
  cutOff: 'Nur diese Personen?',
  cutOffSays: (kind, above) => `${THIS[kind]} hat dann eine eigene Liste. Wer später Zugriff auf ${
    above} bekommt, bekommt ihn hier nicht, und wer ihn dort verliert, behält ihn hier.`,
  whomFor: 'Haken Sie an, für wen es gedacht ist: Dann behält sonst niemand Zugriff, außer denen, '
    + 'die es verwalten. Ohne Haken behalten alle, was sie haben.',
  staysAsIs: (names) => `Was ${and(names)} ${verb(names, 'kann', 'können')}, sagt keine Stufe, `
    + 'und es bleibt, wie es ist.',
  followAgain: (above) => `Wieder ${above} folgen?`,
  followIt: 'Folgen',
  followAllTheSame: 'Trotzdem folgen',
  followSays: (above) => `Wer Zugriff auf ${above} hat, hat ihn dann auch hier, jetzt und immer, `
    + 'wenn sich das ändert. Die unten Genannten behalten ihn.',
  doesntFollow: (kind, above) => `${THIS[kind]} folgt ${above} nicht.`,
  follows: (kind, above) =>
    `${THIS[kind]} folgt ${above}: Wer dort Zugriff hat, hat ihn auch hier.`,
  greyLines: 'Die grauen Zeilen kommen von dort.',
  ownList: (kind, above) =>
    `${THIS[kind]} hat eine eigene Liste: Was sich bei ${above} ändert, zählt hier nicht.`,
  keepInPlace: 'Alles an seinem Platz lassen?',
  keepThem: 'An seinem Platz lassen',
  keepAllTheSame: 'Trotzdem an seinem Platz lassen',
  keepSays: 'Dann entfernen und umbenennen dürfen nur noch die, bei denen „Kann hinzufügen, '
    + 'ändern und entfernen“ oder „Kann verwalten“ steht.',
  removersUnseen: (place, kind) => `Sie dürfen nicht sehen, wer Zugriff auf ${place} hat, daher `
    + `ist nicht bekannt, wer ${THIS_AS_OBJECT[kind]} noch entfernen oder wegverschieben darf.`,
  removers: (place, names, kind) => `Nach der Liste von ${place}, oder als Eigentümer, ${
    verb(names, 'darf', 'dürfen')} auch ${and(names)} ${
    THIS_AS_OBJECT[kind]} entfernen oder wegverschieben.`,
  onlyTheseThere: 'nur diese Personen',
  onlyTheseAre: (names) => `nur diese Personen: ${names.join('; ')}`,
  linesThere: 'eigene Zeilen',
  unseen: (names) => `Sie dürfen nicht sehen, wer Zugriff auf ${and(names)} hat.`,
  documentsIn: (many, place) => `${count(many, 'Dokument', 'Dokumente')} in ${place}`,
  exceptions: 'Ausnahmen weiter unten',
  ended: (name, day) => `Der Zugriff für ${name} endete und wurde am ${day} zurückgenommen.`,
  loose: (name, day) => `Für ${name} sollte es Zugriff bis ${day} geben, aber jetzt gibt es `
    + 'keinen. Der Tag kann unter „Erweitert“ entfernt werden.',
  onlyLook: 'Sie können sehen, wer Zugriff hat, aber es nicht ändern.',
  canChangeDocument: `Sie können dieses Dokument ändern. ${UNSEEN}`,
  canPutInto: `Sie können in diesem Ordner Dokumente ablegen. ${UNSEEN}`,
  canRead: (kind) => `Sie können ${THIS_AS_OBJECT[kind]} lesen. ${UNSEEN}`,
  cantRead: (kind) => `Sie können ${THIS_AS_OBJECT[kind]} nicht lesen. ${UNSEEN}`,
  changedMeanwhile: 'Jemand anders hat inzwischen geändert, wer Zugriff hat, also wurde nichts '
    + 'gesendet. So ist es jetzt: Tun Sie es noch einmal.',
  wayStays: (places) => `${and(places)} ${places.length === 1 ? 'lässt' : 'lassen'} jetzt jemanden `
    + 'durch, und das konnte nicht zurückgenommen werden. Tun Sie das dort, unter „Nur auf dem '
    + 'Weg“.',
  lineChanged: (place) => `Jemand hat ${place} inzwischen geändert: Die Zeile dort bleibt.`,
  lineStays: (place) => `Die Zeile bei ${place} bleibt.`,
  notAdded: (place) => `Jemand hat ${place} inzwischen geändert: dort wurde nichts geändert.`,
  notAddedAt: (place) => `In ${place} wurde nichts geändert.`,
  takenBack: 'Was zuerst gesendet worden war, wurde zurückgenommen.',
  replaces: 'Sie tritt an die Stelle dieser Liste. Sie sehen, was sich ändert, bevor sie gesendet '
    + 'wird.',
  takeList: 'Diese Liste nehmen',
  whichList: 'Welche Liste',
};

// Levels are named as the menu has them, so that they fit one person as well as several.
const named = (level, kind) =>
  (level === 'none' ? 'kein Zugriff' : `„${levelOf(level, kind)}“`);

const REMOVALS = { it: 'das Objekt selbst entfernen', inside: 'dort Vorhandenes entfernen',
  own: 'dort selbst Angelegtes entfernen', documents: 'dort Dokumente entfernen',
  folders: 'dort Ordner entfernen' };
const removing = (what) => what.map((one) => REMOVALS[one]);
const withRemovals = (level, kind, removals) => (removals.length > 0
  ? `${named(level, kind)} und dazu ${and(removing(removals))}` : named(level, kind));

export const DE_OUTCOME = {
  heads: {
    gain: 'Erhält:', loss: 'Verliert:', perhapsGain: 'Erhält vielleicht:',
    perhapsLoss: 'Verliert vielleicht:', keeps: 'Behält:', also: 'Außerdem:',
  },
  line: (names, words) => `${and(names)} – ${words}`,
  at: (words, path) => `${words}, bei ${path}`,
  atInside: (words, path) => `${words}, bei Dokumenten in ${path}`,
  atFoldersIn: (words, path) => `${words}, bei Ordnern in ${path}`,
  atSomeInside: (words, path) => `${words}, bei einigen Dokumenten in ${path}`,
  atSomeFoldersIn: (words, path) => `${words}, bei einigen Ordnern in ${path}`,
  keepsAt: (words, path) => `${words}, bei ${path}, durch Zeilen dort`,
  withMore: (words) => `${words}, und hat noch einige Rechte mehr`,
  moreRights: 'einige weitere Berechtigungen',
  otherRights: 'nicht dieselben Berechtigungen wie jetzt',
  removals: (gained, lost, isNew) => [
    ...gained.length === 0 ? []
      : [`${isNew ? 'möglich' : 'auch möglich'}: ${and(removing(gained))}`],
    ...lost.length === 0 ? [] : [`nicht mehr möglich: ${or(removing(lost))}`]].join('; aber '),
  gains: withRemovals,
  loses: (from, to, kind, removals) => `jetzt ${named(from, kind)}, dann ${
    withRemovals(to, kind, removals)}`,
  losesAll: (from, kind) => `kein Zugriff mehr (jetzt ${named(from, kind)})`,
  losesByList: (from, kind) => `kein Zugriff mehr durch diese Liste (jetzt ${named(from, kind)})`,
  keeps: withRemovals,
  keepsRemoving: (removals) => `möglich: ${and(removing(removals))}`,
  keepsMore: (places) => `etwas an ${count(places, 'weiterer Stelle', 'weiteren Stellen')}`,
  changesMore: (places) => (places === 1 ? '1 weitere Stelle weiter unten ändert sich'
    : `${number(places)} weitere Stellen weiter unten ändern sich`),
  showAll: 'Alle zeigen',
  nobody: 'Niemand erhält oder verliert etwas',
  nobodyNow: 'dadurch, nach jetzigem Stand.',
  nobodyLoses: 'Niemand verliert',
  anything: 'etwas.',
  notOwned: 'Sie dürfen nicht sehen, wem es gehört, daher ist nicht bekannt, wer das ist und was '
    + 'diese Person sonst hat.',
  gettingOwn: (name, objects) => (objects === 1
    ? `${capital(name)} erreicht dann 1 eigenes Objekt und darf es entfernen.`
    : `${capital(name)} erreicht dann ${number(objects)} eigene Objekte und darf sie entfernen.`),
  losingOwn: (name, objects) => `${name} kann dann ${
    count(objects, 'eigenes Objekt', 'eigene Objekte')} nicht mehr entfernen.`,
  groupsAsOf: (day) => `Wer in einer Gruppe ist, ist hier bekannt (Stand: ${day}).`,
  groupsUnknown: 'Wer in einer Gruppe ist, ist hier nicht bekannt: Mitglieder haben dadurch '
    + 'vielleicht mehr.',
  ownNew: 'Wer hier ein Dokument angelegt hat, darf es dann auch entfernen und umbenennen.',
  aboveUnknown: 'Sie dürfen nicht sehen, wer Zugriff auf den übergeordneten Ordner hat, daher ist '
    + 'nicht bekannt, wer ihn hier bekommt.',
  wayUnread: (places) => `Sie dürfen nicht sehen, wer auf dem Weg hierher durch ${and(places)} `
    + 'durchgehen darf, daher ist nicht bekannt, wer hierher gelangt.',
  apart: (names, places) => `Auf „Nur diese Personen“ gesetzt und ${
    places === 1 ? 'bleibt, wie es ist' : 'bleiben, wie sie sind'}: ${and(names)}.`,
  unreadThere: (names) => `Sie dürfen nicht sehen, wer Zugriff auf ${and(names)} hat: Was dort `
    + 'geschieht, ist nicht bekannt.',
  letPass: (names, places) => `${capital(and(names))} auf dem Weg hierher durch ${and(places)} `
    + 'durchgehen lassen.',
  nothingShown: 'Dadurch allein wird dort nichts gezeigt.',
  takeKept: (places) => `Auch zurücknehmen, was dort behalten wird: ${and(places)}.`,
  takeGiven: (name, places) =>
    `Auch zurücknehmen, was ${name} dort gesondert gegeben wurde: ${and(places)}.`,
  takePassing: (name, places) => `Auch zurücknehmen, dass ${name} durch ${and(places)} durchgehen `
    + 'darf. Nichts weiter unten braucht das noch.',
  takePassingPerhaps: (name, places) => `Auch zurücknehmen, dass ${name} durch ${and(places)} `
    + 'durchgehen darf. Es ist nicht bekannt, ob etwas weiter unten das braucht.',
  letRemoveAt: (names, places, isFolder) => `Von ${and(names)} auch dort ${
    isFolder ? 'Ordner' : 'alles'} entfernen lassen, was andere angelegt haben, wo es an seinem `
    + `Ort bleibt: ${and(places)}. Sonst geht es nicht.`,
  removesNotAt: (names, places, isFolder) => `${capital(and(names))}: ${
    isFolder ? 'Ordner, die andere' : 'was andere'} in ${and(places)} angelegt haben, ${
    isFolder ? 'können' : 'kann'} dort nicht entfernt werden. Wer das verwaltet, kann es ändern.`,
  moves: 'Wer etwas entfernen darf, kann es auch in einen eigenen Ordner verschieben und dort '
    + 'öffnen, auch wenn es sich hier nicht öffnen lässt. Wofür „Nur diese Personen“ gilt, das '
    + 'bleibt verschlossen.',
  cantGet: (names, place) => `${capital(and(names))} ${verb(names, 'kann', 'können')} nicht `
    + `hierher gelangen: ${place} erlaubt den Durchgang nicht. Ändern kann das, wer diese Stelle `
    + 'verwaltet.',
  givers: (names) => `Dann ${verb(names.slice(0, 1), 'kann', 'können')} nur ${or(names)} das `
    + 'zurückgeben.',
  noGiver: 'Auch sonst kann es niemand: Dann kann nur der Administrator das zurückgeben.',
  all: (many) => `Alle ${number(many)}`,
  changes: 'Wer etwas erhält und wer etwas verliert',
};
