// A folder, and what is done with what is in it, in German.

import { verb } from './de_people.js';
import { capital, formsOf } from './forms.js';

const { number, and, or, count } = formsOf('de', 'und', 'oder');

const objects = (many) => count(many, 'Objekt', 'Objekte');
const documents = (many) => count(many, 'Dokument', 'Dokumente');
const amountOf = (documentsIn, foldersIn) => and([
  ...documentsIn > 0 ? [documents(documentsIn)] : [],
  ...foldersIn > 0 ? [`${number(foldersIn)} Ordner`] : []]);
const removedOf = (done, whole) => `${number(done)} von ${number(whole)} ${
  done === 1 ? 'wurde' : 'wurden'} entfernt.`;

export const DE_FOLDER = {
  label: 'Ordner',
  folder: 'Ordner',
  document: 'Dokument',
  ending: (ending) => `${ending}-Dokument`,
  mayNot: {
    w: 'Sie dürfen hier keine Dokumente ablegen.',
    a: 'Sie dürfen hier keine Ordner anlegen.',
  },
  upload: 'Hochladen',
  add: 'Hinzufügen',
  more: 'Mehr',
  uploadFolder: 'Ordner hochladen',
  filesField: 'Dokumente zum Hochladen',
  wholeField: 'Ordner zum Hochladen',
  newFolder: 'Neuer Ordner',
  makeIt: 'Anlegen',
  made: (name) => `Der Ordner ${name} wurde angelegt.`,
  access: 'Zugriff',
  filter: 'Nach Namen filtern',
  chosen: 'Was ausgewählt ist',
  move: 'Verschieben',
  selected: (many) => `${number(many)} ausgewählt`,
  notShown: 'Der Inhalt dieses Ordners kann nicht gezeigt werden.',
  empty: 'In diesem Ordner liegt noch nichts.',
  addHere: 'Ziehen Sie Dokumente hierher, oder verwenden Sie „Hochladen“.',
  addByThumb: 'Mit „+“ kommt etwas hinein.',
  nothingFits: 'Nichts in diesem Ordner hat diese Buchstaben im Namen.',
  caption: 'Der Inhalt dieses Ordners. Die Pfeiltasten gehen von Zeile zu Zeile.',
  kind: 'Art',
  whatCanBeDone: 'Was getan werden kann',
  select: (name) => `Auswählen: ${name}`,
  selectAll: 'Alle auswählen',
  accessOf: (name) => `Zugriff: ${name}`,
  actions: 'Aktionen',
  actionsOf: (name) => `Aktionen: ${name}`,
  preview: 'Vorschau',
  openIn: (program) => `In ${program} öffnen`,
  newVersion: 'Durch eine Datei ersetzen',
  renameOrMove: 'Umbenennen oder verschieben',
  taken: 'Es gibt schon etwas dieses Namens. Wählen Sie einen anderen.',
  amount: amountOf,
  mayNotRename: (place) => `Sie dürfen ${place} nicht umbenennen.`,
  mayNotRemove: (place) => `Sie dürfen ${place} nicht entfernen, also wurde nichts entfernt.`,
  removeFolder: 'Den Ordner entfernen?',
  removeDocument: 'Das Dokument entfernen?',
  removeAmount: (amount) => `${amount} entfernen?`,
  goneOne: (name) => `${name} ist dann für alle weg und kann nicht zurückgeholt werden.`,
  goneOneWith: (name, amount) => `${name} und der Inhalt, ${amount}, sind dann für alle weg und `
    + 'können nicht zurückgeholt werden.',
  goneSeveral: (amount) => `${amount} sind dann für alle weg und können nicht zurückgeholt werden.`,
  goneSeveralWith: (amount, inside) => `${amount} und deren Inhalt, ${inside}, sind dann für alle `
    + 'weg und können nicht zurückgeholt werden.',
  notCounted: (places) => `Sie dürfen nicht sehen, was in ${and(places)} liegt, daher ist es hier `
    + 'nicht mitgezählt.',
  removeIt: 'Entfernen',
  removeThem: 'Alle entfernen',
  removing: (what) => `${what} entfernen`,
  removedSome: removedOf,
  removedSomeOf: (done, whole) => `${number(done)} von ${number(whole)} entfernt`,
  stoppedRemoval: (done, whole) => `Angehalten. ${removedOf(done, whole)}`,
  restUnknown: 'Was noch da ist, ist nicht bekannt: Sehen Sie nach.',
  stillThere: (names, amount) => `Noch da: ${names} (${amount}).`,
  removedOne: (name) => `${name} wurde entfernt.`,
  removedSeveral: (amount) => `${amount} wurden entfernt.`,
  leaveThem: 'So lassen',
  linkGives: 'Er gibt niemandem eine Berechtigung.',
  linkCopied: 'Der Link wurde kopiert.',
  link: 'Link',
  theLink: 'Der Link',
  copyFromHere: 'Kopieren Sie ihn von hier.',
  tooMany: 'Das ist zu viel für ein einziges Herunterladen. Wählen Sie weniger aus.',
  zip: 'Dokumente',
  openAddress: 'Eine Adresse öffnen',
  addressHint: 'Ein Link auf diese Seite oder ein Pfad wie /Briefe/2026.',
  open: 'Öffnen',
  canManage: 'Kann verwalten',
  canDrop: 'Kann Dokumente ablegen',
  canChange: 'Kann ändern',
  canRead: 'Kann lesen',
  within: (folder) => `in ${folder}`,
  forgetThese: 'Diese vergessen',
  openedLately: 'Kürzlich geöffnet',
  sharedWithYou: 'Für Sie freigegeben',
  asOf: (day) => `Stand: ${day}`,
  whatYouMayDo: 'Was Sie hier dürfen',
  closedRoom: 'Sie können nicht sehen, was alles im Raum liegt, nur was für Sie freigegeben wurde.',
  closedFolder: 'Sie können nicht sehen, was alles in diesem Ordner liegt, nur was für Sie '
    + 'freigegeben wurde.',
  noPreview: 'Für dieses Dokument gibt es keine Vorschau. Laden Sie es herunter, um es anzusehen.',
  pdf: 'Der Browser zeigt PDF-Dokumente in einem eigenen Tab.',
  openInTab: 'In einem Tab öffnen',
  textAlone: 'Gezeigt wird nur der Text, nicht wie es aussieht.',
  emptyDocument: 'Das Dokument ist leer.',
  beginning: 'Das ist der Anfang. Laden Sie es herunter, um alles zu sehen.',
  cantOpen: 'Das können Sie nicht öffnen',
};

export const DE_FIND = {
  find: 'Weiter unten suchen',
  busy: 'Weiter unten wird gesucht …',
  none: 'Nichts in diesem Ordner oder weiter unten hat diese Buchstaben im Namen.',
  more: 'Es gibt mehr davon, oder mehr zu durchsuchen, als auf einmal geht: Öffnen Sie einen '
    + 'Ordner, und suchen Sie dort, oder geben Sie mehr vom Namen ein.',
  tooLong: 'So lang ist kein Name.',
  found: (many, text) => `${count(many, 'Name', 'Namen')} mit „${text}“`,
  unseen: (places) => `Sie dürfen nicht sehen, was in ${and(places)} liegt.`,
};

const RIGHTS = { r: 'lesen', w: 'ändern', d: 'entfernen oder wegverschieben', C: 'verwalten' };
const rightsOf = (letters) => [...letters].map((letter) => RIGHTS[letter]);
const objectsIn = (names, isFolder) =>
  `${and(names)}${isFolder ? ' samt Inhalt, außer Geschütztem,' : ''}`;

export const DE_MOVING = {
  into: (place) => ['In ', place],
  above: 'Der übergeordnete Ordner',
  noFolders: 'Keine Ordner darin.',
  folder: 'Ordner',
  folders: 'Ordner',
  renameFolder: 'Den Ordner umbenennen oder verschieben',
  renameDocument: 'Das Dokument umbenennen oder verschieben',
  moveIt: 'Verschieben',
  renameIt: 'Umbenennen',
  several: (many) => `${objects(many)} verschieben`,
  moveHere: 'Hierher verschieben',
  allTheSame: 'Trotzdem verschieben',
  now: (name, place) => `${name} ist jetzt ${place}.`,
  to: (place) => `Nach ${place} verschieben`,
  ofThese: (names, place) => `Nach ${place} verschieben: ${and(names)}.`,
  movedSomeOf: (done, whole) => `${number(done)} von ${number(whole)} verschoben`,
  moved: (many, place) => `${objects(many)} nach ${place} verschoben.`,
  stopped: (many) => `Angehalten. Nicht verschoben: ${objects(many)}.`,
  staysHere: (name) => `${name} bleibt hier.`,
  notMoved: (many) => (many === 1 ? '1 weiteres Objekt konnte nicht verschoben werden.'
    : `${number(many)} weitere Objekte konnten nicht verschoben werden.`),
  lookAtLists: 'Die Listen werden angesehen',
  gaining: (callers, letters, names, isFolder) => `${capital(and(callers))} `
    + `${verb(callers, 'darf', 'dürfen')} dann `
    + `${objectsIn(names, isFolder)} ${and(rightsOf(letters))}.`,
  losing: (callers, letters, names, isFolder) => `${capital(and(callers))} `
    + `${verb(callers, 'kann', 'können')} dann `
    + `${objectsIn(names, isFolder)} nicht mehr ${or(rightsOf(letters))}.`,
  someIn: (name) => `einiges in ${name}`,
  unanswered: 'Es lässt sich nicht sagen, wer dort darauf zugreifen könnte',
  morePeople: 'Dort könnten mehr Personen darauf zugreifen',
  fewerPeople: 'Dort können weniger Personen darauf zugreifen',
  unknownPeople: 'Es ist nicht bekannt, wer dort darauf zugreifen kann',
  unknownAt: (place) => 'Es ist nicht bekannt, wer dort mehr tun könnte: Sie dürfen die Liste von '
    + `${place} nicht lesen.`,
  unknownFrom: (place) => 'Es ist nicht bekannt, wer dadurch gewinnt oder verliert: Sie dürfen die '
    + `Liste von ${place} nicht lesen.`,
  unknownOf: (names) => `Es ist nicht bekannt, wer dort mehr mit ${and(names)} tun könnte: Sie `
    + 'dürfen die Liste nicht lesen.',
  readersUnknown: 'Wer dort lesen darf, ist nicht bekannt: Sie dürfen die Liste nicht lesen.',
  readers: (names) =>
    `Nach der Liste ${verb(names, 'darf', 'dürfen')} dort ${and(names)} lesen.`,
  readersPerhaps: (names) => `Nach der Liste ${verb(names, 'darf', 'dürfen')} dort ${and(names)} `
    + 'lesen, wenn die übergeordneten Ordner den Durchgang erlauben.',
  noReaders: 'Nach der Liste darf dort niemand lesen.',
  noReadersPerhaps: 'Nach der Liste darf dort niemand lesen, wenn die übergeordneten Ordner den '
    + 'Durchgang erlauben.',
};

export const DE_UPLOAD = {
  of: (name) => `Hochladen von ${name}`,
  title: 'Hochladen',
  to: (place) => `Nach ${place} hochladen`,
  waits: 'wartet',
  sent: 'wird gesendet',
  uploaded: 'hochgeladen',
  uploadedAs: (name) => `hochgeladen als ${name}`,
  ended: (ended, whole) => `${number(ended)} von ${
    count(whole, 'Dokument', 'Dokumenten')}`,
  uploadedWith: (whole) => `hochgeladen, mit ${count(whole, 'Dokument', 'Dokumenten')}`,
  uploadedSome: (good, whole) => `${number(good)} von ${
    count(whole, 'Dokument', 'Dokumenten')} hochgeladen`,
  more: (many) => `und ${number(many)} mehr`,
  sameForAll: 'Dasselbe für alle, die schon da sind',
  keepBoth: 'Beide behalten',
  showTheirs: 'Das andere zeigen',
  taken: {
    exists: {
      title: 'Das Dokument ersetzen?',
      text: (name) => `In diesem Ordner gibt es schon ein Dokument ${name}. Wenn es ersetzt wird, `
        + 'geht sein Inhalt verloren.',
      replace: 'Ersetzen',
    },
    changed: {
      title: 'Jemand anders hat es inzwischen geändert',
      text: (name) => `${name} ist nicht mehr das, was Sie zuletzt davon gesehen haben. `
        + 'Wenn es ersetzt wird, geht verloren, was jemand anders geschrieben hat.',
      replace: 'Das andere ersetzen',
    },
    gone: {
      title: 'Jemand hat es inzwischen entfernt',
      text: (name) => `${name} ist nicht mehr da: Jemand hat es entfernt, umbenannt oder `
        + 'verschoben.',
      replace: 'Trotzdem hochladen',
    },
    left: {
      title: 'Reste eines Hochladens entfernen?',
      text: (name) => `Ein Hochladen von ${name} wurde abgebrochen, und seine Teile sind noch da, `
        + 'mit einer Nummer hinter diesem Namen. Ohne die übrigen nützen sie nichts.',
      replace: 'Entfernen und hochladen',
    },
  },
  noFolder: 'sein Ordner konnte nicht angelegt werden',
  left: 'blieb, wie es war',
  notSent: 'nicht gesendet',
  tooMuch: 'nicht gesendet, weil es zu viel auf einmal war: Warten Sie eine Minute, und drücken '
    + 'Sie dann „Fehlgeschlagenes erneut versuchen“',
  lost: 'es wurde hochgeladen, aber der Raum hat es nicht mehr',
  interrupted: (many) => 'Der Raum wurde während des Hochladens unterbrochen, und '
    + `${documents(many)}, ${many === 1 ? 'das' : 'die'} er schon hatte, ${
      many === 1 ? 'ist' : 'sind'} weg. Er wurde wahrscheinlich auf einen früheren Stand `
    + 'zurückgesetzt: Fragen Sie den Administrator, was sonst noch weg ist, und versuchen Sie das '
    + 'Fehlgeschlagene erneut.',
  done: (whole) => `${documents(whole)} hochgeladen.`,
  stopped: (good, whole) => `Angehalten: ${number(good)} von ${
    count(whole, 'Dokument', 'Dokumenten')} hochgeladen.`,
  failed: (bad, whole) => `${number(bad)} von ${
    count(whole, 'Dokument', 'Dokumenten')} fehlgeschlagen.`,
  folderIntoDocument: (name) => `Ein Ordner kann nicht in ein Dokument gelegt werden, und ${name} `
    + 'ist eines. Legen Sie ihn auf einem Ordner oder neben den Zeilen ab.',
  isDocument: 'Das ist ein Dokument',
  besideOne: (target, name, place) => `In ${target} kann nichts gelegt werden, da es ein Dokument `
    + `ist. Soll ${name} daneben, in den offenen Ordner (${place})?`,
  besideSeveral: (target, many, place) => `In ${target} kann nichts gelegt werden, da es ein `
    + `Dokument ist. Sollen die ${documents(many)} daneben, in den offenen Ordner (${place})?`,
  beside: 'Daneben legen',
};
