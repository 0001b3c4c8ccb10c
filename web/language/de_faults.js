// What the room refuses and why, in German.

import { formsOf } from './forms.js';

const { number } = formsOf('de', 'und', 'oder');

const OF_LISTS = {
  A1: 'Der Typ muss A (zulassen) oder D (verweigern) sein, für das Protokoll U (überwachen) oder L '
    + '(Alarm).',
  A2: 'Die Kennzeichen dürfen nur die Buchstaben f d n i S F g I sein.',
  A3: 'Das ist kein Name eines Benutzers oder einer Gruppe. Namen haben Buchstaben, Ziffern und '
    + '. _ - + $ \\, keine Leerzeichen und keine Umlaute; die besonderen Namen sind OWNER@, '
    + 'GROUP@, EVERYONE@, ANONYMOUS@ und AUTHENTICATED@.',
  A4: 'Die Berechtigungen dürfen nur die Buchstaben rwanNxDtThHdcCoy sein, ohne Leerzeichen.',
  A5: 'Ein Eintrag hat vier Teile mit drei Doppelpunkten dazwischen: type:flags:who:rights.',
  A6: 'Die erste Zeile muss „list:“ sein, gefolgt von a, p oder beidem, wenn Sie das wollen, und '
    + 'von nichts anderem.',
  A7: 'Eine Liste, die gesendet wird, darf höchstens 4.096 Einträge haben.',
  A8: 'Eine Liste darf höchstens 64 eigene Einträge haben. Nehmen Sie Personen in eine Gruppe auf, '
    + 'und nennen Sie stattdessen diese.',
  A9: 'Ein Eintrag dieses Typs gehört in die andere Liste: Zulassen und Verweigern entscheiden '
    + 'über den Zugriff, Überwachen und Alarm verlangen ein Protokoll.',
  A10: 'S und F gibt es nur bei Überwachen und Alarm: Ein Eintrag, der zulässt oder verweigert, '
    + 'hat keines davon.',
  A11: '„Nicht hier“ braucht darunter etwas, an das der Eintrag vererbt wird (f oder d).',
  A12: 'Unter einem Dokument liegt nichts, also können seine Einträge nicht vererbt werden (kein '
    + 'f, d, n, i).',
  A13: 'Diese Zeile hat Zeichen, die nicht gesendet werden können.',
};

// A place stands after 'an' in the third case.
const CONFLICTS = {
  'not-folder': (at) => `Was an ${at} liegt, ist ein Dokument, also liegt nichts darunter. Laden `
    + 'Sie den Ordner neu.',
  'wrong-kind': (at) => `Was an ${at} liegt, ist von anderer Art: ein Ordner, wo ein Dokument `
    + 'gemeint ist, oder umgekehrt. Wählen Sie einen anderen Namen.',
  exists: (at) => `An ${at} liegt schon etwas. Wählen Sie einen anderen Namen, oder entfernen Sie `
    + 'zuerst, was dort liegt.',
  'not-empty': (at) => `Was an ${at} liegt, ist nicht leer. Entfernen oder verschieben Sie zuerst `
    + 'den Inhalt.',
  root: 'Die oberste Ebene des Raums kann nicht entfernt oder verschoben werden.',
  loop: 'Ein Ordner kann nicht in sich selbst oder in einen seiner Unterordner verschoben werden. '
    + 'Wählen Sie eine andere Stelle.',
  'no-place': (at) => `Was an ${at} liegt, gehört jemand anderem, und eine so große Datei passt `
    + 'nicht an seine Stelle. Laden Sie sie unter einem anderen Namen hoch, oder lassen Sie den '
    + 'Besitzer es ersetzen.',
  'not-whole': (at) => `Von dem, was an ${at} liegt, fehlt ein Teil. Wurde es gerade verschoben, `
    + 'so verschieben Sie es noch einmal an dieselbe Stelle; sonst holen Sie ein früheres zurück.',
  'left-over': (at) => `Von einem abgebrochenen Hochladen sind an ${at} noch Teile da. Entfernen `
    + 'Sie sie, oder wählen Sie einen anderen Namen.',
};

const STATUSES = {
  lost: 'Die Verbindung ist abgebrochen. Vielleicht wurde die Anfrage ausgeführt, vielleicht '
    + 'nicht: Sehen Sie nach, und wiederholen Sie sie, wenn nicht.',
  unreadable: 'Die Datei kann auf diesem Computer nicht mehr gelesen werden: Sie wurde geändert, '
    + 'verschoben oder entfernt, nachdem sie ausgewählt wurde. Wählen Sie sie erneut aus.',
  401: 'Sie sind nicht mehr angemeldet: Ihre Sitzung ist zu Ende, oder Ihr Kennwort wurde '
    + 'geändert. Laden Sie die Seite neu, und melden Sie sich an.',
  405: 'Der Raum kennt diese Anfrage nicht. Laden Sie die Seite neu.',
  429: 'Es war zu viel auf einmal, oder es wurden zu viele Kennwörter versucht. Warten Sie eine '
    + 'Minute, und laden Sie dann die Seite neu.',
  431: 'Die Anfrage war zu lang. Wählen Sie einen kürzeren Namen.',
  500: 'Der Raum konnte das nicht speichern oder lesen. Vielleicht wurde es geändert, vielleicht '
    + 'nicht: Sehen Sie zuerst nach, und versuchen Sie es dann erneut; wenn das nicht hilft, '
    + 'benachrichtigen Sie den Administrator.',
  502: 'Der Raum antwortet im Moment nicht. Versuchen Sie es in einer Minute erneut; wenn er dann '
    + 'immer noch nicht antwortet, benachrichtigen Sie den Administrator.',
  503: 'Kennwörter können im Moment nicht geprüft werden. Versuchen Sie es in einer Minute erneut.',
  504: 'Der Raum brauchte zu lange für die Antwort. Vielleicht wurde die Anfrage ausgeführt, '
    + 'vielleicht nicht: Sehen Sie nach, bevor Sie sie wiederholen.',
  507: 'Der Raum ist voll, also wurde nichts hinzugefügt. Entfernen Sie, was niemand mehr braucht, '
    + 'und versuchen Sie es dann erneut; wenn das nicht hilft, benachrichtigen Sie den '
    + 'Administrator.',
};

const OF_DOOR = {
  'too-many-requests': 'Sie fragen zu viel auf einmal. Warten Sie, bis der Rest beantwortet ist, '
    + 'und versuchen Sie es dann erneut.',
  'too-many': 'Unter diesem Ordner liegt zu viel. Tun Sie es weiter unten, Ordner für Ordner.',
  'too-long': 'Es dauert zu lange, alles unter diesem Ordner anzusehen. Tun Sie es weiter unten, '
    + 'Ordner für Ordner.',
  'no-room': 'Der Raum antwortet im Moment nicht, also wurde nichts getan. Versuchen Sie es in '
    + 'einigen Sekunden erneut.',
  busy: 'Im Moment fragen zu viele, also wurde nichts getan. Versuchen Sie es in einigen Sekunden '
    + 'erneut.',
  'room-ended': 'Der Raum wurde beendet, bevor er geantwortet hat. Vielleicht wurde es getan, '
    + 'vielleicht nicht: Sehen Sie nach, bevor Sie es wiederholen.',
  changed: 'Jemand anders hat es inzwischen geändert, also wurde nichts getan. Laden Sie es neu.',
  gone: 'Jemand hat es inzwischen entfernt oder verschoben, also wurde nichts getan. Laden Sie '
    + 'seinen Ordner neu.',
  exists: 'Jemand hat inzwischen etwas dieses Namens dorthin gelegt, also wurde nichts getan. '
    + 'Laden Sie den Ordner neu.',
};

const MOST = (bytes) => `hat mehr als ${number(bytes)} Bytes (${number(bytes / 1048576)} MiB); `
  + 'mehr darf ein Dokument nicht haben. Verkleinern Sie es, oder teilen Sie es auf.';

const LEFT = (bytes) => `Der Raum hat nur noch Platz für ${number(bytes)} Bytes `
  + `(${number(bytes / 1048576)} MiB), also wurde nichts hinzugefügt. Verkleinern Sie es, oder `
  + 'entfernen Sie, was niemand mehr braucht; wenn das nicht hilft, '
  + 'benachrichtigen Sie den Administrator.';

export const DE_FAULTS = {
  ofLists: OF_LISTS,
  ofList: (code) => `Der Raum nimmt das nicht an (${code}).`,
  ofDoor: OF_DOOR,
  doorAway: 'Was für den Raum ganze Ordner ansieht, antwortet im Moment nicht. Versuchen Sie es '
    + 'erneut; wenn das nicht hilft, benachrichtigen Sie den Administrator.',
  conflicts: CONFLICTS,
  conflict: 'Was dort liegt, passt nicht dazu. Laden Sie den Ordner neu.',
  targets: {
    P1: 'Ein Name darf nicht leer, „.“ oder „..“ sein, nicht länger als 255 Bytes, und keine '
      + 'unsichtbaren Zeichen haben. Wählen Sie einen anderen Namen.',
    P2: 'Der Pfad ist länger als 4.096 Bytes. Wählen Sie kürzere Namen oder eine Stelle weiter '
      + 'oben.',
    P3: 'Der Name hat Zeichen, die nicht gesendet werden können. Wählen Sie einen anderen Namen.',
  },
  badUser: 'Der Raum nimmt Ihren Benutzernamen nicht an. Benachrichtigen Sie den Administrator: '
    + 'Namen haben nur Buchstaben, Ziffern und . _ - + $ \\.',
  badBody: 'Der Name eines Benutzers, einer Gruppe oder eines Objekts wurde nicht angenommen. '
    + 'Namen von Benutzern und Gruppen haben Buchstaben, Ziffern und . _ - + $ \\, keine '
    + 'Leerzeichen.',
  badRequest: (why) => `Der Raum konnte die Anfrage nicht lesen${why ? ` (${why})` : ''}. Laden `
    + 'Sie die Seite neu.',
  first: 'Sie haben sich mit einem ersten Kennwort angemeldet. Laden Sie die Seite neu, und wählen '
    + 'Sie ein eigenes.',
  frontEnd: 'Der Webserver hat das abgelehnt, als käme es von einer anderen Website. Laden Sie die '
    + 'Seite neu.',
  denied: (place, rights) =>
    `Für ${place} fehlt Ihnen diese Berechtigung: ${rights.join(' oder ')}.`,
  deniedRemoval: (place) => `An ${place} dürfen Sie weder Enthaltenes entfernen noch Dokumente `
    + 'ablegen.',
  deniedHere: { w: 'Dokumente ablegen', a: 'Ordner anlegen' },
  noEntry: 'Kein Eintrag der Zugriffsliste gewährt das.',
  byEntry: (number, words, entry) =>
    `Eintrag ${number} der Zugriffsliste verweigert es; er ${words} (${entry}).`,
  statuses: STATUSES,
  status: (status) => `Der Raum hat mit Status ${status} geantwortet. Versuchen Sie es erneut; `
    + 'wenn das nicht hilft, benachrichtigen Sie den Administrator.',
  page: (message) => `Die Seite selbst ist gescheitert: ${message}. Laden Sie sie neu.`,
  nothingAt: (at) => `An ${at} liegt nichts. Vielleicht wurde es entfernt, umbenannt oder `
    + 'verschoben: Laden Sie den Ordner neu.',
  largeAt: (at, bytes) => `Was an ${at} liegen soll, ${MOST(bytes)}`,
  largeThis: (bytes) => `Dieses Dokument ${MOST(bytes)}`,
  largeFile: (bytes) => `Es ${MOST(bytes)}`,
  longLists: {
    dacl: 'Die Zugriffsliste ist zu lang. Entfernen Sie Einträge, die niemand mehr braucht, oder '
      + 'nehmen Sie Personen in eine Gruppe auf, und nennen Sie stattdessen diese.',
    sacl: 'Die Liste dessen, was protokolliert wird, ist zu lang. Entfernen Sie Einträge, die '
      + 'niemand mehr braucht.',
  },
  leftFor: LEFT,
  twice: 'Der Raum hat zuerst nicht geantwortet, also wurde es vielleicht schon ausgeführt: Sehen '
    + 'Sie nach.',
  noName: 'Geben Sie einen Namen ein.',
  specialName: 'Dieser Name hat eine besondere Bedeutung. Wählen Sie einen anderen.',
  slash: 'Ein Name darf keinen Schrägstrich enthalten.',
  characters: 'Der Name hat Zeichen, die nicht verwendet werden können.',
  longName: 'Der Name ist zu lang: höchstens 255 Bytes.',
};
