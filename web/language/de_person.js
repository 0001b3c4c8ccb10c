// One person here and further down: what they can do, and taking them out; in German.

import { formsOf } from './forms.js';

const { number, and, count } = formsOf('de', 'und', 'oder');

export const DE_PERSON = {
  title: 'Eine Person, hier und weiter unten',
  find: 'Wessen Zugriff?',
  can: (name) => `Was ${name} kann, soweit Sie es sehen dürfen:`,
  ifIn: (names) => `(falls in ${and(names)})`,
  unlessByGroup: (words) => `${words}, außer durch eine Gruppe`,
  theirsThere: (words) => `das Eigene dort: ${words}`,
  places: 'An diesen Stellen',
  doneSomeOf: (done, whole) => `Erledigt an ${number(done)} von ${
    count(whole, 'Stelle', 'Stellen')}.`,
  doneAt: (places) => `Erledigt bei ${and(places)}.`,
  notDoneAt: (places) => `Nicht erledigt bei ${and(places)}.`,
  changedAt: (place) => `${place} hat inzwischen jemand anders geändert.`,
  takeOut: 'Überall herausnehmen',
  takeOutTitle: (name) => `${name} herausnehmen?`,
  takeOutSays: (name) => `Die Zeilen von ${name} an den angekreuzten Stellen entfallen. Was eine `
    + 'Gruppe, ein Ordner darüber oder eine Zeile an anderer Stelle gibt, bleibt.',
  notMine: (name, places) => `${name} hat auch Zeilen bei ${and(places)}, wo Sie nicht ändern `
    + 'dürfen, wer Zugriff hat.',
  takeThemOut: 'Herausnehmen',
  takingOut: (name) => `${name} wird herausgenommen`,
  tookOut: (name, many) => `${name} ist aus ${count(many, 'Stelle', 'Stellen')} herausgenommen.`,
  standIn: 'Vertreten lassen',
  standInTitle: (name) => `Vertretung für ${name}`,
  findStandIn: 'Wer vertritt?',
  lastDay: 'Letzter Tag',
  chooseWho: 'Wählen Sie, wer vertritt und bis wann.',
  chooseDay: (name) => `Bis zu welchem Tag vertritt ${name}?`,
  standInSays: (name, other, day) => `Bis zum ${day} hat ${other}, was ${name} an den angekreuzten `
    + 'Stellen durch eine Zeile hat.',
  onTheWay: (name, places) => `Auf dem Weg dorthin kann ${name} durch ${and(places)} hindurch.`,
  hasAlready: (name, places) => `${name} hat schon Zeilen bei ${and(places)}, die bleiben, wie sie `
    + 'sind.',
  changeThere: 'Für mehr ändern Sie dort die Zeile.',
  barred: (name, places, folder) => `${name} kommt nicht zu ${and(places)}: ${folder} erlaubt den `
    + 'Durchgang nicht.',
  standsIn: (name, other, day, many) => `${other} vertritt ${name} an ${
    count(many, 'Stelle', 'Stellen')} bis zum ${day}, soweit der nächtliche Lauf es kann.`,
};
