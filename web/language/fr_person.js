// One person here and further down: what they can do, and taking them out; in French.

import { formsOf } from './forms.js';

const { number, and, count } = formsOf('fr', 'et', 'ou');

export const FR_PERSON = {
  title: 'Une personne, ici et plus bas',
  find: 'L’accès de qui ?',
  can: (name) => `Ce que ${name} peut faire, autant que vous pouvez le voir :`,
  ifIn: (names) => `(si dans ${and(names)})`,
  unlessByGroup: (words) => `${words}, sauf par un groupe`,
  theirsThere: (words) => `ce qui leur appartient là : ${words}`,
  places: 'À ces endroits',
  doneSomeOf: (done, whole) => `Fait à ${number(done)} sur ${count(whole, 'endroit', 'endroits')}.`,
  doneAt: (places) => `Fait pour ${and(places)}.`,
  notDoneAt: (places) => `Pas fait pour ${and(places)}.`,
  changedAt: (place) => `Quelqu’un d’autre a modifié ${place} entre-temps.`,
  takeOut: 'Retirer partout',
  takeOutTitle: (name) => `Retirer ${name} ?`,
  takeOutSays: (name) => `Les lignes de ${name} aux endroits cochés disparaissent. Ce que donne un `
    + 'groupe, un dossier parent ou une ligne ailleurs reste.',
  notMine: (name, places) => `${name} a aussi des lignes à ${and(places)}, où vous ne pouvez pas `
    + 'changer qui a accès.',
  takeThemOut: 'Retirer',
  takingOut: (name) => `Retrait de ${name}`,
  tookOut: (name, many) => `${name} est retiré de ${count(many, 'endroit', 'endroits')}.`,
  standIn: 'Faire remplacer',
  standInTitle: (name) => `Remplacement de ${name}`,
  findStandIn: 'Qui remplace ?',
  lastDay: 'Dernier jour',
  chooseWho: 'Choisissez qui remplace, et jusqu’à quand.',
  chooseDay: (name) => `Jusqu’à quel jour ${name} remplace-t-il ou elle ?`,
  standInSays: (name, other, day) => `Jusqu’au ${day}, ${other} a ce que ${name} a par une ligne `
    + 'aux endroits cochés.',
  onTheWay: (name, places) => `En chemin, ${name} peut passer par ${and(places)}.`,
  hasAlready: (name, places) => `${name} a déjà des lignes à ${and(places)}, qui restent telles `
    + 'quelles.',
  changeThere: 'Pour donner plus, modifiez la ligne à cet endroit.',
  barred: (name, places, folder) => `${name} ne peut pas parvenir à ${and(places)} : ${folder} ne `
    + 'laisse pas passer.',
  standsIn: (name, other, day, many) => `${other} remplace ${name} à ${
    count(many, 'endroit', 'endroits')} jusqu’au ${day}, autant que la tâche de nuit le peut.`,
};
