// Who has access, and what a change of it brings about, in French.

import { capital, formsOf } from './forms.js';

const { number, and, or, count } = formsOf('fr', 'et', 'ou');

const LEVELS = {
  pass: 'Peut passer',
  clear: 'Peut supprimer ce qui s’y trouve',
  drop: 'Peut déposer des documents',
  see: 'Peut voir les noms ici',
  read: 'Peut lire',
  add: 'Peut lire et ajouter',
  change: 'Peut ajouter et modifier',
  remove: 'Peut ajouter, modifier et supprimer',
  manage: 'Peut gérer',
  custom: 'Personnalisé',
};
const LEVELS_OF_DOCUMENT = {
  ...LEVELS, change: 'Peut modifier', remove: 'Peut modifier et supprimer',
};
const levelOf = (level, kind) => (kind === 'document' ? LEVELS_OF_DOCUMENT : LEVELS)[level];

const HINTS = {
  pass: 'vers ce qui est partagé plus bas ; ne voit rien ici',
  clear: 'par cette ligne seule ; ne voit rien ici',
  drop: 'ne voit rien de ce qui s’y trouve',
  see: 'pas ce qu’il y a dedans',
  read: 'voit et télécharge',
  add: 'ce qui s’y trouve reste tel quel',
  change: 'lit, ajoute et modifie ; ne supprime que ses propres ajouts',
  remove: 'supprime et renomme aussi ce que d’autres ont ajouté',
  manage: 'tout, et décide qui a accès',
};

const DOES = {
  read: (place) => `lire ${place} et tout son contenu`,
  change: (place) => `faire des ajouts dans ${place} et modifier tout son contenu`,
  remove: (place) => `faire des ajouts dans ${place}, et modifier et supprimer tout son contenu`,
  manage: (place) => `gérer ${place} et tout son contenu`,
};
const DOES_WITH_DOCUMENT = {
  read: (place) => `lire ${place}`,
  change: (place) => `modifier ${place}`,
  remove: (place) => `modifier et supprimer ${place}`,
  manage: (place) => `gérer ${place}`,
};
const doesTo = (level, kind, place) =>
  (kind === 'document' ? DOES_WITH_DOCUMENT : DOES)[level](place);
const untilEnd = (day) =>
  (day === null ? '' : `, jusqu’au ${day}, autant que le traitement de nuit le peut`);
const someone = (who, members) =>
  `${capital(who)}${members.length === 0 ? '' : ` (${members.join(', ')})`}`;

const THIS = { folder: 'Ce dossier', document: 'Ce document' };
const THIS_AS_OBJECT = { folder: 'ce dossier', document: 'ce document' };
const UNSEEN = 'Vous ne pouvez pas voir qui d’autre a accès.';

export const FR_ACCESS = {
  level: levelOf,
  hint: (level, kind) => `${levelOf(level, kind)} : ${
    kind === 'document' && level === 'change' ? 'le lit et le remplace' : HINTS[level]}.`,
  hintWithoutOwn: (level, kind) => `${levelOf(level, kind)} : ${
    level === 'change' ? 'lit, ajoute et modifie ; ne supprime rien' : HINTS[level]}.`,
  thenCan: (who, members, many, level, kind, place, day) => `${someone(who, members)} ${
    many === 1 ? 'pourra' : 'pourront'} alors ${doesTo(level, kind, place)}${untilEnd(day)}.`,
  nowCan: (who, members, many, level, kind, place, day) => `${someone(who, members)} ${
    many === 1 ? 'peut' : 'peuvent'} maintenant ${doesTo(level, kind, place)}${untilEnd(day)}.`,
  unsure: (who) => `${who} ne fait pas partie des noms connus ici. Si le nom est mal écrit, `
    + 'personne n’obtient d’accès.',
  notByLevels: 'Cela ne peut pas se dire par niveaux. Changez-le sous « Avancé ».',
  noDate: 'Il ne peut pas y avoir de fin ce jour-là : il est passé, ou un nom est trop long.',
  partOfDate: 'Le jour est incomplet. Complétez-le, ou effacez-le pour qu’il n’y ait pas de fin.',
  notChosen: (typed) => `« ${typed} » est dans le champ sans être choisi : choisissez un `
    + 'nom dans la liste, ou videz le champ.',
  addedToo: (who) => `${capital(who)} était dans le champ et est ajouté. Appuyez ensuite encore `
    + 'une fois sur « Partager ».',
  lookedAgain: 'Quelques minutes ont passé, donc ce qui se trouve plus bas est examiné de nouveau. '
    + 'Appuyez ensuite encore une fois sur « Partager ».',
  workedOut: 'On détermine qui y gagne et qui y perd.',
  writeMail: 'Écrire un message',
  share: 'Partager',
  shareAllTheSame: 'Partager quand même',
  untilLabel: 'Jusqu’au, si cela doit finir',
  until: 'Jusqu’au',
  onlyIfEnds: 'seulement si cela doit finir',
  whatTheyCan: 'Ce qui sera permis',
  keptFromAbove: 'gardé du dossier au-dessus',
  fromFolderAbove: 'd’un dossier au-dessus',
  from: (place) => ['du dossier ', place],
  goneGroup: (name) => `${capital(name)} est retiré de la liste. Les membres qui ont accès d’une `
    + 'autre manière le gardent.',
  goneKeeping: (name) => `${capital(name)} est retiré de la liste. Ce que donne un groupe ou un `
    + 'dossier au-dessus reste.',
  gone: (name) => `${capital(name)} est retiré de la liste.`,
  goneHere: (name, level, from) =>
    `${capital(name)} est retiré de cette liste. « ${level} » reste, ${from}.`,
  removeAccessTo: (place) => `Supprimer l’accès à ${place} ?`,
  removeAccess: 'Supprimer l’accès',
  removeAccessOf: (name) => `Supprimer l’accès : ${name}`,
  removeAccessOfGroup: (name) => `Supprimer l’accès : le groupe ${name}`,
  takeOff: 'Retirer de cette liste',
  takeOffOf: (place) => `Retirer de la liste de ${place} ?`,
  takeLine: (name) => `Retirer de cette liste : ${name}`,
  takeLineOfGroup: (name) => `Retirer de cette liste : le groupe ${name}`,
  takeOffAllTheSame: 'Retirer quand même',
  notThis: (name) => `Sans ${name}`,
  removeAllTheSame: 'Supprimer quand même l’accès',
  changeAccess: 'Changer l’accès ?',
  changeIt: 'Changer',
  changeAllTheSame: 'Changer quand même',
  goes: (place, name, from, to) => `À ${place}, ${name} passe de « ${from} » à « ${to} ».`,
  whatCan: (name) => `Ce que peut ${name}`,
  whatGroupCan: (name) => `Ce que peut le groupe ${name}`,
  may: (rights) => `peut ${and(rights)}`,
  mayNot: (rights) => (rights.length === 1 ? `ne peut pas ${rights[0]}`
    : `ne peut ni ${rights.join(' ni ')}`),
  untilDay: (day) => `jusqu’au ${day}`,
  wasToEnd: (day) => `devait finir le ${day}, et n’est pas encore retiré`,
  doesntEnd: (day) => `devait finir le ${day}, mais a changé depuis : cela ne finit pas tout seul`,
  theGroup: (name) => `le groupe ${name}`,
  hasNoEnd: (name) => `L’accès pour ${name} n’a pas de fin.`,
  ends: (name, day) =>
    `L’accès pour ${name} finit le ${day}, autant que le traitement de nuit le peut.`,
  lastDay: (name) => `Dernier jour : ${name}`,
  lastDayOfGroup: (name) => `Dernier jour : le groupe ${name}`,
  removesNothing: (level) => `${level}, n’enlève rien ici`,
  removesNoFolders: (level) => `${level}, n’enlève pas de dossiers ici`,
  letRemoveHere: 'Laisser enlever ici aussi',
  letRemoveHereFor: (name) => `Laisser ${name} enlever ici aussi`,
  letRemoveTitle: 'Laisser enlever ici aussi ?',
  letThem: 'Laisser enlever',
  letAllTheSame: 'Laisser enlever quand même',
  letRemoveSays: (name, level) => `Par le dossier parent, ${name} a « ${level} ». Ce que les `
    + 'autres ont créé reste ici en place ; plus pour cette personne ou ce groupe.',
  set: 'Fixer',
  noEnd: 'sans fin',
  onTheWay: (names) => `Seulement en chemin vers quelque chose plus bas : ${and(names)}`,
  why: {
    denies: 'Quelque chose est refusé ici à quelqu’un, donc l’ordre des lignes compte. Cette '
      + 'liste se change sous « Avancé ».',
    order: 'Quelqu’un ne peut ici supprimer qu’en partie, donc l’ordre des lignes compte. Cette '
      + 'liste se change sous « Avancé ».',
    apart: 'Ce qui se trouve dans ce dossier ne suit pas sa liste. Elle se change sous « Avancé ».',
    unsent: 'Il y a sous « Avancé » des modifications que vous n’avez pas encore envoyées.',
  },
  open: 'Quiconque peut ajouter des documents ici peut aussi supprimer et renommer ce que '
    + 'd’autres ont créé.',
  openFirst: 'Pour ajouter des personnes, appuyez d’abord ici.',
  letOnly: 'Ne laisser supprimer que ceux dont cela est dit',
  own: 'Quiconque ajoute un document peut aussi le supprimer et le renommer.',
  allFollows: 'Tout ce qui se trouve plus bas suit cette liste.',
  restFollows: 'Tout le reste plus bas suit cette liste.',
  onlyThese: 'Seulement ces personnes',
  onlyTheseAllTheSame: 'Quand même seulement ces personnes',
  cutOff: 'Seulement ces personnes ?',
  cutOffSays: (kind, above) => `${THIS[kind]} a alors sa propre liste. Quiconque obtient plus tard `
    + `l’accès à ${above} ne l’obtient pas ici, et quiconque le perd là-bas le garde ici.`,
  whomFor: 'Cochez ceux pour qui c’est prévu : alors personne d’autre ne garde l’accès, sauf ceux '
    + 'qui le gèrent. Sans coche, tous gardent ce qu’ils ont.',
  staysAsIs: (names) => `Ce que ${names.length === 1 ? 'peut' : 'peuvent'} faire ${and(names)} `
    + 'n’est dit par aucun niveau, et reste tel quel.',
  followAgain: (above) => `Suivre de nouveau ${above} ?`,
  followIt: 'Suivre',
  followAllTheSame: 'Suivre quand même',
  followSays: (above) => `Quiconque a accès à ${above} l’a alors aussi ici, maintenant et chaque `
    + 'fois que cela change. Les personnes ci-dessous le gardent.',
  doesntFollow: (kind, above) => `${THIS[kind]} ne suit pas ${above}.`,
  follows: (kind, above) =>
    `${THIS[kind]} suit ${above} : quiconque a accès là-bas l’a aussi ici.`,
  greyLines: 'Les lignes grises viennent de là.',
  ownList: (kind, above) =>
    `${THIS[kind]} a sa propre liste : ce qui change à ${above} ne compte pas ici.`,
  keepInPlace: 'Tout garder à sa place ?',
  keepThem: 'Garder à sa place',
  keepAllTheSame: 'Garder quand même à sa place',
  keepSays: 'Alors ne suppriment et ne renomment plus que ceux qui ont « Peut ajouter, modifier et '
    + 'supprimer » ou « Peut gérer ».',
  removersUnseen: (place, kind) => `Vous ne pouvez pas voir qui a accès à ${place}, donc on ne `
    + `sait pas qui peut aussi supprimer ${THIS_AS_OBJECT[kind]} ou le déplacer ailleurs.`,
  removers: (place, names, kind) => `D’après la liste de ${place}, ou comme propriétaire, ${
    and(names)} ${names.length === 1 ? 'peut' : 'peuvent'} aussi supprimer ${
    THIS_AS_OBJECT[kind]} ou le déplacer ailleurs.`,
  onlyTheseThere: 'seulement ces personnes',
  onlyTheseAre: (names) => `seulement ces personnes : ${names.join('; ')}`,
  linesThere: 'ses propres lignes',
  unseen: (names) => `Vous ne pouvez pas voir qui a accès à ${and(names)}.`,
  documentsIn: (many, place) => `${count(many, 'document', 'documents')} dans ${place}`,
  exceptions: 'Exceptions plus bas',
  ended: (name, day) => `L’accès pour ${name} a pris fin, et a été retiré le ${day}.`,
  loose: (name, day) => `Pour ${name}, l’accès devait durer jusqu’au ${day}, et il n’y en a plus. `
    + 'Le jour peut être supprimé sous « Avancé ».',
  onlyLook: 'Vous pouvez voir qui a accès, mais pas le changer.',
  canChangeDocument: `Vous pouvez modifier ce document. ${UNSEEN}`,
  canPutInto: `Vous pouvez déposer des documents dans ce dossier. ${UNSEEN}`,
  canRead: (kind) => `Vous pouvez lire ${THIS_AS_OBJECT[kind]}. ${UNSEEN}`,
  cantRead: (kind) => `Vous ne pouvez pas lire ${THIS_AS_OBJECT[kind]}. ${UNSEEN}`,
  changedMeanwhile: 'Quelqu’un d’autre a changé entre-temps qui a accès, donc rien n’a été envoyé. '
    + 'Voici comment c’est maintenant : recommencez.',
  wayStays: (places) => `${and(places)} ${places.length === 1 ? 'laisse' : 'laissent'} maintenant `
    + 'passer quelqu’un, ce qui n’a pas pu être retiré. Faites-le là-bas, sous « Seulement en '
    + 'chemin ».',
  lineChanged: (place) => `Quelqu’un a changé ${place} entre-temps : sa ligne reste.`,
  lineStays: (place) => `La ligne à ${place} reste.`,
  notAdded: (place) => `Quelqu’un a modifié ${place} entre-temps : rien n’y a été changé.`,
  notAddedAt: (place) => `Rien n’a été changé dans ${place}.`,
  takenBack: 'Ce qui avait été envoyé d’abord a été retiré.',
  replaces: 'Elle prend la place de cette liste. Vous voyez ce qui change avant qu’elle soit '
    + 'envoyée.',
  takeList: 'Prendre cette liste',
  whichList: 'Quelle liste',
};

// Levels are named as the menu has them, so that they fit one person as well as several.
const named = (level, kind) =>
  (level === 'none' ? 'aucun accès' : `« ${levelOf(level, kind)} »`);

const REMOVALS = { it: 'supprimer l’objet lui-même', inside: 'supprimer ce qui s’y trouve',
  own: 'supprimer ses propres ajouts', documents: 'supprimer les documents qui s’y trouvent',
  folders: 'supprimer les dossiers qui s’y trouvent' };
const removing = (what) => what.map((one) => REMOVALS[one]);
const withRemovals = (level, kind, removals) => (removals.length > 0
  ? `${named(level, kind)} et en plus ${and(removing(removals))}` : named(level, kind));

export const FR_OUTCOME = {
  heads: {
    gain: 'Gagne :', loss: 'Perd :', perhapsGain: 'Gagne peut-être :',
    perhapsLoss: 'Perd peut-être :', keeps: 'Garde :', also: 'De plus :',
  },
  line: (names, words) => `${and(names)} – ${words}`,
  at: (words, path) => `${words}, à ${path}`,
  atInside: (words, path) => `${words}, pour des documents dans ${path}`,
  atFoldersIn: (words, path) => `${words}, pour des dossiers dans ${path}`,
  atSomeInside: (words, path) => `${words}, pour certains documents dans ${path}`,
  atSomeFoldersIn: (words, path) => `${words}, pour certains dossiers dans ${path}`,
  keepsAt: (words, path) => `${words}, à ${path}, par des lignes qui s’y trouvent`,
  withMore: (words) => `${words}, et a quelques droits de plus`,
  moreRights: 'quelques droits de plus',
  otherRights: 'pas les mêmes droits que maintenant',
  removals: (gained, lost, isNew) => [
    ...gained.length === 0 ? []
      : [`${isNew ? 'possible' : 'possible aussi'} : ${and(removing(gained))}`],
    ...lost.length === 0 ? [] : [`plus possible : ${or(removing(lost))}`]].join(' ; mais '),
  gains: withRemovals,
  loses: (from, to, kind, removals) => `${named(from, kind)} maintenant, puis ${
    withRemovals(to, kind, removals)}`,
  losesAll: (from, kind) => `plus aucun accès (${named(from, kind)} maintenant)`,
  losesByList: (from, kind) => `plus aucun accès par cette liste (${named(from, kind)} maintenant)`,
  keeps: withRemovals,
  keepsRemoving: (removals) => `possible : ${and(removing(removals))}`,
  keepsMore: (places) =>
    `quelque chose à ${count(places, 'autre endroit', 'autres endroits')}`,
  changesMore: (places) => (places === 1 ? '1 autre endroit plus bas change'
    : `${number(places)} autres endroits plus bas changent`),
  showAll: 'Tout montrer',
  nobody: 'Personne ne gagne ni ne perd rien',
  nobodyNow: 'par cela pour le moment.',
  nobodyLoses: 'Personne ne perd',
  anything: 'rien.',
  notOwned: 'Vous ne pouvez pas voir à qui cela appartient, donc on ne sait pas qui c’est, ni ce '
    + 'que cette personne a d’autre.',
  gettingOwn: (name, objects) => (objects === 1
    ? `${capital(name)} accède alors à 1 objet qui lui appartient, et peut le supprimer.`
    : `${capital(name)} accède alors à ${number(objects)} objets qui lui appartiennent, et peut `
      + 'les supprimer.'),
  losingOwn: (name, objects) => `${name} ne pourra alors plus supprimer ${
    count(objects, 'objet', 'objets')} qui lui appartiennent.`,
  groupsAsOf: (day) => `La composition des groupes est connue ici (état : ${day}).`,
  groupsUnknown: 'On ne sait pas ici qui est dans un groupe : des membres ont peut-être plus par '
    + 'là.',
  ownNew: 'Quiconque a créé un document ici peut alors aussi le supprimer et le renommer.',
  aboveUnknown: 'Vous ne pouvez pas voir qui a accès au dossier au-dessus, donc on ne sait pas qui '
    + 'l’obtient ici.',
  wayUnread: (places) => `Vous ne pouvez pas voir qui peut passer par ${and(places)} en chemin `
    + 'vers ici, donc on ne sait pas qui y parvient.',
  apart: (names, places) => (places === 1
    ? `Réglé sur « Seulement ces personnes », et laissé tel quel : ${and(names)}.`
    : `Réglés sur « Seulement ces personnes », et laissés tels quels : ${and(names)}.`),
  unreadThere: (names) => `Vous ne pouvez pas voir qui a accès à ${and(names)} : on ne sait pas `
    + 'ce qui s’y passe.',
  letPass: (names, places) => `Laisser passer ${and(names)} par ${and(places)} en chemin vers ici.`,
  nothingShown: 'Par cela seul, rien n’y est montré.',
  takeKept: (places) => `Retirer aussi ce qui est gardé là-bas : ${and(places)}.`,
  takeGiven: (name, places) => `Retirer aussi ce qui a été donné là-bas séparément pour ${name} : `
    + `${and(places)}.`,
  takePassing: (name, places) => `Retirer aussi le passage par ${and(places)} pour ${name}. Rien `
    + 'plus bas n’en a plus besoin.',
  takePassingPerhaps: (name, places) => `Retirer aussi le passage par ${and(places)} pour `
    + `${name}. On ne sait pas si quelque chose plus bas en a besoin.`,
  letRemoveAt: (names, places, isFolder) => `Laisser aussi ${and(names)} enlever ${
    isFolder ? 'les dossiers que' : 'ce que'} les autres ont créé dans ${
    and(places)}, où tout reste en place. Sinon, ce n’est pas possible.`,
  removesNotAt: (names, places, isFolder) => `${capital(and(names))} : ${
    isFolder ? 'les dossiers que' : 'ce que'} les autres ont créé dans ${
    and(places)} ne peut pas y être enlevé. Qui gère cet endroit peut changer cela.`,
  moves: 'Quiconque peut supprimer quelque chose peut aussi le déplacer dans son propre dossier et '
    + 'l’y ouvrir, même sans pouvoir l’ouvrir ici. Ce qui est réglé sur « Seulement ces '
    + 'personnes » reste fermé.',
  cantGet: (names, place) => `${capital(and(names))} ne ${
    names.length === 1 ? 'peut' : 'peuvent'} pas parvenir ici : ${place} ne laisse pas passer. `
    + 'Quiconque gère cet endroit peut le changer.',
  givers: (names) => `Alors cela ne peut être rendu que par ${names.join(' ou par ')}.`,
  noGiver: 'Personne d’autre ne le peut non plus : alors seul l’administrateur peut le rendre.',
  all: (many) => `Tous (${number(many)})`,
  changes: 'Qui gagne et qui perd',
};
