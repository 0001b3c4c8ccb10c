// The texts of the page in French: what stands everywhere. fr_*.js have the rest.

import { FR_SEARCH } from './fr_search.js';
import { formsOf } from './forms.js';
import { FR_ACCESS, FR_OUTCOME } from './fr_access.js';
import { FR_EARLIER } from './fr_earlier.js';
import { FR_FAULTS } from './fr_faults.js';
import { FR_FIND, FR_FOLDER, FR_MOVING, FR_UPLOAD } from './fr_folder.js';
import { FR_HELP } from './fr_help.js';
import { FR_ADVANCED, FR_RIGHTS, FR_WARNINGS } from './fr_lists.js';
import { FR_MOMENTS } from './fr_moments.js';
import { FR_PAGES } from './fr_pages.js';
import { FR_PERSON } from './fr_person.js';
import { FR_READY } from './fr_ready.js';
import { FR_WOULD } from './fr_would.js';

const { number, and, or, count, day } = formsOf('fr', 'et', 'ou');

const LISTS = {
  and, day,
  others: (rest) => count(rest, 'autre', 'autres'),
  unknownDay: 'date inconnue',
  space: 'espace',
  unseenSign: 'Ce signe est invisible.',
};

// No article of these melts into a word before it: they stand as subjects, as objects, or after
// 'pour'.
const SPECIAL = {
  'OWNER@': 'le propriétaire',
  'GROUP@': 'le groupe propriétaire',
  'EVERYONE@': 'tout le monde',
  'ANONYMOUS@': 'quiconque n’a pas de nom',
  'AUTHENTICATED@': 'quiconque a un nom',
};

const WHO = {
  special: SPECIAL,
  group: (name) => `le groupe ${name}`,
  user: (name) => `l’utilisateur ${name}`,
  whom: {
    special: SPECIAL,
    group: (name) => `le groupe ${name}`,
    user: (name) => `l’utilisateur ${name}`,
  },
  signingIn: 'toute personne connectée',
  others: 'toute autre personne connectée',
  unknownOwner: 'la personne propriétaire',
  unknownGroup: 'le groupe propriétaire',
  inGroups: (groups) => `qui est dans ${and(groups)}`,
  ifIn: (name, groups) => `${name} (si membre de ${and(groups)})`,
};

const NAMES = {
  special: {
    'OWNER@': 'Le propriétaire de chaque document',
    'GROUP@': 'Le groupe propriétaire',
    'EVERYONE@': 'Tout le monde',
    'AUTHENTICATED@': 'Toute personne connectée',
    'ANONYMOUS@': 'Toute personne non connectée',
  },
  inSentence: {
    'OWNER@': 'le propriétaire de chaque document',
    'GROUP@': 'le groupe propriétaire',
    'EVERYONE@': 'tout le monde',
    'AUTHENTICATED@': 'toute personne connectée',
    'ANONYMOUS@': 'toute personne non connectée',
  },
  membersOf: (name) => `les membres du groupe ${name}`,
  countedMembers: (members, name) => (members === 1 ? `l’unique membre du groupe ${name}`
    : `les ${number(members)} membres du groupe ${name}`),
  unfolded: (members, first) => `${number(members)} membres : ${first.join(', ')} …`,
  you: 'vous',
  cannotSignIn: 'absent de la liste des personnes qui peuvent se connecter',
  emptyGroup: 'un groupe sans membre',
  unknownMembers: 'un groupe',
  noMembers: 'il n’y a personne dans ce groupe',
};

const PLACES = {
  all: 'Tous les documents',
  allQuoted: '« Tous les documents »',
  top: '« Tous les documents »',
  that: 'cet endroit',
  quoted: (name) => `« ${name} »`,
};

const PAGE = {
  title: (name) => `${name} – rooms`,
  skip: 'Aller au contenu',
  path: 'Chemin',
  signedInAs: 'Connecté en tant que',
  document: 'Document',
  whoHasAccess: 'Qui a accès',
  myRights: 'Mes droits',
  advanced: 'Avancé',
  recorded: 'Ce qui est journalisé',
  access: 'Accès',
  openFolder: 'Ouvrir le dossier',
  backToFolder: 'Retour au dossier',
  notShown: 'Cet endroit ne peut pas être affiché.',
};

const ACTS = {
  cancel: 'Annuler',
  close: 'Fermer',
  download: 'Télécharger',
  copyLink: 'Copier le lien',
  remove: 'Supprimer',
  stop: 'Arrêter',
  name: 'Nom',
  why: 'Pourquoi',
  loadAgain: 'Recharger',
  tryAgain: 'Réessayer ce qui a échoué',
  anew: 'Réessayer',
  mindThis: 'À noter',
};

const MESSAGES = {
  close: 'Fermer ce message',
  signInAgain: 'Se reconnecter',
  waiting: 'La salle ne répond pas. La page réessaie pendant une demi-minute.',
  details: 'Détails',
  fold: 'Replier',
  progress: (done, whole) => `${number(done)} sur ${number(whole)}`,
  lookingAtAll: 'Examen de ce qui se trouve plus bas.',
  stopped: 'Ce qui se trouve plus bas n’a pas été examiné, car vous l’avez arrêté. Des exceptions '
    + 'qui s’y trouvent peuvent manquer ici.',
  failed: 'Ce qui se trouve plus bas n’a pas été examiné. Des exceptions qui s’y trouvent peuvent '
    + 'manquer ici.',
};

const PICKER = {
  add: 'Ajouter des personnes ou des groupes',
  choices: 'Personnes et groupes',
  asGroup: 'comme groupe',
  asPerson: 'comme personne',
  groupAllTheSame: 'ajouter quand même comme groupe',
  personAllTheSame: 'ajouter quand même comme personne',
  person: 'personne',
  group: 'groupe',
  groupOf: (members) => `groupe, ${count(members, 'membre', 'membres')}`,
  isBelow: 'Ce nom figure dans la liste ci-dessous.',
  spell: 'Les noms ne peuvent pas être recherchés ici : écrivez-les exactement.',
  nobody: (made) => `Personne de ce nom n’est connu (état : ${made}). Vérifiez l’orthographe.`,
};

const ASK = {
  changing: (names) => (names.length === 1
    ? `Demandez à ${names[0]} : cette personne peut changer cela.`
    : `Demandez à l’une de ces personnes, qui peuvent changer cela : ${or(names)}.`),
  managing: (names) => (names.length === 1
    ? `Demandez à ${names[0]} : cette personne gère la salle.`
    : `Demandez à l’une de ces personnes, qui gèrent la salle : ${or(names)}.`),
  owning: (names) => (names.length === 1
    ? `Demandez à ${names[0]} : cette personne en est propriétaire.`
    : `Demandez à l’une de ces personnes, qui en sont propriétaires : ${or(names)}.`),
  administrator: 'Demandez à votre administrateur.',
  whoever: 'Demandez à la personne qui le gère.',
};

const CHANGED = {
  could: (names) => `D’après la liste, cela peut avoir été ${or(names)}.`,
  unknown: 'On ne sait pas ici qui a pu faire cela, car vous ne pouvez pas voir qui a accès.',
  above: 'D’après la liste, personne d’autre n’a pu faire cela : cela a été supprimé et mis là de '
    + 'nouveau.',
};

const ACCOUNT = {
  menu: 'Votre compte',
  change: 'Changer votre mot de passe',
  elsewhere: {
    directory: 'Votre mot de passe est conservé dans un annuaire de votre organisation, et c’est '
      + 'là qu’il se change.',
    session: 'Vous vous êtes connecté par un autre service. C’est là que votre mot de passe se '
      + 'change.',
    file: 'Ici, seul l’administrateur change les mots de passe. Demandez-lui-en un nouveau.',
  },
  why: {
    old: 'Le mot de passe actuel n’est pas le bon.',
    tries: 'Trop d’essais erronés. Attendez un quart d’heure.',
    short: 'Il lui faut au moins 10 caractères.',
    weak: 'Il est facile à deviner : prenez plusieurs mots qui n’ont rien à voir entre eux.',
    same: 'C’est le mot de passe actuel.',
    form: 'Il peut avoir au plus 72 octets, et pas de signes inhabituels.',
    changed: 'L’administrateur a changé votre mot de passe entre-temps.',
    busy: 'Quelqu’un d’autre change un mot de passe. Réessayez dans une minute.',
  },
  notChanged: 'Il n’a pas été changé.',
  differ: 'Les deux nouveaux sont différents.',
  present: 'Mot de passe actuel',
  fresh: 'Nouveau mot de passe',
  freshHint: 'Au moins 10 caractères. Plusieurs mots se retiennent facilement.',
  again: 'Le nouveau, encore une fois',
  changeIt: 'Changer',
  changed: 'Votre mot de passe a été changé. Utilisez le nouveau sur tous vos appareils.',
  chooseOwn: 'Choisissez votre propre mot de passe',
  first: 'Vous vous êtes connecté avec un premier mot de passe. Il n’ouvre rien tant que vous n’en '
    + 'choisissez pas un autre.',
  firstChanged: 'Votre mot de passe a été changé. La salle s’ouvre dans quelques secondes.',
};

export const FR = {
  lists: LISTS, who: WHO, names: NAMES, places: PLACES, page: PAGE, acts: ACTS,
  messages: MESSAGES, picker: PICKER, ask: ASK, changed: CHANGED, account: ACCOUNT,
  moments: FR_MOMENTS, help: FR_HELP,
  folder: FR_FOLDER, find: FR_FIND, moving: FR_MOVING, upload: FR_UPLOAD, rights: FR_RIGHTS,
  faults: FR_FAULTS, warnings: FR_WARNINGS, access: FR_ACCESS, outcome: FR_OUTCOME,
  advanced: FR_ADVANCED, ready: FR_READY, earlier: FR_EARLIER, pages: FR_PAGES, search: FR_SEARCH,
  would: FR_WOULD,
  person: FR_PERSON,
};
