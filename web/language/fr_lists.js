// Rights and lists, entry by entry, and what they would bring about, in French.

import { capital, formsOf } from './forms.js';

const { and } = formsOf('fr', 'et', 'ou');

export const FR_RIGHTS = {
  groups: {
    read: 'Lire', write: 'Écrire', manage: 'Gérer',
    remove: 'Supprimer et renommer ce que d’autres ont créé',
  },
  groupsOfDocument: {
    read: 'Lire', write: 'Écrire', manage: 'Gérer', remove: 'Supprimer et renommer',
  },
  letters: {
    r: {
      document: 'lire le document', folder: 'voir le contenu',
      both: 'lire des documents ou voir le contenu de dossiers',
    },
    x: { both: 'passer vers le contenu' },
    t: { both: 'voir le type, le propriétaire et le groupe' },
    c: { both: 'voir les listes d’accès' },
    n: { both: 'lire les attributs nommés' },
    w: {
      document: 'remplacer le contenu', folder: 'y déposer de nouveaux documents',
      both: 'remplacer des documents ou en déposer de nouveaux dans des dossiers',
    },
    a: {
      document: 'ajouter à la fin', folder: 'y créer des dossiers',
      both: 'ajouter à des documents ou créer des dossiers',
    },
    D: { both: 'supprimer le contenu ou le déplacer ailleurs' },
    d: { both: 'supprimer l’objet ou le déplacer ailleurs' },
    N: { both: 'écrire les attributs nommés' },
    T: { both: 'écrire les attributs' },
    C: { both: 'changer les listes d’accès' },
    o: { both: 'changer le propriétaire et le groupe' },
    h: { both: 'écrire la rétention' },
    H: { both: 'écrire le blocage de rétention' },
    y: { both: 'synchroniser' },
  },
  everything: ['tout faire'],
};

const VERBS = { A: 'autorise', D: 'refuse', U: 'journalise', L: 'donne l’alarme' };
const entry = (type, who, rights) =>
  `${VERBS[type]} pour ${who} : ${rights.length === 0 ? 'rien' : and(rights)}`;

const listLine = (lineNumber, place) => `la ligne ${lineNumber} de ${
  place === null ? 'sa liste' : `la liste de ${place}`}`;
const ruling = (lineNumber, place, isInherited) =>
  `${capital(listLine(lineNumber, place))}${isInherited ? ' (d’un dossier au-dessus)' : ''}`;

export const FR_ADVANCED = {
  types: { A: 'Autoriser', D: 'Refuser', U: 'Audit', L: 'Alarme' },
  reaches: {
    here: 'seulement ici',
    fd: 'ici et partout en dessous',
    f: 'ici et pour les documents en dessous',
    d: 'ici et pour les dossiers en dessous',
    fdi: 'partout en dessous, pas ici',
    fi: 'pour les documents en dessous, pas ici',
    di: 'pour les dossiers en dessous, pas ici',
    fdn: 'ici et un niveau en dessous',
  },
  oneLevel: (reach) => `${reach}, sur un niveau`,
  nowhere: 'nulle part',
  entry,
  inheritedEntry: (type, who, rights) =>
    `${entry(type, who, rights)} (vient d’un dossier au-dessus)`,
  outcomes: {
    F: 'ce qui a été refusé', S: 'ce qui a été accordé', SF: 'les deux', none: 'rien',
  },
  type: 'Type',
  who: 'Qui',
  user: 'Utilisateur',
  group: 'Groupe',
  rights: 'Droits',
  records: 'Journalise',
  reach: 'Où cela compte',
  kept: 'Conservés, mais rien ne les demande',
  single: 'Droits isolés : ',
  noLetters: 'aucun',
  inPart: (group) => `${group} (en partie)`,
  nothing: 'rien',
  asText: 'La liste comme texte',
  line: (line, fault) => `Ligne ${line} : ${fault}`,
  form: (form) => ['La première ligne est « list: » avec a (transmettre) et p (protéger). Ensuite, '
    + 'chaque ligne a une entrée : ', form, '. Les entrées avec l’indicateur I viennent d’un '
    + 'dossier au-dessus.'],
  parts: 'type:flags:who:rights',
  decides: 'La liste se lit de haut en bas : chaque droit est décidé par la première entrée qui '
    + 'vise l’appelant et qui a ce droit. Ce qu’aucune entrée n’autorise est refusé.',
  recording: 'Ces entrées n’accordent et ne refusent rien. Par elles, la salle journalise ce qui a '
    + 'été tenté.',
  unsent: 'Vos modifications n’ont pas d’effet tant que vous ne les envoyez pas.',
  table: 'Tableau',
  text: 'Texte',
  ways: 'Manières de voir la liste',
  sent: 'La liste a été envoyée et compte à partir de maintenant.',
  review: 'Vérifier et envoyer',
  drop: 'Abandonner les modifications',
  ready: 'Listes toutes prêtes',
  mayOnlyLook: 'Vous pouvez regarder cette liste, mais pas la changer (C).',
  order: 'Ordre',
  orderAndRemoval: 'Ordre et suppression',
  moveUp: (entryNumber) => `Monter l’entrée ${entryNumber}`,
  moveDown: (entryNumber) => `Descendre l’entrée ${entryNumber}`,
  removeEntry: (entryNumber) => `Supprimer l’entrée ${entryNumber}`,
  fromAbove: 'd’au-dessus',
  faultAt: (entryNumber, fault) => `Entrée ${entryNumber} : ${fault}`,
  passOn: 'Transmettre',
  passOnHint: 'Ce qui se trouve dans ce dossier suit cette liste, même quand elle change.',
  protect: 'Protéger',
  protectHint: 'Plus rien ne vient ici du dossier au-dessus. Les entrées grises restent comme '
    + 'elles sont maintenant, sauf si elles sont retirées.',
  dropGrey: 'Retirer les entrées grises',
  number: 'Nº',
  unread: (line, fault) => `Le texte ne peut pas être lu : ligne ${line}. ${fault} Corrigez-le `
    + 'sous « Texte ».',
  add: 'Ajouter une entrée',
  empty: 'La liste n’a pas d’entrée.',
  caption: 'Les entrées dans l’ordre. La première qui vise un appelant et a un droit en décide.',
  fresh: 'Nouveau : ',
  gone: 'Retiré : ',
  sendChanges: 'Envoyer ces modifications ?',
  send: 'Envoyer',
  changedElsewhere: 'La liste a été changée ailleurs',
  since: 'Depuis que vous l’avez ouverte, quelqu’un a changé cette liste ou une liste dont elle '
    + 'hérite :',
  takeOrGoOn: 'Prenez la liste telle qu’elle est maintenant et abandonnez vos modifications, ou '
    + 'continuez avec la vôtre. On vous montre alors ce que vos modifications annuleraient.',
  takeTheirs: 'Prendre la liste telle quelle',
  goOn: 'Continuer avec la mienne',
  sendAllTheSame: 'Envoyer quand même',
  nobodyGave: 'Personne ne vous l’a donné.',
  byLine: (line, place) => `Par ${listLine(line, place)}.`,
  allowedBy: (line, place, isInherited, who) =>
    `${ruling(line, place, isInherited)} l’autorise pour ${who}.`,
  deniedBy: (line, place, isInherited, who) =>
    `${ruling(line, place, isInherited)} le refuse pour ${who}.`,
  byAdding: (place) =>
    `Rien ne dit le contraire, et vous pouvez déposer des documents dans ${place}.`,
  nobodyGaveHere: 'Personne ne vous l’a donné, ni ici ni au dossier au-dessus.',
  yes: 'Oui',
  no: 'Non',
  removeOrMove: 'supprimer l’objet ou le déplacer ailleurs',
  topStays: 'Le niveau supérieur de la salle reste où il est.',
  whatYouMay: 'Ce que vous pouvez faire',
  may: 'Permis',
  what: 'Quoi',
  byWhich: 'Par quelle entrée',
  owners: 'Propriétaire et groupe',
  ownerField: 'Propriétaire (un utilisateur)',
  owner: 'Propriétaire',
  changeThem: 'Changer',
  ownersNow: (owner, group) => `Le propriétaire est maintenant ${owner}, le groupe ${group}.`,
  change: 'Changer',
  changeOwners: 'Changer le propriétaire et le groupe',
  rightsNotShown: 'Vos droits ne peuvent pas être affichés.',
};

const LOSING = { C: 'changer (C)', c: 'voir (c)' };
const CANT_SHOW = ' Cette page ne peut pas changer une liste qu’elle ne peut pas afficher.';
const ending = (letter) => (letter === 'C' ? '' : CANT_SHOW);
const NO_GROUPS = 'Cette page ne sait pas qui est dans un groupe.';
const there = (place) => (place === null ? 'au contenu de ce dossier' : 'ici');
const folderAt = (place) => place ?? 'ce dossier';
const will = (names) => `${capital(and(names))} ${names.length === 1 ? 'pourra' : 'pourront'}`;
const INSIDE = 'supprimer, renommer et déplacer ailleurs ce que d’autres ont créé dans ce dossier, '
  + 'même sans pouvoir l’ouvrir';

export const FR_WARNINGS = {
  // As they stand after 'de'.
  depends: {
    group: (name) => `du groupe ${name}`,
    above: 'de la liste du dossier au-dessus (que vous ne pouvez pas lire)',
  },
  losesList: {
    C: 'Après cela, vous ne pourrez plus changer cette liste',
    c: 'Après cela, vous ne pourrez plus voir cette liste',
  },
  perhapsLosesList: {
    C: 'Après cela, vous ne pourrez peut-être plus changer cette liste',
    c: 'Après cela, vous ne pourrez peut-être plus voir cette liste',
  },
  losesAccess: {
    C: 'Après cela, vous ne pourrez plus changer qui a accès.',
    c: 'Après cela, vous ne pourrez plus voir qui a accès.',
  },
  perhapsLosesAccess: {
    C: 'Après cela, vous ne pourrez peut-être plus changer qui a accès.',
    c: 'Après cela, vous ne pourrez peut-être plus voir qui a accès.',
  },
  notSurely: (letter, depends) => `Aucune entrée de la liste ne vous permet à coup sûr de la `
    + `${LOSING[letter]} : cela dépend ${and(depends)}. ${NO_GROUPS}${ending(letter)}`,
  letsNobody: (letter) => `Aucune entrée de la liste ne permet à quiconque de la `
    + `${LOSING[letter]} : alors seul l’administrateur le peut.${ending(letter)}`,
  letsYouNot: (letter) =>
    `Aucune entrée de la liste ne vous permet de la ${LOSING[letter]}.${ending(letter)}`,
  deniesYou: (letter, text) => `Une entrée vous le refuse : ${text}.${ending(letter)}`,
  noPassage: (who, place) => `${capital(who)} ne peut pas parvenir ${there(place)} : `
    + `${folderAt(place)} ne laisse pas passer ${who} (x).`,
  noPassageForAll: (place) => `Tout le monde ne peut pas parvenir ${there(place)} : `
    + `${folderAt(place)} ne laisse pas passer tout le monde (x).`,
  noPassageForSome: (who, place, names) => `Dans ${who}, tout le monde ne peut pas parvenir ${
    there(place)} : ${folderAt(place)} ne laisse pas passer ${and(names)} (x).`,
  passageUnread: (who, place) => `On ne sait pas si ${who} peut parvenir ${there(place)} : vous ne `
    + `pouvez pas lire la liste de ${folderAt(place)}.`,
  passageDepends: (who, place, depends) => `On ne sait pas si ${who} peut parvenir `
    + `${there(place)} : à ${folderAt(place)}, cela dépend ${and(depends)}. ${NO_GROUPS}`,
  removes: (names) => `${will(names)} alors ${INSIDE}.`,
  removesUnsaid: (names) => `${will(names)} déposer des documents ici, et aucune entrée ne dit qui `
    + `peut supprimer : cela permet donc aussi de ${INSIDE}.`,
  includesProtected: (places) => `Cela comprend le dossier protégé ${and(places)} : un autre `
    + 'pourrait être créé à sa place.',
  includesSeveralProtected: (places) => `Cela comprend les dossiers protégés ${and(places)} : `
    + 'd’autres pourraient être créés à leur place.',
  includesApart: (places) => `Cela comprend le dossier ${and(places)}, réglé sur « Seulement ces `
    + 'personnes » : un autre pourrait être créé à sa place.',
  includesSeveralApart: (places) => `Cela comprend les dossiers ${and(places)}, réglés sur `
    + '« Seulement ces personnes » : d’autres pourraient être créés à leur place.',
  remedy: (entryText) => `Une entrée qui le refuse à tout le monde (${entryText}), sous les `
    + 'entrées de ceux qui le peuvent, l’empêche.',
  opens: 'Quiconque peut déplacer quelque chose ailleurs peut le mettre dans son propre dossier, '
    + 'et y lire ce qui suit la liste de ce dossier. Ce qui doit rester fermé doit être protégé '
    + '(p).',
  unseen: 'Ce qui se trouve en dessous n’a pas pu être examiné en entier : il y a peut-être '
    + 'd’autres dossiers protégés.',
  removesFolder: (names) =>
    `${will(names)} alors supprimer, renommer et déplacer ailleurs ce dossier lui-même.`,
  removesDocument: (names) =>
    `${will(names)} alors supprimer, renommer et déplacer ailleurs ce document lui-même.`,
};
