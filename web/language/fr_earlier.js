// What was there on an earlier night, and how it comes back, in French.

import { capital, formsOf } from './forms.js';

const LOCALE = 'fr';
const { count, and } = formsOf(LOCALE, 'et', 'ou');
const objects = (many) => count(many, 'objet', 'objets');

const moment = (time) =>
  time.toLocaleString(LOCALE, { dateStyle: 'long', timeStyle: 'short' });

export const FR_EARLIER = {
  earlier: 'Avant',
  titleOf: (name) => [name, ' – avant'],
  which: 'Quelle nuit',
  dayOf: (time) => time.toLocaleString(LOCALE, { dateStyle: 'full' }),
  timeOf: (time) => time.toLocaleString(LOCALE, { timeStyle: 'short' }),
  timeOnDay: (at, day) => `${at}, ${day}`,
  backToNow: 'Retour à maintenant',
  hint: 'Vous voyez ce que vous pouviez voir cette nuit-là et pouvez voir maintenant. Ce qui a été '
    + 'créé et supprimé entre deux nuits n’est dans aucune.',
  get: 'Récupérer',
  getOf: (name) => `Récupérer ${name} tel quel`,
  getAll: 'Tout récupérer',
  putBack: 'Remettre',
  putBackOf: (name) => `Remettre ${name}`,
  putBackMissing: 'Remettre ce qui manque',
  headings: ['Nom', 'Type', 'Maintenant', 'Ce qu’on peut faire'],
  caption: 'Ce qui était dans ce dossier cette nuit-là, et ce qui y est maintenant.'
    + ' Les touches fléchées vont de ligne en ligne.',
  still: 'toujours là',
  anotherKind: 'autre chose a ce nom',
  goneNow: 'n’est plus là',
  cameLater: 'venu plus tard',
  unknownNow: 'ce qui est là maintenant ne vous est pas montré',
  same: 'C’est le même maintenant.',
  changed: 'Il y en a un autre maintenant.',
  gone: 'Il n’est plus là.',
  unknown: 'Ce qui est là maintenant ne vous est pas montré.',
  empty: 'Rien de ce que vous pouvez voir maintenant n’était dans ce dossier cette nuit-là.',
  noNights: 'Aucune nuit n’est encore conservée. La première vient avec la prochaine sauvegarde.',
  notShown: 'Ceci ne peut pas être montré tel quel.',
  notThere: 'Il n’était pas là cette nuit-là.',
  notOpen: 'Vous ne pouviez pas le voir cette nuit-là.',
  why: {
    now: 'Vous ne pouvez pas le voir : il ne vous est pas ouvert maintenant ; ou il a disparu, '
      + 'n’était pas à vous, et vous ne gérez pas le dossier où il était.',
    'no-night': 'Cette nuit n’est plus conservée. Choisissez-en une autre.',
    'no-earlier': 'Cette salle ne montre pas de nuits passées. Demandez à l’administrateur ce qui '
      + 'est perdu.',
    busy: 'D’autres regardent aussi des nuits passées, et il ne peut pas y en avoir plus. '
      + 'Réessayez dans une minute.',
    large: 'Cette salle est trop grande pour que ses nuits soient montrées. Demandez à '
      + 'l’administrateur.',
    damaged: 'La sauvegarde de cette nuit est illisible. Choisissez-en une autre, et dites-le à '
      + 'l’administrateur.',
    away: 'Les nuits passées ne peuvent pas être montrées pour le moment. Réessayez dans une '
      + 'minute ; si cela ne suffit pas, prévenez l’administrateur.',
    'too-many-requests': 'Vous avez trop demandé à la fois. Attendez un instant, et réessayez.',
  },
  question: (name) => `Remettre ${name} ?`,
  asOf: (time) => `État du ${moment(time)} :`,
  missing: (many) => (many === 1 ? '1 objet qui manque revient comme le vôtre.'
    : `${objects(many)} qui manquent reviennent comme les vôtres.`),
  following: 'Ce qui revient suit la liste d’accès de son dossier.',
  there: (many) => (many === 1
    ? '1 document est toujours là : s’il est remplacé, son contenu actuel est perdu, et son accès '
      + 'reste.'
    : `${count(many, 'document', 'documents')} sont toujours là : s’ils sont remplacés, leur `
      + 'contenu actuel est perdu, et leur accès reste.'),
  // Qui pourrait lire plus que cette nuit-là, s’il revenait comme est son dossier.
  opens: (names, many) => `Pour ${and(names)}, ${objects(many)} de cela ${many === 1
    ? 'n’était pas lisible' : 'n’étaient pas lisibles'} cette nuit-là ; comme est le dossier `
    + 'maintenant, si.',
  opensByOwners: (names, many) => `Pour ${and(names)}, ${objects(many)} de cela ${many === 1
    ? 'n’était peut-être pas lisible' : 'n’étaient peut-être pas lisibles'} cette nuit-là, selon à `
    + 'qui cela appartenait ; comme est le dossier maintenant, si.',
  perhapsOpens: (many) => `Vous ne voyez pas qui pouvait lire ${objects(many)} de cela cette `
    + 'nuit-là : qui peut lire le dossier maintenant le pourra.',
  whoReads: 'Qui peut lire ce qui revient',
  alone: 'Moi seulement',
  peopleThen: (names) => `Les personnes de cette nuit-là : ${and(names)}`,
  peopleNow: 'Qui peut lire le dossier maintenant',
  removable: (names) => `${capital(and(names))} ${names.length === 1 ? 'peut' : 'peuvent'} le `
    + 'supprimer ou le déplacer ailleurs, peu importe qui le lit.',
  staysShut: (places) => `${and(places)} reste ouvert à vous seulement : sa liste de cette `
    + 'nuit-là n’a pas pu être mise.',
  onlyMissing: 'Seulement ce qui manque',
  allOfIt: 'Tout, et remplacer ce qui est là',
  replace: 'Remplacer ce qui est là',
  nothingMissing: 'Rien ne manque : tout est toujours là.',
  putting: (name) => `Remettre ${name}`,
  putSomeOf: (done, whole) => `${done} sur ${objects(whole)} remis`,
  isBack: (many, place) => `${objects(many)} remis dans ${place}.`,
  notBack: (many) => `Non remis : ${objects(many)}.`,
  leftOut: (places) => `Omis, car vous ne pouvez pas tout y voir : ${and(places)}.`,
  goneOne: (name) => `${name} disparaîtra pour tout le monde.`,
  goneOneWith: (name, amount) =>
    `${name} et son contenu, ${amount}, disparaîtront pour tout le monde.`,
  goneSeveral: (amount) => `${amount} disparaîtront pour tout le monde.`,
  goneSeveralWith: (amount, inside) =>
    `${amount} et leur contenu, ${inside}, disparaîtront pour tout le monde.`,
  backByOwners: (time) => `Ce qui en était là le ${moment(time)}, le propriétaire et les `
    + 'gestionnaires du dossier peuvent le récupérer par « Avant » ; ce qui est venu plus tard est '
    + 'perdu.',
  backByMembers: (time) => `Ce qui en était là le ${moment(time)}, ceux qui peuvent ajouter au `
    + 'dossier peuvent le récupérer par « Avant » ; ce qui est venu plus tard est perdu.',
};
