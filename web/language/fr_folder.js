// A folder, and what is done with what is in it, in French.

import { capital, formsOf } from './forms.js';

const { number, and, count } = formsOf('fr', 'et', 'ou');

const objects = (many) => count(many, 'objet', 'objets');
const documents = (many) => count(many, 'document', 'documents');
const amountOf = (documentsIn, foldersIn) => and([
  ...documentsIn > 0 ? [documents(documentsIn)] : [],
  ...foldersIn > 0 ? [count(foldersIn, 'dossier', 'dossiers')] : []]);
const removedOf = (done, whole) => `${number(done)} sur ${number(whole)} ${
  done < 2 ? 'a été supprimé' : 'ont été supprimés'}.`;

export const FR_FOLDER = {
  label: 'Dossier',
  folder: 'Dossier',
  document: 'Document',
  ending: (ending) => `Document ${ending}`,
  mayNot: {
    w: 'Vous ne pouvez pas déposer de documents ici.',
    a: 'Vous ne pouvez pas créer de dossiers ici.',
  },
  upload: 'Envoyer',
  add: 'Ajouter',
  more: 'Plus',
  uploadFolder: 'Envoyer un dossier',
  filesField: 'Documents à envoyer',
  wholeField: 'Dossier à envoyer',
  newFolder: 'Nouveau dossier',
  makeIt: 'Créer',
  made: (name) => `Le dossier ${name} a été créé.`,
  access: 'Accès',
  filter: 'Filtrer par nom',
  chosen: 'Ce qui est sélectionné',
  move: 'Déplacer',
  selected: (many) => count(many, 'sélectionné', 'sélectionnés'),
  notShown: 'Le contenu de ce dossier ne peut pas être affiché.',
  empty: 'Il n’y a encore rien dans ce dossier.',
  addHere: 'Déposez des documents ici, ou utilisez « Envoyer ».',
  addByThumb: 'Ajoutez quelque chose par « + ».',
  nothingFits: 'Rien dans ce dossier n’a ces lettres dans son nom.',
  caption: 'Le contenu de ce dossier. Les touches fléchées vont de ligne en ligne.',
  kind: 'Type',
  whatCanBeDone: 'Ce que l’on peut faire',
  select: (name) => `Sélectionner : ${name}`,
  selectAll: 'Tout sélectionner',
  accessOf: (name) => `Accès : ${name}`,
  actions: 'Actions',
  actionsOf: (name) => `Actions : ${name}`,
  preview: 'Aperçu',
  openIn: (program) => `Ouvrir dans ${program}`,
  newVersion: 'Remplacer par un fichier',
  renameOrMove: 'Renommer ou déplacer',
  taken: 'Il y a déjà quelque chose de ce nom. Choisissez-en un autre.',
  amount: amountOf,
  mayNotRename: (place) => `Vous ne pouvez pas renommer ${place}.`,
  mayNotRemove: (place) =>
    `Vous ne pouvez pas supprimer ${place}, donc rien n’a été supprimé.`,
  removeFolder: 'Supprimer le dossier ?',
  removeDocument: 'Supprimer le document ?',
  removeAmount: (amount) => `Supprimer ${amount} ?`,
  goneOne: (name) => `${name} disparaîtra pour tout le monde, sans retour possible.`,
  goneOneWith: (name, amount) => `${name} et son contenu, ${amount}, disparaîtront pour tout le `
    + 'monde, sans retour possible.',
  goneSeveral: (amount) => `${amount} disparaîtront pour tout le monde, sans retour possible.`,
  goneSeveralWith: (amount, inside) => `${amount} et leur contenu, ${inside}, disparaîtront pour `
    + 'tout le monde, sans retour possible.',
  notCounted: (places) => `Vous ne pouvez pas voir ce qui se trouve dans ${and(places)} : ce n’est `
    + 'donc pas compté ici.',
  removeIt: 'Supprimer',
  removeThem: 'Tout supprimer',
  removing: (what) => `Supprimer ${what}`,
  removedSome: removedOf,
  removedSomeOf: (done, whole) =>
    `${number(done)} sur ${number(whole)} ${done < 2 ? 'supprimé' : 'supprimés'}`,
  stoppedRemoval: (done, whole) => `Arrêté. ${removedOf(done, whole)}`,
  restUnknown: 'On ne sait pas ce qui est encore là : regardez.',
  stillThere: (names, amount) => `Toujours là : ${names} (${amount}).`,
  removedOne: (name) => `${name} a été supprimé.`,
  removedSeveral: (amount) => `${amount} ont été supprimés.`,
  leaveThem: 'Laisser ainsi',
  linkGives: 'Il ne donne de droit à personne.',
  linkCopied: 'Le lien a été copié.',
  link: 'Lien',
  theLink: 'Le lien',
  copyFromHere: 'Copiez-le d’ici.',
  tooMany: 'C’est trop pour un seul téléchargement. Sélectionnez-en moins.',
  zip: 'documents',
  openAddress: 'Ouvrir une adresse',
  addressHint: 'Un lien vers cette page, ou un chemin comme /lettres/2026.',
  open: 'Ouvrir',
  canManage: 'Peut gérer',
  canDrop: 'Peut y déposer des documents',
  canChange: 'Peut modifier',
  canRead: 'Peut lire',
  within: (folder) => `dans ${folder}`,
  forgetThese: 'Les oublier',
  openedLately: 'Ouverts récemment',
  sharedWithYou: 'Partagés avec vous',
  asOf: (day) => `état : ${day}`,
  whatYouMayDo: 'Ce que vous pouvez faire ici',
  closedRoom: 'Vous ne pouvez pas voir la liste de ce qui se trouve dans la salle, seulement ce '
    + 'qui a été partagé avec vous.',
  closedFolder: 'Vous ne pouvez pas voir la liste de ce qui se trouve dans ce dossier, seulement '
    + 'ce qui a été partagé avec vous.',
  noPreview: 'Il n’y a pas d’aperçu de ce document. Téléchargez-le pour le regarder.',
  pdf: 'Le navigateur affiche les documents PDF dans leur propre onglet.',
  openInTab: 'Ouvrir dans un onglet',
  textAlone: 'Seul le texte est montré, pas la mise en page.',
  emptyDocument: 'Le document est vide.',
  beginning: 'Ceci est le début. Téléchargez-le pour tout voir.',
  cantOpen: 'Vous ne pouvez pas ouvrir ceci',
};

export const FR_FIND = {
  find: 'Chercher plus bas',
  busy: 'Recherche plus bas …',
  none: 'Rien dans ce dossier ou plus bas n’a ces lettres dans son nom.',
  more: 'Il y en a d’autres, ou plus à parcourir qu’en une fois : ouvrez un dossier et cherchez '
    + 'là, ou saisissez une plus grande partie du nom.',
  tooLong: 'Aucun nom n’est aussi long.',
  found: (many, text) => `${count(many, 'nom', 'noms')} avec « ${text} »`,
  unseen: (places) => `Vous ne pouvez pas voir ce qui se trouve dans ${and(places)}.`,
};

const RIGHTS = { r: 'lire', w: 'modifier', d: 'supprimer ou déplacer ailleurs', C: 'gérer' };
const rightsOf = (letters) => [...letters].map((letter) => RIGHTS[letter]);
const objectsIn = (names, isFolder) =>
  `${and(names)}${isFolder ? ' avec son contenu, sauf ce qui est protégé' : ''}`;

export const FR_MOVING = {
  into: (place) => ['Dans ', place],
  above: 'Le dossier parent',
  noFolders: 'Aucun dossier ici.',
  folder: 'Dossier',
  folders: 'Dossiers',
  renameFolder: 'Renommer ou déplacer le dossier',
  renameDocument: 'Renommer ou déplacer le document',
  moveIt: 'Déplacer',
  renameIt: 'Renommer',
  several: (many) => `Déplacer ${objects(many)}`,
  moveHere: 'Déplacer ici',
  allTheSame: 'Déplacer quand même',
  now: (name, place) => `${name} est maintenant ${place}.`,
  to: (place) => `Déplacer vers ${place}`,
  ofThese: (names, place) => `Déplacer vers ${place} : ${and(names)}.`,
  movedSomeOf: (done, whole) =>
    `${number(done)} sur ${number(whole)} ${done < 2 ? 'déplacé' : 'déplacés'}`,
  moved: (many, place) => `${count(many, 'objet déplacé', 'objets déplacés')} vers ${place}.`,
  stopped: (many) => `Arrêté. Pas déplacé : ${objects(many)}.`,
  staysHere: (name) => `${name} reste ici.`,
  notMoved: (many) => (many < 2 ? `${number(many)} autre objet n’a pas pu être déplacé.`
    : `${number(many)} autres objets n’ont pas pu être déplacés.`),
  lookAtLists: 'Examen des listes',
  gaining: (callers, letters, names, isFolder) => `${capital(and(callers))} `
    + `${callers.length === 1 ? 'pourra' : 'pourront'} alors `
    + `${and(rightsOf(letters))} ${objectsIn(names, isFolder)}.`,
  losing: (callers, letters, names, isFolder) => `${capital(and(callers))} ne `
    + `${callers.length === 1 ? 'pourra' : 'pourront'} alors plus `
    + `${rightsOf(letters).join(' ni ')} ${objectsIn(names, isFolder)}.`,
  someIn: (name) => `une partie du contenu de ${name}`,
  unanswered: 'On ne peut pas dire qui pourrait y accéder là-bas',
  morePeople: 'Plus de personnes pourraient y accéder là-bas',
  fewerPeople: 'Moins de personnes peuvent y accéder là-bas',
  unknownPeople: 'On ne sait pas qui peut y accéder là-bas',
  unknownAt: (place) => 'On ne sait pas qui pourrait y faire plus : vous ne pouvez pas lire la '
    + `liste de ${place}.`,
  unknownFrom: (place) => 'On ne sait pas qui y gagne ou y perd : vous ne pouvez pas lire la liste '
    + `de ${place}.`,
  unknownOf: (names) => `On ne sait pas qui pourrait faire plus avec ${and(names)} là-bas : vous `
    + 'ne pouvez pas lire la liste.',
  readersUnknown: 'On ne sait pas qui peut lire là-bas : vous ne pouvez pas lire la liste.',
  readers: (names) => (names.length === 1 ? `D’après la liste, ${names[0]} peut lire là-bas.`
    : `D’après la liste, ${and(names)} peuvent lire là-bas.`),
  readersPerhaps: (names) => (names.length === 1
    ? `D’après la liste, ${names[0]} peut lire là-bas, si les dossiers au-dessus laissent passer.`
    : `D’après la liste, ${and(names)} peuvent lire là-bas, si les dossiers au-dessus laissent `
      + 'passer.'),
  noReaders: 'D’après la liste, personne ne peut lire là-bas.',
  noReadersPerhaps: 'D’après la liste, personne ne peut lire là-bas, si les dossiers au-dessus '
    + 'laissent passer.',
};

export const FR_UPLOAD = {
  of: (name) => `Envoi : ${name}`,
  title: 'Envoi',
  to: (place) => `Envoyer vers ${place}`,
  waits: 'en attente',
  sent: 'en cours d’envoi',
  uploaded: 'envoyé',
  uploadedAs: (name) => `envoyé sous le nom ${name}`,
  ended: (ended, whole) => `${number(ended)} sur ${documents(whole)}`,
  uploadedWith: (whole) => `envoyé, avec ${documents(whole)}`,
  uploadedSome: (good, whole) =>
    `${number(good)} sur ${documents(whole)} ${good < 2 ? 'envoyé' : 'envoyés'}`,
  more: (many) => `et ${number(many)} de plus`,
  sameForAll: 'De même pour tous ceux qui sont déjà là',
  keepBoth: 'Garder les deux',
  showTheirs: 'Montrer l’autre',
  taken: {
    exists: {
      title: 'Remplacer le document ?',
      text: (name) => `Il y a déjà un document ${name} dans ce dossier. S’il est remplacé, son `
        + 'contenu est perdu.',
      replace: 'Remplacer',
    },
    changed: {
      title: 'Quelqu’un d’autre l’a modifié entre-temps',
      text: (name) => `${name} n’est plus ce que vous en avez vu en dernier. S’il `
        + 'est remplacé, ce que quelqu’un d’autre a écrit est perdu.',
      replace: 'Remplacer l’autre',
    },
    gone: {
      title: 'Quelqu’un l’a supprimé entre-temps',
      text: (name) => `${name} n’est plus là : quelqu’un l’a supprimé, renommé ou déplacé.`,
      replace: 'Envoyer quand même',
    },
    left: {
      title: 'Supprimer les restes d’un envoi ?',
      text: (name) => `Un envoi de ${name} a été interrompu, et ses parties sont encore là, avec `
        + 'un numéro après ce nom. Sans les autres, elles ne servent à rien.',
      replace: 'Les supprimer et envoyer',
    },
  },
  noFolder: 'son dossier n’a pas pu être créé',
  left: 'laissé tel quel',
  notSent: 'pas envoyé',
  tooMuch: 'pas envoyé, car c’était trop à la fois : attendez une minute, puis appuyez sur '
    + '« Réessayer ce qui a échoué »',
  lost: 'il a été envoyé, mais la salle ne l’a plus',
  interrupted: (many) => 'La salle a été interrompue pendant l’envoi, et '
    + `${documents(many)} qu’elle avait déjà ${many === 1 ? 'a disparu' : 'ont disparu'}. Elle a `
    + 'sans doute été ramenée à un état antérieur : demandez à l’administrateur ce qui a encore '
    + 'disparu, et réessayez ce qui a échoué.',
  done: (whole) => `${count(whole, 'document envoyé', 'documents envoyés')}.`,
  stopped: (good, whole) => `Arrêté : ${number(good)} sur ${documents(whole)} envoyés.`,
  failed: (bad, whole) => `${number(bad)} sur ${documents(whole)} en échec.`,
  folderIntoDocument: (name) => `Un dossier ne peut pas être mis dans un document, et ${name} en `
    + 'est un. Déposez-le sur un dossier, ou à côté des lignes.',
  isDocument: 'C’est un document',
  besideOne: (target, name, place) => `Rien ne peut être mis dans ${target}, car c’est un `
    + `document. Mettre ${name} à côté, dans le dossier ouvert (${place}) ?`,
  besideSeveral: (target, many, place) => `Rien ne peut être mis dans ${target}, car c’est un `
    + `document. Mettre les ${documents(many)} à côté, dans le dossier ouvert (${place}) ?`,
  beside: 'Mettre à côté',
};
