// What the room refuses and why, in French.

import { formsOf } from './forms.js';

const { number } = formsOf('fr', 'et', 'ou');

const OF_LISTS = {
  A1: 'Le type doit être A (autoriser) ou D (refuser), pour le journal U (audit) ou L (alarme).',
  A2: 'Les indicateurs ne peuvent être que les lettres f d n i S F g I.',
  A3: 'Ce n’est pas un nom d’utilisateur ou de groupe. Les noms ont des lettres, des chiffres et '
    + '. _ - + $ \\, sans espace ni accent ; les noms spéciaux sont OWNER@, GROUP@, EVERYONE@, '
    + 'ANONYMOUS@ et AUTHENTICATED@.',
  A4: 'Les droits ne peuvent être que les lettres rwanNxDtThHdcCoy, sans espace.',
  A5: 'Une entrée a quatre parties séparées par trois deux-points : type:flags:who:rights.',
  A6: 'La première ligne doit être « list: », suivie de a, de p ou des deux si vous le voulez, et '
    + 'de rien d’autre.',
  A7: 'Une liste envoyée peut avoir au plus 4 096 entrées.',
  A8: 'Une liste peut avoir au plus 64 entrées propres. Mettez des personnes dans un groupe, et '
    + 'nommez plutôt celui-ci.',
  A9: 'Une entrée de ce type va dans l’autre liste : autoriser et refuser décident de l’accès, '
    + 'audit et alarme demandent un journal.',
  A10: 'S et F sont réservés à l’audit et à l’alarme : une entrée qui autorise ou refuse n’a ni '
    + 'l’un ni l’autre.',
  A11: '« Pas ici » demande qu’il y ait plus bas quelque chose à quoi l’entrée est transmise (f ou '
    + 'd).',
  A12: 'Il n’y a rien sous un document, donc ses entrées ne peuvent pas être transmises (ni f, ni '
    + 'd, ni n, ni i).',
  A13: 'Cette ligne a des caractères qui ne peuvent pas être envoyés.',
};

const CONFLICTS = {
  'not-folder': (at) => `À ${at} se trouve un document, donc il n’y a rien dessous. Rechargez le `
    + 'dossier.',
  'wrong-kind': (at) => `À ${at} se trouve un objet d’un autre type : un dossier là où un `
    + 'document est attendu, ou l’inverse. Choisissez un autre nom.',
  exists: (at) => `À ${at} se trouve déjà quelque chose. Choisissez un autre nom, ou supprimez `
    + 'd’abord ce qui s’y trouve.',
  'not-empty': (at) => `À ${at}, le dossier n’est pas vide. Supprimez ou déplacez d’abord son `
    + 'contenu.',
  root: 'Le niveau supérieur de la salle ne peut être ni supprimé ni déplacé.',
  loop: 'Un dossier ne peut pas être déplacé dans lui-même ni dans un de ses sous-dossiers. '
    + 'Choisissez un autre endroit.',
  'no-place': (at) => `Ce qui se trouve à ${at} appartient à quelqu’un d’autre, et un fichier `
    + 'aussi grand n’y tient pas. Envoyez-le sous un autre nom, ou demandez à son propriétaire de '
    + 'le remplacer.',
  'not-whole': (at) => `Il manque une partie de ce qui se trouve à ${at}. Si un déplacement était `
    + 'en cours, déplacez-le encore une fois au même endroit ; sinon, rétablissez une version '
    + 'précédente.',
  'left-over': (at) => `À ${at}, il reste des parties d’un envoi interrompu. Supprimez-les, ou `
    + 'choisissez un autre nom.',
};

const STATUSES = {
  lost: 'La connexion a été coupée. La demande a peut-être été exécutée, peut-être pas : '
    + 'vérifiez, et répétez-la si ce n’est pas le cas.',
  unreadable: 'Le fichier ne peut plus être lu sur cet ordinateur : il a été modifié, déplacé ou '
    + 'supprimé après avoir été choisi. Choisissez-le de nouveau.',
  401: 'Vous n’êtes plus connecté : votre session est terminée, ou votre mot de passe a été '
    + 'changé. Rechargez la page et connectez-vous.',
  405: 'La salle ne connaît pas cette demande. Rechargez la page.',
  429: 'C’était trop à la fois, ou trop de mots de passe ont été essayés. Attendez une minute, '
    + 'puis rechargez la page.',
  431: 'La demande était trop longue. Choisissez un nom plus court.',
  500: 'La salle n’a pas pu enregistrer ou lire cela. Cela a peut-être été modifié, peut-être '
    + 'pas : vérifiez d’abord, puis réessayez ; si cela ne suffit pas, prévenez l’administrateur.',
  502: 'La salle ne répond pas pour le moment. Réessayez dans une minute ; si elle ne répond '
    + 'toujours pas, prévenez l’administrateur.',
  503: 'Les mots de passe ne peuvent pas être vérifiés pour le moment. Réessayez dans une minute.',
  504: 'La salle a mis trop longtemps à répondre. La demande a peut-être été exécutée, peut-être '
    + 'pas : vérifiez avant de la répéter.',
  507: 'La salle est pleine, donc rien n’a été ajouté. Supprimez ce dont personne n’a plus besoin, '
    + 'puis réessayez ; si cela ne suffit pas, prévenez l’administrateur.',
};

const OF_DOOR = {
  'too-many-requests': 'Vous demandez trop de choses à la fois. Attendez que le reste ait reçu une '
    + 'réponse, puis réessayez.',
  'too-many': 'Il y a trop de choses sous ce dossier. Faites-le plus bas, dossier par dossier.',
  'too-long': 'Il faut trop de temps pour examiner tout ce qui se trouve sous ce dossier. '
    + 'Faites-le plus bas, dossier par dossier.',
  'no-room': 'La salle ne répond pas pour le moment, donc rien n’a été fait. Réessayez dans '
    + 'quelques secondes.',
  busy: 'Trop de personnes font des demandes pour le moment, donc rien n’a été fait. Réessayez '
    + 'dans quelques secondes.',
  'room-ended': 'La salle s’est arrêtée avant de répondre. Cela a peut-être été fait, peut-être '
    + 'pas : vérifiez avant de le répéter.',
  changed: 'Quelqu’un d’autre l’a modifié entre-temps, donc rien n’a été fait. Rechargez-le.',
  gone: 'Quelqu’un l’a supprimé ou déplacé entre-temps, donc rien n’a été fait. Rechargez son '
    + 'dossier.',
  exists: 'Quelqu’un a mis là quelque chose de ce nom entre-temps, donc rien n’a été fait. '
    + 'Rechargez le dossier.',
};

const MOST = (bytes) => `plus de ${number(bytes)} octets (${number(bytes / 1048576)} Mio), le `
  + 'maximum pour un document. Réduisez-le ou découpez-le.';

const LEFT = (bytes) => `La salle n’a plus de place que pour ${number(bytes)} octets `
  + `(${number(bytes / 1048576)} Mio), donc rien n’a été ajouté. Réduisez-le, ou supprimez ce dont `
  + 'personne n’a plus besoin ; si cela ne suffit pas, prévenez l’administrateur.';

export const FR_FAULTS = {
  ofLists: OF_LISTS,
  ofList: (code) => `La salle n’accepte pas cela (${code}).`,
  ofDoor: OF_DOOR,
  doorAway: 'Ce qui examine des dossiers entiers pour la salle ne répond pas pour le moment. '
    + 'Réessayez ; si cela ne suffit pas, prévenez l’administrateur.',
  conflicts: CONFLICTS,
  conflict: 'Ce qui se trouve là ne convient pas. Rechargez le dossier.',
  targets: {
    P1: 'Un nom ne peut être ni vide, ni « . », ni « .. », ni plus long que 255 octets, et il ne '
      + 'peut pas avoir de caractères invisibles. Choisissez un autre nom.',
    P2: 'Le chemin est plus long que 4 096 octets. Choisissez des noms plus courts, ou un endroit '
      + 'plus haut.',
    P3: 'Le nom a des caractères qui ne peuvent pas être envoyés. Choisissez un autre nom.',
  },
  badUser: 'La salle n’accepte pas votre nom d’utilisateur. Prévenez l’administrateur : les noms '
    + 'n’ont que des lettres, des chiffres et . _ - + $ \\.',
  badBody: 'Le nom d’un utilisateur, d’un groupe ou d’un objet n’a pas été accepté. Les noms '
    + 'd’utilisateurs et de groupes ont des lettres, des chiffres et . _ - + $ \\, sans espace.',
  badRequest: (why) =>
    `La salle n’a pas pu lire la demande${why ? ` (${why})` : ''}. Rechargez la page.`,
  first: 'Vous vous êtes connecté avec un premier mot de passe. Rechargez la page et choisissez le '
    + 'vôtre.',
  frontEnd: 'Le serveur web a refusé cela, comme si un autre site l’avait demandé. Rechargez la '
    + 'page.',
  denied: (place, rights) => `À ${place}, il vous manque ce droit : ${rights.join(' ou ')}.`,
  deniedRemoval: (place) => `À ${place}, vous ne pouvez ni supprimer le contenu ni déposer de `
    + 'documents.',
  deniedHere: { w: 'y déposer des documents', a: 'y créer des dossiers' },
  noEntry: 'Aucune entrée de sa liste d’accès ne l’accorde.',
  byEntry: (number, words, entry) =>
    `L’entrée ${number} de sa liste d’accès le refuse ; elle ${words} (${entry}).`,
  statuses: STATUSES,
  status: (status) => `La salle a répondu avec le statut ${status}. Réessayez ; si cela ne suffit `
    + 'pas, prévenez l’administrateur.',
  page: (message) => `La page elle-même a échoué : ${message}. Rechargez-la.`,
  nothingAt: (at) => `Il n’y a rien à ${at}. Cela a peut-être été supprimé, renommé ou déplacé : `
    + 'rechargez son dossier.',
  largeAt: (at, bytes) => `Ce qui est prévu à ${at} a ${MOST(bytes)}`,
  largeThis: (bytes) => `Ce document a ${MOST(bytes)}`,
  largeFile: (bytes) => `Il a ${MOST(bytes)}`,
  longLists: {
    dacl: 'La liste d’accès est trop longue. Supprimez les entrées dont personne n’a plus besoin, '
      + 'ou mettez des personnes dans un groupe, et nommez plutôt celui-ci.',
    sacl: 'La liste de ce qui est journalisé est trop longue. Supprimez les entrées dont personne '
      + 'n’a plus besoin.',
  },
  leftFor: LEFT,
  twice: 'La salle n’a pas répondu d’abord, donc cela a peut-être déjà été exécuté : vérifiez.',
  noName: 'Saisissez un nom.',
  specialName: 'Ce nom a un sens particulier. Choisissez-en un autre.',
  slash: 'Un nom ne peut pas contenir de barre oblique.',
  characters: 'Le nom a des caractères qui ne peuvent pas être utilisés.',
  longName: 'Le nom est trop long : 255 octets au plus.',
};
