// Des mots que l’on cherche dans les textes, en français.

import { formsOf, small } from './forms.js';

const { count } = formsOf('fr-FR', 'et', 'ou');
const documents = (many) => count(many, 'document', 'documents');

export const FR_SEARCH = {
  field: 'Chercher dans les noms et les textes',
  texts: (when) => `Dans les textes, état : ${small(when)}, et depuis`,
  busy: 'Recherche dans les textes …',
  none: 'Aucun texte d’un document que vous pouvez lire ne contient ces mots.',
  found: (many) => `${documents(many)} avec ces mots dans le texte`,
  times: (many) => `${many.toLocaleString('fr-FR')} fois`,
  where: 'Montrer l’endroit',
  more: 'Il y en a d’autres : ouvrez un dossier et cherchez-y, ou tapez d’autres mots.',
  noneSoFar: 'Aucun des textes parcourus ne contient ces mots.',
  notAll: 'Tout n’a pas pu être parcouru : ouvrez un dossier et cherchez-y.',
  unread: (many) => `Modifiés depuis et non parcourus : ${documents(many)}.`,
  without: (many) => `Sans texte, comme des numérisations : ${documents(many)}.`,
  rule: 'Chaque mot doit se trouver dans le texte, même dans un mot plus long. Majuscules et '
    + 'accents ne comptent pas : « u » trouve aussi « ü », mais « ue » non.',
  short: 'Dans les textes, on cherche des mots de deux lettres ou plus.',
  notNow: 'Les textes ne peuvent pas être parcourus en ce moment.',
};
