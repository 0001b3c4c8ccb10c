// Un PDF sous forme d’images de ses pages, en français.

import { formsOf } from './forms.js';

const { number, count } = formsOf('fr-FR', 'et', 'ou');

export const FR_PAGES = {
  one: (page, many) => `Page ${number(page)} sur ${number(many)}`,
  next: 'Page suivante',
  larger: 'Agrandir',
  rest: (rest) => `${count(rest, 'autre page se trouve', 'autres pages se trouvent')} dans le `
    + 'document : téléchargez-le.',
  none: {
    'no-pdf': 'Ce n’est pas un document PDF, bien que son nom le dise. Téléchargez-le pour le '
      + 'regarder.',
    'no-page': 'Le document n’a pas cette page. Téléchargez-le pour le regarder.',
    locked: 'Ce document est protégé par son propre mot de passe. Téléchargez-le pour l’ouvrir.',
    broken: 'Ce document est endommagé, ou d’une forme inconnue ici. Téléchargez-le pour le '
      + 'regarder.',
    'too-much': 'Afficher cette page ici demande trop. Téléchargez le document pour le regarder.',
    changed: 'Quelqu’un d’autre a modifié le document entre-temps. Chargez-le de nouveau.',
  },
};
