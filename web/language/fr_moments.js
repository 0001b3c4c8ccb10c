// When something changed and how large it is, in French.

import { small, writingOf } from './forms.js';

const { clock, amount, dates } = writingOf('fr-FR');

export const FR_MOMENTS = {
  today: (time) => `Aujourd’hui ${clock(time)}`,
  yesterday: (time) => `Hier ${clock(time)}`,
  before: (when) => `Au plus tard ${small(when)}`,
  when: 'Modifié', who: 'Par', size: 'Taille',
  news: 'Nouveautés', newIn: (name) => ['Nouveautés dans ', name], again: 'Actualiser',
  caption: 'Les documents modifiés en dernier, du plus récent au plus ancien.',
  nothingNew: 'Rien de ce que vous pouvez lire ici n’a changé depuis que les dates sont notées.',
  explained: 'Les 50 derniers au plus que vous pouvez lire.',
  noDates: 'Cette salle ne note pas de dates.',
  notShown: 'Ce qui a changé ne peut pas être affiché.',
  ...dates,
  bytes: (many) => `${amount(many)} o`,
  kilobytes: (many) => `${amount(many)} ko`,
  megabytes: (many) => `${amount(many)} Mo`,
};
