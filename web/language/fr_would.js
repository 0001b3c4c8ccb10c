// What is said where the program was asked what a change would bring about. 'most' is how many
// groups together were asked for.

const ONE_BY_ONE = 'Il y a tant de choses ici que les groupes n’ont été examinés qu’un par un : '
  + 'qui est dans plusieurs gagne ou perd peut-être plus.';
const TWO_AT_MOST = 'Il y a tant de choses ici que deux groupes ensemble au plus ont été '
  + 'examinés : qui est dans plus gagne ou perd peut-être plus.';

export const FR_WOULD = {
  title: 'On ne peut pas dire ce qui en résulterait',
  noAnswer: 'On ne peut pas dire maintenant ce qui en résulterait : il n’y a pas de réponse. '
    + 'Rien n’a été changé. Réessayez dans une minute.',
  tooMuch: 'Il y a trop de choses dessous pour dire ce qui en résulterait. Faites-le plus bas, '
    + 'pour moins à la fois.',
  changed: 'On ne peut pas dire ce qui en résulterait : quelqu’un a changé quelque chose ici '
    + 'entre-temps. Rien n’a été changé. Réessayez.',
  fewerGroups: (most) => (most < 2 ? ONE_BY_ONE : TWO_AT_MOST),
  perhaps: 'Peut-être aussi, selon ce qu’on ne sait pas des groupes',
};
