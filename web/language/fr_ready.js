// The ready-made lists of docs/lists.md, in French.

const ALL_BUT_LISTS = 'peut tout faire dans le dossier, sauf changer les listes et les '
  + 'propriétaires';

export const FR_READY = {
  groupName: 'Nom du groupe',
  userName: 'Nom de l’utilisateur',
  working: 'Nom du groupe qui travaille',
  reading: 'Nom du groupe qui lit',
  emptying: 'Nom du groupe qui le vide',
  filling: 'Nom du groupe qui le remplit',
  readTitle: (who) => `Le groupe ${who} peut lire`,
  read: (me, who) =>
    `Le groupe ${who} lit tout. Seul ${me} ajoute, modifie et supprime.`,
  addTitle: (who) => `Le groupe ${who} peut lire et ajouter`,
  add: (me, who) => `Le groupe ${who} lit tout et ajoute des documents et des dossiers. Ce qui s’y `
    + `trouve reste : seul ${me} modifie et supprime.`,
  changeTitle: (who) =>
    `Le groupe ${who} peut lire, ajouter et modifier, et ne supprimer que ses propres ajouts`,
  change: (me, who) => `Le groupe ${who} lit tout, ajoute des documents et des dossiers, et `
    + 'modifie chaque document. Chacun de ses membres peut supprimer, renommer et déplacer '
    + `ailleurs les documents qu’il a ajoutés lui-même. Seul ${me} supprime, renomme et déplace `
    + 'les dossiers et ce que d’autres ont ajouté.',
  oneUserTitle: 'Privé pour un utilisateur',
  oneUser: (me, who) => `L’utilisateur ${who} ${ALL_BUT_LISTS}. À part ${who} et ${me}, personne `
    + 'ne peut voir ce qu’il y a dedans.',
  oneGroupTitle: 'Privé pour un groupe',
  oneGroup: (me, who) => `Le groupe ${who} ${ALL_BUT_LISTS}. À part ses membres et ${me}, `
    + 'personne ne peut voir ce qu’il y a dedans.',
  twoGroupsTitle: 'Un groupe travaille, un autre lit',
  twoGroups: (me, works, reads) => `Le groupe ${works} ${ALL_BUT_LISTS}. Le groupe ${reads} lit. `
    + `Les membres du groupe ${works} n’ont pas besoin d’être dans le groupe ${reads}.`,
  dropTitle: 'Un dossier où déposer des documents',
  drop: (me, empties, fills) => `Le groupe ${fills} dépose des documents dans le dossier et ne `
    + 'voit rien de ce qui s’y trouve, pas même ce que ses membres y ont déposé. Le groupe '
    + `${empties} y peut tout faire, sauf changer les listes et les propriétaires.`,
};
