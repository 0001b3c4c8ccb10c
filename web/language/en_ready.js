// The ready-made lists of docs/lists.md, in English.

import { capital } from './forms.js';

const ALL_BUT_LISTS = 'may do everything in the folder but change lists and owners';

// In sentences the first name is that of whoever sends the list.
export const EN_READY = {
  groupName: 'Name of the group',
  userName: 'Name of the user',
  working: 'Name of the group that works',
  reading: 'Name of the group that reads',
  emptying: 'Name of the group that empties it',
  filling: 'Name of the group that fills it',
  readTitle: (who) => `${capital(who)} may read`,
  read: (me, who) => `${capital(who)} read everything. Only ${me} adds, changes and removes.`,
  addTitle: (who) => `${capital(who)} may read and add`,
  add: (me, who) => `${capital(who)} read everything and add documents and folders. What is there `
    + `stays: only ${me} changes and removes.`,
  changeTitle: (who) => `${capital(who)} may read, add and change, and remove only their own`,
  change: (me, who) => `${capital(who)} read everything, add documents and folders, and change `
    + 'every document. Each of them may remove, rename and move away the documents that they '
    + `added themselves. Only ${me} removes, renames and moves folders and what others added.`,
  oneUserTitle: 'Private to one user',
  oneUser: (me, who) => `${capital(who)} ${ALL_BUT_LISTS}. Apart from ${who} and ${me} nobody can `
    + 'see what is in it.',
  oneGroupTitle: 'Private to one group',
  oneGroup: (me, who) => `${capital(who)} ${ALL_BUT_LISTS}. Apart from them and ${me} nobody can `
    + 'see what is in it.',
  twoGroupsTitle: 'One group works, another reads',
  twoGroups: (me, works, reads) => `${capital(works)} ${ALL_BUT_LISTS}. ${capital(reads)} read. `
    + `${capital(works)} need not be members of ${reads}.`,
  dropTitle: 'A folder to drop documents into',
  drop: (me, empties, fills) => `${capital(fills)} put documents into the folder and see nothing `
    + `of what is there, not even what they put there themselves. ${capital(empties)} may do `
    + 'everything in it but change lists and owners.',
};
