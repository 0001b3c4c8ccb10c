// The ready-made lists of a folder, those of 'Lists that offices ask for' in docs/lists.md, in the
// same texts.ready. Who sends one manages the folder.

import { LETTERS } from '../acl/entries.js';
import { texts } from '../language/language.js';

const GROUP = { label: texts.ready.groupName, example: 'staff' };
const KEEPS = 'D:d:EVERYONE@:Dd';

// 'asks' are the names that a list needs. In the others 'me' is mine, and the rest are these names.
export const READY = [
  {
    asks: [GROUP], title: texts.ready.readTitle, sentence: texts.ready.read,
    entries: (who) => [KEEPS, `A:fdg:${who}:rxtc`],
  },
  {
    asks: [GROUP], title: texts.ready.addTitle, sentence: texts.ready.add,
    entries: (who) => [KEEPS, `A:fdg:${who}:rxtc`, `A:dg:${who}:wa`],
  },
  {
    asks: [GROUP], title: texts.ready.changeTitle, sentence: texts.ready.change,
    entries: (who) => [KEEPS, `A:fdg:${who}:rwaxtc`, 'A:fi:OWNER@:d'],
  },
  {
    asks: [{ label: texts.ready.userName, example: 'bob', isUser: true }],
    title: () => texts.ready.oneUserTitle, sentence: texts.ready.oneUser,
    entries: (who) => [`A:fd:${who}:rwaxDtc`, KEEPS],
  },
  {
    asks: [{ label: texts.ready.groupName, example: 'personnel' }],
    title: () => texts.ready.oneGroupTitle, sentence: texts.ready.oneGroup,
    entries: (who) => [`A:fdg:${who}:rwaxDtc`, KEEPS],
  },
  {
    asks: [{ label: texts.ready.working, example: 'editors' },
      { label: texts.ready.reading, example: 'staff' }],
    title: () => texts.ready.twoGroupsTitle, sentence: texts.ready.twoGroups,
    entries: (works, reads) => [`A:fdg:${works}:rwaxDtc`, KEEPS, `A:fdg:${reads}:rxtc`],
  },
  {
    asks: [{ label: texts.ready.emptying, example: 'clerks' },
      { label: texts.ready.filling, example: 'staff' }],
    title: () => texts.ready.dropTitle, sentence: texts.ready.drop,
    entries: (empties, fills) => [`A:fdg:${empties}:rwaxDtc`, KEEPS, `A:g:${fills}:wx`],
  },
];

// The text of the list that 'me' sends.
export const readyText = (ready, me, names) =>
  ['list:ap', `A:fd:${me}:${LETTERS}`, ...ready.entries(...names), ''].join('\n');
