// One person here and further down: what they can do, and taking them out; in English.

import { formsOf } from './forms.js';

const { number, and, count } = formsOf('en-GB', 'and', 'or');

export const EN_PERSON = {
  title: 'One person, here and further down',
  find: 'Whose access?',
  can: (name) => `What ${name} can do, as far as you may see:`,
  ifIn: (names) => `(if in ${and(names)})`,
  unlessByGroup: (words) => `${words}, unless by a group`,
  theirsThere: (words) => `what is theirs there: ${words}`,
  places: 'At these places',
  doneSomeOf: (done, whole) => `Done at ${number(done)} of ${count(whole, 'place', 'places')}.`,
  doneAt: (places) => `Done at ${and(places)}.`,
  notDoneAt: (places) => `Not done at ${and(places)}.`,
  changedAt: (place) => `Somebody else changed ${place} meanwhile.`,
  takeOut: 'Take out everywhere',
  takeOutTitle: (name) => `Take ${name} out?`,
  takeOutSays: (name) => `The lines of ${name} at the ticked places go. What a group, a folder `
    + 'above or a line at another place gives stays.',
  notMine: (name, places) => `${name} also has lines at ${and(places)}, where you may not change `
    + 'who has access.',
  takeThemOut: 'Take out',
  takingOut: (name) => `Taking ${name} out`,
  tookOut: (name, many) => `${name} is taken out of ${count(many, 'place', 'places')}.`,
  standIn: 'Let somebody stand in',
  standInTitle: (name) => `Stand in for ${name}`,
  findStandIn: 'Who stands in?',
  lastDay: 'Last day',
  chooseWho: 'Choose who stands in, and until when.',
  chooseDay: (name) => `Until which day does ${name} stand in?`,
  standInSays: (name, other, day) => `Until ${day} ${other} has what ${name} has by a line at the `
    + 'ticked places.',
  onTheWay: (name, places) => `On the way there ${name} can pass through ${and(places)}.`,
  hasAlready: (name, places) => `${name} has lines already at ${and(places)}, which stay as they `
    + 'are.',
  changeThere: 'To give more, change the line there.',
  barred: (name, places, folder) => `${name} can’t get to ${and(places)}: ${folder} doesn’t let `
    + 'them pass through.',
  standsIn: (name, other, day, many) => `${other} stands in for ${name} at ${
    count(many, 'place', 'places')} until ${day}, as far as the nightly run can.`,
};
