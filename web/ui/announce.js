// What is read aloud by itself. Most screen readers say nothing of an element that comes with its
// text, so there are two regions from the start, and two in each dialog: beside an open one nothing
// else is read.

import { element } from './dom.js';

const STAYS = 10000;
const CLASSES = { good: 'spoken', bad: 'alarm' };

export const regions = () => [['spoken', 'status'], ['alarm', 'alert']].map(([name, role]) =>
  element('div', { class: `unseen ${name}`, role, 'aria-atomic': 'false' }));

// 'kind' is 'good' for what can wait until somebody has read to the end, or 'bad'.
export function announce(kind, text) {
  const place = [...document.querySelectorAll('dialog[open]')].at(-1) ?? document.body;
  const said = element('p', {}, text);
  place.querySelector(`:scope > .${CLASSES[kind]}`)?.append(said);
  setTimeout(() => said.remove(), STAYS);
}
