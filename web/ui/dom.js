// Elements. Whatever comes from the room is set as text or as an attribute's value, never as HTML.

import { texts } from '../language/language.js';
import { piecesOf } from '../text/invisible.js';

const SVG = 'http://www.w3.org/2000/svg';

// element('a', {href, onclick, class}, 'text', other, ..). A property of null or false is left out.
/** @returns {any} */
export function element(tag, properties = {}, ...children) {
  const made = document.createElement(tag);
  for (const [name, value] of Object.entries(properties)) {
    if (value === null || value === false || value === undefined) continue;
    if (name.startsWith('on')) made.addEventListener(name.slice(2), value);
    else made.setAttribute(name, value === true ? '' : value);
  }
  made.append(...children.flat().filter((child) => child !== null && child !== undefined));
  return made;
}

const UNSEEN = { class: 'sign', title: texts.lists.unseenSign };

// A name is isolated, so that right-to-left text doesn't turn the text around it. What can't be
// seen in it is shown by its number.
export const nameText = (name) => element('bdi', { class: 'name' },
  piecesOf(name).map(({ text, code }) => text ?? element('span', UNSEEN, code)));

const SHAPES = {
  folder: 'M2.5 5.5a1 1 0 0 1 1-1h4l2 2h7a1 1 0 0 1 1 1v8a1 1 0 0 1-1 1h-13a1 1 0 0 1-1-1z',
  document: 'M5 2.5h6.5l3.5 3.5v11a.5.5 0 0 1-.5.5h-9.5a.5.5 0 0 1-.5-.5v-14a.5.5 0 0 1 .5-.5z'
    + 'M11.5 2.5v3.5h3.5',
  key: 'M12.5 3a4 4 0 1 1-3.7 5.5l-5.800 5.800v2.2h2.5v-1.800h1.800v-1.800l2.2-2.2a4 4 0 0 1 3-7.7z'
    + 'M13.800 6.2v.01',
  upload: 'M10 13.5v-10m-4 4 4-4 4 4M3 14v2.5h14V14',
  plus: 'M10 4v12M4 10h12',
  link: 'M8.5 11.5l3-3M9 6.5l2-2a3 3 0 0 1 4.500 4.500l-2 2M11 13.5l-2 2a3 3 0 0 1-4.500-4.500l2-2',
  up: 'M10 16V4.5M5 9l5-5 5 5',
  down: 'M10 4v11.5M5 11l5 5 5-5',
  check: 'M4 10.5l4 4 8-9',
  cross: 'M5 5l10 10M15 5L5 15',
  dash: 'M5 10h10',
  more: 'M4.5 10v.01M10 10v.01M15.5 10v.01',
  people: 'M8 9.500a2.800 2.800 0 1 0 0-5.600 2.800 2.800 0 0 0 0 5.600z'
    + 'M2.800 16c.4-3 2.500-4.300 5.200-4.300s4.800 1.300 5.200 4.300'
    + 'M13 4.200a2.700 2.700 0 0 1 0 5.200M15 12c1.500.600 2.300 2 2.500 4',
  lock: 'M5 9.500h10v7h-10zM7 9.500v-2.500a3 3 0 0 1 6 0v2.500',
  person: 'M10 10a3.2 3.2 0 1 0 0-6.400 3.2 3.2 0 0 0 0 6.400zM4 17c.5-3.5 3-5 6-5s5.5 1.5 6 5',
};

export function icon(name) {
  const picture = document.createElementNS(SVG, 'svg');
  picture.setAttribute('viewBox', '0 0 20 20');
  picture.setAttribute('class', `icon ${name}`);
  picture.setAttribute('aria-hidden', 'true');
  const shape = document.createElementNS(SVG, 'path');
  shape.setAttribute('d', SHAPES[name]);
  picture.append(shape);
  return picture;
}

export function button(text, onclick, properties = {}) {
  return element('button', { type: 'button', onclick, ...properties }, text);
}

let lastId = 0;
export function freshId(word) {
  lastId += 1;
  return `${word}-${lastId}`;
}

// An input with its label above, and a line for what is wrong with it.
export function field(label, input, hint = null) {
  input.id = freshId('field');
  const help = element('p', { class: 'hint', id: `${input.id}-help` }, hint ?? '');
  input.setAttribute('aria-describedby', help.id);
  const named = element('label', { for: input.id }, label);
  return element('div', { class: 'field' }, named, input, help);
}
