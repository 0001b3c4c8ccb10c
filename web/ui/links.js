// The open place follows the '#' of the address, so that it can be linked and kept as a bookmark.

import { texts } from '../language/language.js';
import { join, namesOf } from '../net/api.js';
import { element, nameText } from './dom.js';

export function linkTo(path, view = null) {
  const names = namesOf(path).map(encodeURIComponent).join('/');
  return `#/${names}${view ? `?${view}` : ''}`;
}

// The path as links, from the top down.
export function pathLinks(path) {
  const items = [element('li', {}, element('a', { href: linkTo('/') }, texts.places.all))];
  let reached = '/';
  for (const name of namesOf(path)) {
    reached = join(reached, name);
    items.push(element('li', {}, element('a', { href: linkTo(reached) }, nameText(name))));
  }
  items.at(-1).firstChild.setAttribute('aria-current', 'page');
  return element('ol', {}, items);
}
