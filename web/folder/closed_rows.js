// What somebody may see in a folder and can't open looks so.

import { texts } from '../language/language.js';
import { element, icon } from '../ui/dom.js';

export function markClosed(row) {
  if (row.classList.contains('shut')) return;
  row.classList.add('shut');
  const name = row.querySelector('[data-act="open"]');
  name.title = texts.folder.cantOpen;
  name.append(icon('lock'), element('span', { class: 'unseen' }, `, ${texts.folder.cantOpen}`));
}

// Those of the rows that are drawn by now.
export function markAllClosed(body, names, nameOf) {
  for (const row of body.querySelectorAll('tr[data-path]')) {
    if (names.has(nameOf(row.dataset.path))) markClosed(row);
  }
}
