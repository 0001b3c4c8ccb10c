// Ein PDF als Bilder seiner Seiten, auf Deutsch.

import { formsOf } from './forms.js';

const { number, count } = formsOf('de-DE', 'und', 'oder');

export const DE_PAGES = {
  one: (page, many) => `Seite ${number(page)} von ${number(many)}`,
  next: 'Nächste Seite',
  larger: 'Größer',
  rest: (rest) => `${count(rest, 'weitere Seite steht', 'weitere Seiten stehen')} im Dokument: `
    + 'laden Sie es herunter.',
  none: {
    'no-pdf': 'Das ist kein PDF-Dokument, auch wenn der Name es sagt. Laden Sie es herunter, um es '
      + 'anzusehen.',
    'no-page': 'Das Dokument hat diese Seite nicht. Laden Sie es herunter, um es anzusehen.',
    locked: 'Dieses Dokument ist durch ein eigenes Kennwort gesperrt. Laden Sie es herunter, um es '
      + 'zu öffnen.',
    broken: 'Dieses Dokument ist beschädigt oder hat eine Form, die hier nicht bekannt ist. Laden '
      + 'Sie es herunter, um es anzusehen.',
    'too-much': 'Diese Seite hier zu zeigen ist zu aufwendig. Laden Sie das Dokument herunter, um '
      + 'es anzusehen.',
    changed: 'Jemand anders hat das Dokument inzwischen geändert. Laden Sie es neu.',
  },
};
