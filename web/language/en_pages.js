// A PDF as pictures of its pages, in English.

import { formsOf } from './forms.js';

const { number, count } = formsOf('en-GB', 'and', 'or');

export const EN_PAGES = {
  one: (page, many) => `Page ${number(page)} of ${number(many)}`,
  next: 'Next page',
  larger: 'Larger',
  rest: (rest) => `${count(rest, 'page more is', 'pages more are')} in the document: download it.`,
  none: {
    'no-pdf': 'This is no PDF document, though its name says so. Download it to look at it.',
    'no-page': 'The document has no such page. Download it to look at it.',
    locked: 'This document is locked by a password of its own. Download it to open it.',
    broken: 'This document is damaged, or of a form that isn’t known here. Download it to look at '
      + 'it.',
    'too-much': 'It takes too much to show this page here. Download the document to look at it.',
    changed: 'Somebody else changed the document meanwhile. Load it again.',
  },
};
