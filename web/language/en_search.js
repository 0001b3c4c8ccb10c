// Words that are looked for in texts, in English.

import { formsOf, small } from './forms.js';

const { count } = formsOf('en-GB', 'and', 'or');
const documents = (many) => count(many, 'document', 'documents');

export const EN_SEARCH = {
  field: 'Find in names and texts',
  texts: (when) => `In texts, as of ${small(when)} and since then`,
  busy: 'Looking through texts …',
  none: 'No text of a document that you may read has these words.',
  found: (many) => `${documents(many)} with these words in the text`,
  times: (many) => count(many, 'time', 'times'),
  where: 'Show the place',
  more: 'There are more: open a folder and find there, or type more words.',
  noneSoFar: 'No text that was looked through has these words.',
  notAll: 'Not all could be looked through: open a folder and find there.',
  unread: (many) => `Changed since then and not looked through: ${documents(many)}.`,
  without: (many) => `Without text, such as scans: ${documents(many)}.`,
  rule: 'Each word has to stand in the text, also as a part of a longer word. Capitals and marks '
    + 'don’t matter: “u” also finds “ü”. But “ue” doesn’t.',
  short: 'Texts are looked through for words of two letters and more.',
  notNow: 'Texts can’t be looked through at the moment.',
};
