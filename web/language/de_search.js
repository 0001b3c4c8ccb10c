// Wörter, nach denen in Texten gesucht wird, auf Deutsch.

import { formsOf, small } from './forms.js';

const { count } = formsOf('de-DE', 'und', 'oder');

export const DE_SEARCH = {
  field: 'In Namen und Texten suchen',
  texts: (when) => `In Texten, Stand ${small(when)} und seither`,
  busy: 'Texte werden durchsucht …',
  none: 'In keinem Text eines Dokuments, das Sie lesen dürfen, stehen diese Wörter.',
  found: (many) => `${count(many, 'Dokument', 'Dokumente')} mit diesen Wörtern im Text`,
  times: (many) => `${many.toLocaleString('de-DE')}-mal`,
  where: 'Stelle zeigen',
  more: 'Es gibt mehr: Öffnen Sie einen Ordner und suchen Sie dort, oder tippen Sie mehr Wörter.',
  noneSoFar: 'In keinem durchsuchten Text stehen diese Wörter.',
  notAll: 'Nicht alles konnte durchsucht werden: Öffnen Sie einen Ordner und suchen Sie dort.',
  unread: (many) => `Seither geändert und nicht durchsucht: ${count(many, 'Dokument',
    'Dokumente')}.`,
  without: (many) => `Ohne Text, etwa Scans: ${count(many, 'Dokument', 'Dokumente')}.`,
  rule: 'Jedes Wort muss im Text stehen, auch als Teil eines längeren Wortes. Großschreibung und '
    + 'Zeichen an Buchstaben sind gleich: „u“ findet auch „ü“, „ue“ aber nicht.',
  short: 'Texte werden nach Wörtern mit mindestens zwei Buchstaben durchsucht.',
  notNow: 'Texte können im Moment nicht durchsucht werden.',
};
