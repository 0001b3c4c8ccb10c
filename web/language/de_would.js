// What is said where the program was asked what a change would bring about. 'most' is how many
// groups together were asked for.

const ONE_BY_ONE = 'Hier ist so viel, dass Gruppen nur einzeln angesehen wurden: Wer in '
  + 'mehreren ist, gewinnt oder verliert vielleicht mehr.';
const TWO_AT_MOST = 'Hier ist so viel, dass höchstens zwei Gruppen zusammen angesehen wurden: '
  + 'Wer in mehr ist, gewinnt oder verliert vielleicht mehr.';

export const DE_WOULD = {
  title: 'Was daraus würde, lässt sich nicht sagen',
  noAnswer: 'Was daraus würde, lässt sich jetzt nicht sagen: Es kommt keine Antwort. Geändert '
    + 'wurde nichts. Versuchen Sie es in einer Minute noch einmal.',
  tooMuch: 'Darunter liegt zu viel, um zu sagen, was daraus würde. Ändern Sie weiter unten, für '
    + 'weniger auf einmal.',
  changed: 'Was daraus würde, lässt sich nicht sagen: Jemand hat hier inzwischen etwas geändert. '
    + 'Von Ihnen wurde nichts geändert. Versuchen Sie es noch einmal.',
  fewerGroups: (most) => (most < 2 ? ONE_BY_ONE : TWO_AT_MOST),
  perhaps: 'Vielleicht auch, nach dem, was von Gruppen nicht bekannt ist',
};
