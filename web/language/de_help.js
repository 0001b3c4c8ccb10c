// Help, in German.

export const DE_HELP = {
  title: 'Hilfe',
  // What somebody wants to know, and the answer.
  lines: [
    ['Etwas wurde versehentlich entfernt oder ersetzt',
      '„Früher“, im Menü eines Ordners oder Dokuments, zeigt, wie es in einer früheren '
      + 'Nacht war, und holt es zurück.'],
    ['Jemand soll Zugriff bekommen',
      'Drücken Sie auf „Zugriff“, tippen Sie einen Namen, wählen Sie, was die Person '
      + 'kann, und lesen Sie vor „Freigeben“, wer dadurch etwas gewinnt oder verliert.'],
    ['Etwas ist grau oder wird abgelehnt',
      'Die Seite sagt, was Ihnen fehlt, und wen Sie fragen können; „Warum“ nennt die '
      + 'Zeile, die es entscheidet.'],
    ['Mit der Tastatur',
      'Die Liste ist ein Halt der Tabulatortaste. In ihr gehen die Pfeiltasten von Zeile '
      + 'zu Zeile, die Leertaste hakt an, F2 benennt um, Entf entfernt, und / führt zum '
      + 'Feld für einen Namen.'],
    ['Alles andere',
      'Fragen Sie, wer den Ordner verwaltet, oder Ihre Administration.'],
  ],
};
