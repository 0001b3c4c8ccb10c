// The ready-made lists of docs/lists.md, in German.

const ALL_BUT_LISTS = 'darf im Ordner alles, außer Listen und Eigentümer zu ändern';

export const DE_READY = {
  groupName: 'Name der Gruppe',
  userName: 'Name des Benutzers',
  working: 'Name der Gruppe, die arbeitet',
  reading: 'Name der Gruppe, die liest',
  emptying: 'Name der Gruppe, die ihn leert',
  filling: 'Name der Gruppe, die ihn füllt',
  readTitle: (who) => `Die Gruppe ${who} darf lesen`,
  read: (me, who) => `Die Gruppe ${who} liest alles. Nur ${me} fügt hinzu, ändert und entfernt.`,
  addTitle: (who) => `Die Gruppe ${who} darf lesen und hinzufügen`,
  add: (me, who) => `Die Gruppe ${who} liest alles und fügt Dokumente und Ordner hinzu. Was da `
    + `ist, bleibt: Nur ${me} ändert und entfernt.`,
  changeTitle: (who) =>
    `Die Gruppe ${who} darf lesen, hinzufügen und ändern, und nur Eigenes entfernen`,
  change: (me, who) => `Die Gruppe ${who} liest alles, fügt Dokumente und Ordner hinzu und ändert `
    + 'jedes Dokument. Ihre Mitglieder dürfen die Dokumente entfernen, umbenennen und '
    + `wegverschieben, die sie selbst hinzugefügt haben. Ordner, und was andere hinzugefügt `
    + `haben, darf nur ${me} entfernen, umbenennen und verschieben.`,
  oneUserTitle: 'Privat für einen Benutzer',
  oneUser: (me, who) => `Der Benutzer ${who} ${ALL_BUT_LISTS}. Außer ${who} und ${me} kann niemand `
    + 'sehen, was darin ist.',
  oneGroupTitle: 'Privat für eine Gruppe',
  oneGroup: (me, who) => `Die Gruppe ${who} ${ALL_BUT_LISTS}. Außer ihr und ${me} kann niemand `
    + 'sehen, was darin ist.',
  twoGroupsTitle: 'Eine Gruppe arbeitet, eine andere liest',
  twoGroups: (me, works, reads) => `Die Gruppe ${works} ${ALL_BUT_LISTS}. Die Gruppe ${reads} `
    + `liest. Wer in ${works} ist, muss nicht in ${reads} sein.`,
  dropTitle: 'Ein Ordner zum Ablegen von Dokumenten',
  drop: (me, empties, fills) => `Die Gruppe ${fills} legt Dokumente in den Ordner und sieht `
    + `nichts von dem, was dort liegt, auch nicht selbst Abgelegtes. Die Gruppe ${empties} darf `
    + 'darin alles, außer Listen und Eigentümer zu ändern.',
};
