// Help, in English.

export const EN_HELP = {
  title: 'Help',
  // What somebody wants to know, and the answer.
  lines: [
    ['Something was removed or replaced by mistake',
      '“Earlier”, in the menu of a folder or a document, shows it as it was on an earlier'
      + ' night, and puts it back.'],
    ['Somebody is to get access',
      'Press “Access”, type a name, choose what they can do, and read who gains and who '
      + 'loses by it before you press “Share”.'],
    ['Something is grey, or refused',
      'The page says what you lack, and whom to ask; “Why” names the line that decides '
      + 'it.'],
    ['By keyboard',
      'The list is one stop of the Tab key. In it the arrow keys go from row to row, the '
      + 'space bar ticks, F2 renames, Delete removes, and / leads to the field for a name.'],
    ['Anything else',
      'Ask whoever manages the folder, or your administrator.'],
  ],
};
