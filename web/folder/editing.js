// A document that a program on the computer opens at its address, and saves in place
// (docs/drive.md). A room may have no such addresses: that is found out once in a visit.

import { target } from '../net/addresses.js';
import { texts } from '../language/language.js';

// The links that programs take, and of which documents.
const SUITE = { words: 'LibreOffice', link: 'vnd.libreoffice.command:ofe|u|' };
const PROGRAMS = [
  { words: 'Word', link: 'ms-word:ofe|u|', endings: ['doc', 'docx', 'docm', 'rtf'] },
  { words: 'Excel', link: 'ms-excel:ofe|u|', endings: ['xls', 'xlsx', 'xlsm'] },
  { words: 'PowerPoint', link: 'ms-powerpoint:ofe|u|', endings: ['ppt', 'pptx', 'pptm'] },
];
const ENDINGS = new Set(['odt', 'ods', 'odp', 'odg',
  ...PROGRAMS.flatMap(({ endings }) => endings)]);

const endingOf = (name) => name.slice(name.lastIndexOf('.') + 1).toLowerCase();
const isEdited = ({ kind, name }) => kind === 'document' && ENDINGS.has(endingOf(name));

// Whether there are such addresses: null as long as nobody asked.
let isThere = null;

// Asks whether there are, if there is a document here that such a program opens.
export async function learnEditing(children) {
  if (isThere !== null || !children.some(isEdited)) return;
  isThere = false;
  const reply = await fetch(target('drive', '/'), { method: 'OPTIONS' }).catch(() => null);
  isThere = Boolean(reply?.ok && reply.headers.has('DAV'));
}

// The entries of its menu that open a document so. The program asks for the password itself.
export function editingOf(child, path) {
  if (!isThere || !isEdited(child)) return [];
  const address = new URL(target('drive', path), location.href).href;
  return [SUITE, ...PROGRAMS.filter(({ endings }) => endings.includes(endingOf(child.name)))]
    .map(({ words, link }) => ({ words: texts.folder.openIn(words), href: link + address }));
}
