// Documents of more than 1 MiB, which the room keeps in parts (docs/large.md): what is a part is
// no document of its own. The services say the same (services/rooms_services/room/large.py).

const PART = /^(.+)~rooms-part-(?!0000)\d{4}$/su;

export const DOCUMENT_OF_ROOM = 1048576;

// What is in a folder, without the parts of what is there.
export function withoutParts(children) {
  const documents = new Set(children.filter(({ kind }) => kind === 'document')
    .map(({ name }) => name));
  return children.filter(({ name, kind }) =>
    kind !== 'document' || !documents.has(PART.exec(name)?.[1] ?? ''));
}

// How many bytes a document of this room may have.
let most = DOCUMENT_OF_ROOM;
export const mostBytes = () => most;

// As the front end says, or not.
export function hearMost(text) {
  const told = Number(text);
  most = Number.isSafeInteger(told) && told > DOCUMENT_OF_ROOM ? told : DOCUMENT_OF_ROOM;
}
