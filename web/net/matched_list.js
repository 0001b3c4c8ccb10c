// A list that is sent only if it is still the one that was judged: by the door, which lets nobody
// come between.

import { putList, readTagged } from './door.js';
import { isInherited, printList, readListText } from '../acl/entries.js';

// A list as it is now: {text, tag}.
export async function seeList(which, path) {
  const { blob, tag } = await readTagged(which, path);
  return { text: await blob.text(), tag };
}

export function ownText(text) {
  const { list } = readListText(text ?? '');
  return list && printList({ ...list, entries: list.entries.filter((one) => !isInherited(one)) });
}

// Sets a list in the place of the one that was 'seen'. Returns whether it was.
export async function setIfSame(which, path, text, seen) {
  try {
    await putList(which, path, text, { 'If-Match': seen.tag });
    return true;
  } catch (fault) {
    if (fault.status !== 412) throw fault;
    // It was set, and the answer was lost.
    return fault.repeated === true && ownText((await seeList(which, path)).text) === ownText(text);
  }
}
