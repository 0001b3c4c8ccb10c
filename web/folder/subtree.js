// The question before something is removed, with all that lies below it.

import * as api from '../net/api.js';
import { texts } from '../language/language.js';
import { isolated, placeWords } from '../text/words.js';

// '2 documents and 1 folder' of these objects.
export function amount(objects) {
  const count = (kind) => objects.filter((one) => one.kind === kind).length;
  return texts.folder.amount(count('document'), count('folder'));
}

function goneWords(objects, below) {
  const one = objects.length === 1;
  const what = one ? isolated(api.nameOf(objects[0].path)) : amount(objects);
  if (below.length === 0) return (one ? texts.folder.goneOne : texts.folder.goneSeveral)(what);
  return (one ? texts.folder.goneOneWith : texts.folder.goneSeveralWith)(what, amount(below));
}

// The same where it comes back.
function goneFromHere(objects, below) {
  const one = objects.length === 1;
  const what = one ? isolated(api.nameOf(objects[0].path)) : amount(objects);
  if (below.length === 0) return (one ? texts.earlier.goneOne : texts.earlier.goneSeveral)(what);
  return (one ? texts.earlier.goneOneWith : texts.earlier.goneSeveralWith)(what, amount(below));
}

// The question before these objects are removed, with all that lies below: {title, text}. 'wayBack'
// says how they come back, or is null.
export function removalQuestion(objects, all, unseen, wayBack = null) {
  const below = all.filter(({ path }) => !objects.some((object) => object.path === path));
  const gone = wayBack === null ? goneWords(objects, below)
    : `${goneFromHere(objects, below)} ${wayBack}`;
  const title = objects[0].kind === 'folder' ? texts.folder.removeFolder
    : texts.folder.removeDocument;
  return {
    title: objects.length === 1 ? title : texts.folder.removeAmount(amount(objects)),
    text: unseen.length === 0 ? gone
      : `${gone} ${texts.folder.notCounted(unseen.map(placeWords))}`,
  };
}
