// Objects are removed with all below them, by one request to the door.

import * as api from '../net/api.js';
import { askAgain } from './batch.js';
import { amount, removalQuestion } from './subtree.js';
import { element } from '../ui/dom.js';
import { removeNames, whatGoes } from '../net/door.js';
import { hasNights, nightsKept } from '../net/nights.js';
import { isUnanswered, mayHelpAgain } from '../net/retry.js';
import { texts } from '../language/language.js';
import { askedFor } from '../ui/ask_whom.js';
import { linkTo } from '../ui/links.js';
import { question, tell, tellFault, waitFor } from '../ui/messages.js';
import { stoppable } from '../ui/panel.js';
import { asWork } from '../ui/working.js';
import { wayBack } from '../text/night_words.js';
import { shortened } from '../text/who_is.js';
import { isolated, placeWords } from '../text/words.js';

const MOST_NAMED = 3;
const NOTHING = { objects: [] };

// How many of those that somebody was asked about are gone.
const doneOf = ({ whole, asked }, left) =>
  whole - left.objects.filter(({ path }) => asked.has(path)).length;

// Which one may not be removed, and whom to ask.
async function tellBarred({ path, at }) {
  const why = element('a', { class: 'button small', href: linkTo(path, 'rights') },
    texts.acts.why);
  tell('bad', `${texts.folder.mayNotRemove(placeWords(path))} ${await waitFor(askedFor(at))}`, why);
}

// What is still there after a fault, or null where nobody knows. Who has waited for half a minute
// already doesn't do so again.
const leftAfter = async (fault, { folder, names }) => (isUnanswered(fault) && fault.repeated ? null
  : whatGoes(folder, names).catch(() => null));

// Whether something is there that nobody was asked about.
const hasMore = ({ asked }, left) => left !== null
  && left.objects.some(({ path }) => !asked.has(path));

// Whether it goes on without a question, since some of it is gone and nothing came to the rest.
const goesOn = (fault, removal, left, before) => left !== null && !hasMore(removal, left)
  && (isUnanswered(fault) || fault.status === 412)
  && left.objects.length < before.objects.length;

// Removes what was seen. Returns {fault, stopped, left}: an end in the middle is followed by a look
// at what is still there.
async function removeSeen(removal, seen, panel) {
  const { folder, names, whole } = removal;
  for (let now = seen; ;) {
    let done = whole - now.objects.length;
    const gone = () => panel.show(done += 1, whole);
    try {
      await removeNames(folder, names, now.tag, gone, panel.signal);
      return { fault: null, stopped: false, left: NOTHING };
    } catch (fault) {
      const left = await leftAfter(fault, removal);
      if (panel.isStopped() || !goesOn(fault, removal, left, now)) {
        return { fault, stopped: panel.isStopped(), left };
      }
      if (left.objects.length === 0) return { fault: null, stopped: false, left };
      now = left;
    }
  }
}

// Until all is gone, or it is stopped, or nobody wants another try.
async function removeAll(removal, seen) {
  const { whole, title } = removal;
  for (let now = seen; ;) {
    const panel = stoppable(title, whole);
    panel.show(whole - now.objects.length, whole);
    const ended = await waitFor(asWork(removeSeen(removal, now, panel))).finally(panel.remove);
    const { fault, stopped, left } = ended;
    const isOver = stopped || fault === null || hasMore(removal, left);
    if (isOver || !mayHelpAgain(fault)) return ended;
    now = left ?? now;
    const told = texts.folder.removedSomeOf(doneOf(removal, now), whole);
    if (!(await askAgain(told, fault))) return ended;
  }
}

// What is left, by its names in the folder.
function restWords({ folder }, { objects }) {
  const tops = objects.filter(({ path }) => api.parentOf(path) === folder);
  return texts.folder.stillThere(
    shortened(tops.map(({ path }) => isolated(api.nameOf(path))), MOST_NAMED), amount(objects));
}

function tellRest(removal, left, words) {
  tell('bad', left === null ? texts.folder.restUnknown
    : `${words(doneOf(removal, left), removal.whole)} ${restWords(removal, left)}`);
}

async function tellEnd(removal, { fault, stopped, left }) {
  if (stopped) tellRest(removal, left, texts.folder.stoppedRemoval);
  else if (fault.body?.why === 'barred') await tellBarred(fault.body);
  else {
    tellFault(fault);
    // Where nothing is gone the fault says all.
    if (left === null || doneOf(removal, left) > 0) {
      tellRest(removal, left, texts.folder.removedSome);
    }
  }
}

// All of it is removed, or nothing, unless somebody comes between, or it is stopped.
export async function removeObjects(objects) {
  const [folder, names] = [api.parentOf(objects[0].path),
    objects.map(({ path }) => api.nameOf(path))];
  const seen = await waitFor(whatGoes(folder, names));
  if (seen.barred !== null) {
    await tellBarred(seen.barred);
    return null;
  }
  if (seen.objects.length === 0) {
    tell('bad', texts.faults.nothingAt(placeWords(objects[0].path)));
    return { name: null };
  }
  const nights = hasNights() ? await waitFor(nightsKept()).catch(() => null) : null;
  const { title, text } = removalQuestion(objects, seen.objects, seen.unlisted, wayBack(nights));
  const words = objects.length === 1 ? texts.folder.removeIt : texts.folder.removeThem;
  if (!(await question(title, text, [['remove', words, 'danger']]))) return null;
  const what = objects.length === 1 ? isolated(names[0]) : amount(objects);
  const removal = { folder, names, whole: seen.objects.length,
    asked: new Set(seen.objects.map(({ path }) => path)), title: texts.folder.removing(what) };
  const ended = await removeAll(removal, seen);
  const removed = objects.length === 1 ? texts.folder.removedOne : texts.folder.removedSeveral;
  if (ended.fault === null) tell('good', removed(what));
  else await tellEnd(removal, ended);
  return { name: null };
}
