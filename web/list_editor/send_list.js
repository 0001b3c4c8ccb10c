// Sends a changed list to the room: the changes are shown first, and nothing is overwritten unseen.

import * as api from '../net/api.js';
import { changedLines } from '../acl/diff.js';
import { button, element } from '../ui/dom.js';
import { linesOf, readEntry } from '../acl/entries.js';
import { texts } from '../language/language.js';
import { question, showDialog, waitFor } from '../ui/messages.js';
import { changersOf } from '../net/door.js';
import { seeList, setIfSame } from '../net/matched_list.js';
import { whoCould } from '../ui/who_changed.js';
import { judged } from '../text/warnings.js';
import { entryWords } from '../text/words.js';

const SIGNS = { '+': ['ins', texts.advanced.fresh], '-': ['del', texts.advanced.gone] };

function changedLine({ sign, line }) {
  const [tag, words] = SIGNS[sign];
  const isEntry = Boolean(readEntry(line).entry);
  const said = [element('span', { class: 'unseen' }, words), element('code', {}, line)];
  return element('li', { class: tag }, element(tag, {}, said),
    isEntry ? element('span', { class: 'hint' }, entryWords(line)) : null);
}

function difference(before, after) {
  const changes = changedLines(linesOf(before), linesOf(after)).filter(({ sign }) => sign !== ' ');
  return element('ul', { class: 'difference' }, changes.map(changedLine));
}

const warning = ({ kind, text }) => element('li', { class: kind }, text);

const review = (before, after, warned) => showDialog(texts.advanced.sendChanges, (finish) => [
  difference(before, after),
  warned.length === 0 ? ''
    : element('ul', { class: 'warnings', 'aria-label': texts.acts.mindThis }, warned.map(warning)),
  element('div', { class: 'actions' },
    button(texts.acts.cancel, () => finish(null)),
    button(texts.advanced.send, () => finish('send'), { class: 'primary', autofocus: true }))]);

const changedElsewhere = (before, now, who) => showDialog(
  texts.advanced.changedElsewhere, (finish) => [
    element('p', {}, texts.advanced.since),
    difference(before, now),
    element('p', { class: 'hint' }, who),
    element('p', {}, texts.advanced.takeOrGoOn),
    element('div', { class: 'actions' },
      button(texts.acts.cancel, () => finish(null), { autofocus: true }),
      button(texts.advanced.takeTheirs, () => finish('theirs')),
      button(texts.advanced.goOn, () => finish('mine')))]);

// Nobody gives a list away by a few quick clicks.
const accepts = (loss) => loss === null
  || question(loss.title, loss.text, [['send', texts.advanced.sendAllTheSame, 'danger']]);

// 'sent'; 'dropped' if the user took the room's list; or null if nothing was done.
export async function sendList(draft) {
  const { which, path } = draft;
  for (;;) {
    const { text: now } = await waitFor(seeList(which, path));
    if (now !== draft.base) {
      const who = await whoCould(await waitFor(changersOf(which, path)));
      const answer = await changedElsewhere(draft.base, now, who);
      if (!answer) return null;
      draft.settle(now, answer === 'theirs' ? now : draft.text);
      if (answer === 'theirs') return 'dropped';
    }
    if (!draft.isChanged) return 'dropped';
    const { loss, warned } = await waitFor(judged(draft, now));
    if (!(await review(now, draft.text, warned)) || !(await accepts(loss))) return null;
    // The user may take a while to review the changes.
    const seen = await waitFor(seeList(which, path));
    if (seen.text === now && await waitFor(setIfSame(which, path, draft.text, seen))) break;
  }
  draft.settle(await waitFor(api.readList(which, path)).catch(() => draft.text));
  return 'sent';
}
