// Asks before who has access is changed, and sends it.

import { texts } from '../language/language.js';
import { button, element } from '../ui/dom.js';
import { clearDone, showDialog, tell, tellFault, waitFor } from '../ui/messages.js';
import { followOutcome } from './consequences.js';
import { changersOf } from '../net/door.js';
import { whoCould } from '../ui/who_changed.js';
import { lookingLine } from '../ui/progress.js';
import { asWork } from '../ui/working.js';
import { placeName } from './access_words.js';
import { speakOutcome, tellOutcome } from './outcome_view.js';
import { sendAll } from './passage.js';
import { sentenceOf } from '../text/words.js';
import { isListFault, isUnsaid, noAnswerWords } from '../text/would_words.js';

const stays = (paths) => texts.access.wayStays(paths.map(placeName));

// What is said where it wasn't done: of a line that was to be added, or that was to go.
const wordsFor = ({ isAdded = false }) => (isAdded
  ? { changed: texts.access.notAdded, failed: texts.access.notAddedAt }
  : { changed: texts.access.lineChanged, failed: texts.access.lineStays });

// What is offered further down, and lines that only let somebody pass, are changed after the list
// was sent, each by itself.
async function dropAll(leftovers, looking) {
  for (const step of leftovers) {
    try {
      const { done } = await sendAll([step]);
      if (done) looking.changed(step.path, step.next);
      else tell('bad', wordsFor(step).changed(placeName(step.path)));
    } catch (fault) {
      tell('bad', `${wordsFor(step).failed(placeName(step.path))} ${sentenceOf(fault)}`);
    }
  }
}

// The button that sends what locks me out says so.
function tellDanger(send, { words, allTheSame }, { lock }) {
  send.textContent = lock === null ? words : allTheSame;
  send.className = lock === null ? 'primary' : 'danger';
}

// Sends a list with what was chosen beside it. Returns 'sent' or 'not sent', and tells why not.
export async function deliver(state, next, told) {
  const main = { path: state.path, before: state.text, next };
  clearDone();
  try {
    const { done, left, changed } = await waitFor(asWork(sendAll([...told.ways(), main])));
    if (done) await waitFor(asWork(dropAll(told.left(), state.looking)));
    else {
      const who = await whoCould(await waitFor(changersOf('dacl', changed)));
      tell('bad', `${texts.access.changedMeanwhile} ${who}`);
    }
    if (left.length > 0) tell('bad', stays(left));
    return done ? 'sent' : 'not sent';
  } catch (fault) {
    tellFault(fault);
    if (fault.left?.length > 0) tell('bad', stays(fault.left));
    else if (fault.taken > 0) tell('bad', texts.access.takenBack);
    return 'not sent';
  }
}

// What comes of a list, drawn as it is seen. Nothing is sent before all further down was looked at,
// or somebody stopped that: 'send' is the button that it waits for.
export class Told {
  constructor(state, subject, send, again) {
    this.state = state;
    this.subject = subject;
    this.send = send;
    this.ticks = new Map();
    this.told = null;
    this.text = null;
    this.line = lookingLine(state.looking, again);
    this.box = element('div', {});
    this.shown = element('div', { class: 'told' }, this.box, this.line.shown);
  }

  draw(outcome, isBusy) {
    const told = tellOutcome(this.state, outcome, this.subject, this.ticks);
    // What says the same stays, with what has the focus in it.
    if (this.text !== told.shown.textContent) {
      this.told = told;
      this.text = told.shown.textContent;
      this.box.replaceChildren(told.shown);
    }
    this.box.firstChild.setAttribute('aria-busy', String(isBusy));
    if (!isBusy) speakOutcome(this.box);
    this.line.draw(isBusy);
    this.send.disabled = isBusy;
  }

  // It can't be said what would come of it; then it may be sent all the same, without what would
  // be offered beside it. What the room would refuse isn't sent.
  fail(fault, again) {
    const isRefused = isListFault(fault);
    const anew = () => {
      this.state.looking.goOn();
      again();
    };
    this.told = { ways: () => [], left: () => [] };
    this.text = null;
    this.box.replaceChildren(element('div', { class: 'outcome', 'aria-busy': 'false' },
      element('ul', { class: 'warnings', 'aria-label': texts.acts.mindThis },
        element('li', { class: isRefused ? 'bad' : 'unsure' }, noAnswerWords(fault))),
      isRefused ? null : button(texts.acts.anew, anew, { class: 'small' })));
    this.line.draw(false);
    this.send.disabled = isRefused;
  }
}

const answerTo = (title, shown, cancel, send) => showDialog(title, (finish) => {
  cancel.addEventListener('click', () => finish(null));
  send.addEventListener('click', () => finish('send'));
  (send.className === 'danger' || send.disabled ? cancel : send).autofocus = true;
  return [...shown, element('div', { class: 'actions' }, cancel, send)];
}, 'sharing');

// A dialog that says what comes of the list that 'nextOf' makes, and sends it. 'words' are {title,
// words, allTheSame, sentence, subject, more}: the button has these words, or others where the
// caller loses the list 'all the same'; 'more' makes what stands in it beside, and is given what
// draws the dialog anew. Returns 'sent', 'not sent', or null if it was cancelled.
export async function confirm(state, nextOf, words) {
  const { title, subject = null, more = () => null } = words;
  let [isOpen, looks, next] = [true, 0, null];
  const said = element('p', {});
  const [cancel, send] = [texts.acts.cancel, words.words].map((text) => button(text, () => {}));
  // A look that is slow isn't drawn after a later one.
  const look = (draw) => {
    looks += 1;
    const mine = looks;
    next = nextOf();
    return followOutcome(state, next, subject, () => isOpen && mine === looks, draw);
  };
  const draw = (outcome, isBusy) => {
    said.textContent = words.sentence(outcome);
    tellDanger(send, words, outcome);
    told.draw(outcome, isBusy);
  };
  const anew = () => {
    send.disabled = true;
    look(draw).catch(fail);
  };
  const fail = (fault) => {
    if (!isUnsaid(fault)) tellFault(fault);
    said.textContent = words.sentence({ changes: [] });
    tellDanger(send, words, { lock: isListFault(fault) ? null : fault });
    told.fail(fault, anew);
  };
  const told = new Told(state, subject, send, anew);
  await waitFor(new Promise((resolve, reject) => {
    look((...drawn) => resolve(draw(...drawn))).catch((fault) =>
      (isUnsaid(fault) ? resolve(fail(fault)) : reject(fault)));
  }));
  const beside = more(anew);
  const answer = await answerTo(title, [said, ...beside === null ? [] : [beside], told.shown],
    cancel, send);
  isOpen = false;
  return answer === null ? null : deliver(state, next, told.told);
}
