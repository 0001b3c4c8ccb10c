// Messages at a fixed place, and questions in a dialog.

import { texts } from '../language/language.js';
import { announce, regions } from './announce.js';
import { button, element, field, freshId, icon } from './dom.js';
import { askedFor } from './ask_whom.js';
import { putAway, putAwayLater } from './covering.js';
import { denialWords, sentenceOf } from '../text/words.js';

// How long good news is shown, in milliseconds.
const STAYS = 6000;

const place = () => document.getElementById('notices');

// Puts aside what was said to be done, as it may be so no longer.
export function clearDone() {
  for (const notice of place().querySelectorAll('.stays')) putAway(notice);
}

// 'kind' is 'good' or 'bad'. Good news without buttons disappears by itself, all other stays until
// it is closed.
export function tell(kind, text, ...actions) {
  const close = button(icon('cross'), () => putAway(notice),
    { class: 'plain', 'aria-label': texts.messages.close });
  const said = element('p', {}, text);
  const stays = kind === 'good' && actions.length > 0 ? ' stays' : '';
  if (stays) clearDone();
  const notice = element('div', {
    class: `notice ${kind}${stays}`, 'data-text': text,
  }, icon(kind === 'bad' ? 'cross' : 'check'), said, actions, close);
  place().append(notice);
  announce(kind, text);
  if (kind === 'good' && !stays) putAwayLater(notice, STAYS);
  return said;
}

// The entry that denies it, for those who want to know.
function reasonOf({ status, body, asked }) {
  const why = status === 403 ? denialWords(body, asked).why : null;
  return why === null ? [] : [element('details', {}, element('summary', {}, texts.acts.why),
    element('p', { class: 'hint' }, why))];
}

// Whom to ask is known a little later.
function nameManagers(said, fault) {
  if (fault.status !== 403 || !fault.body?.at) return;
  askedFor(fault.body.at).then((ask) => {
    said.textContent = sentenceOf(fault, ask);
    announce('bad', ask);
  }, () => {});
}

// What the door couldn't do is done 'again' by a press.
function remedyOf({ status, asked }, again) {
  if (status === 401) return [texts.messages.signInAgain, () => location.reload()];
  return again && asked?.isOfDoor && status !== 403 && status !== 404
    ? [texts.acts.anew, again] : null;
}

export function tellFault(fault, again = null) {
  if (fault.status === undefined) console.error(fault);
  const remedy = remedyOf(fault, again);
  const text = sentenceOf(fault);
  for (const old of place().querySelectorAll('.notice.bad')) {
    if (old.getAttribute('data-text') === text) old.remove();
  }
  const press = remedy === null ? [] : [button(remedy[0], () => {
    putAway(said.closest('.notice'));
    remedy[1]();
  }, { class: 'small' })];
  const said = tell('bad', text, ...press, ...reasonOf(fault));
  nameManagers(said, fault);
}

export function clearNotices() {
  for (const notice of place().querySelectorAll('.notice.bad, .stays')) notice.remove();
}

// In the place of what can't be shown at the moment.
export const notShown = (words, load) => element('div', { class: 'empty' }, element('p', {}, words),
  button(texts.acts.loadAgain, () => {
    clearNotices();
    load();
  }, { class: 'small' }));

// Says that the page waits for the room, as long as it does.
let waitingNotice = null;
export function showWaiting(isWaiting) {
  if (!isWaiting) waitingNotice?.remove();
  else if (!waitingNotice?.isConnected) {
    waitingNotice = element('div', { class: 'notice waits' }, icon('dash'),
      element('p', {}, texts.messages.waiting));
    place().append(waitingNotice);
    announce('good', texts.messages.waiting);
  }
}

// Shows a dialog, once the one before is closed. Returns what 'finish' was called with, or null if
// the dialog was closed.
let lastDialog = Promise.resolve(null);
export function showDialog(title, build, look = null) {
  lastDialog = lastDialog.catch(() => null).then(() => openDialog(title, build, look));
  return lastDialog;
}

function openDialog(title, build, look) {
  return new Promise((resolve) => {
    let answer = null;
    const heading = element('h2', { id: 'dialog-title' }, title);
    const dialog = element('dialog', { 'aria-labelledby': 'dialog-title', class: look });
    const finish = (value) => {
      answer = value;
      dialog.close();
    };
    dialog.append(heading, ...build(finish), ...regions());
    describe(dialog);
    dialog.addEventListener('close', () => {
      dialog.remove();
      resolve(answer);
    });
    document.body.append(dialog);
    dialog.showModal();
    const first = document.activeElement;
    if (first.matches('dialog input[type="text"]')) selectName(first);
  });
}

// What is said in it is read aloud with its title. (Of a list with a label that alone would be.)
function describe(dialog) {
  const said = [...dialog.querySelectorAll(
    ':scope > p, :scope > .told :is(.changes, .warnings) > li')]
    .filter((one) => one.closest('details') === null);
  for (const one of said) one.id ||= freshId('said');
  if (said.length > 0) dialog.setAttribute('aria-describedby', said.map(({ id }) => id).join(' '));
}

// What is in a field is there to be changed, except the extension of a document.
function selectName(input) {
  const dot = input.dataset.isFile === undefined ? -1 : input.value.lastIndexOf('.');
  input.setSelectionRange(0, dot > 0 ? dot : input.value.length);
}

// A question with one button for each answer: [['replace', 'Replace it', 'danger'], ..]. 'more' is
// shown above them.
export function question(title, text, answers, more = null) {
  return showDialog(title, (finish) => [
    element('p', {}, text), ...more === null ? [] : [more],
    element('div', { class: 'actions' },
      button(texts.acts.cancel, () => finish(null), { autofocus: true }),
      answers.map(([value, words, look]) => button(words, () => finish(value), { class: look }))),
  ]);
}

// A form of text fields: [{label, value, hint, wrong, isFile, fault: text => sentence or null}].
// 'wrong' is what was wrong with the value. Returns the values, or null.
export function form(title, fields, submit, ...more) {
  return showDialog(title, (finish) => {
    const inputs = fields.map((one) => element('input', {
      type: 'text', value: one.value ?? '', autocomplete: 'off', spellcheck: 'false', dir: 'auto',
      'data-is-file': one.isFile ?? null,
    }));
    const boxes = fields.map((one, index) => field(one.label, inputs[index], one.hint));
    fields.forEach((one, index) => {
      if (one.wrong) showFault(inputs[index], boxes[index], one.wrong, one.hint);
    });
    const send = (event) => {
      event.preventDefault();
      const faults = fields.map((one, index) => one.fault(inputs[index].value));
      faults.forEach(
        (fault, index) => showFault(inputs[index], boxes[index], fault, fields[index].hint));
      const wrong = faults.findIndex((fault) => fault !== null);
      if (wrong >= 0) inputs[wrong].focus();
      else finish(inputs.map((input) => input.value));
    };
    return [element('form', { onsubmit: send }, boxes, more, element('div', { class: 'actions' },
      button(texts.acts.cancel, () => finish(null)),
      element('button', { type: 'submit', class: 'primary' }, submit)))];
  });
}

function showFault(input, box, fault, hint) {
  box.classList.toggle('wrong', fault !== null);
  input.setAttribute('aria-invalid', String(fault !== null));
  box.querySelector('.hint').textContent = fault ?? hint ?? '';
}

// Shows a thin line at the top while a request runs; the page stays usable.
let waiting = 0;
export async function waitFor(promise) {
  waiting += 1;
  document.body.classList.add('waiting');
  try {
    return await promise;
  } finally {
    waiting -= 1;
    document.body.classList.toggle('waiting', waiting > 0);
  }
}
