// A panel at the edge of the window for what takes long. Its head stays in sight: what is done, how
// much of it has ended, and its buttons. The page stays usable meanwhile.

import { texts } from '../language/language.js';
import { putAway, putAwayLater } from './covering.js';
import { button, element } from './dom.js';

const STAYS = 8000;
const PAUSE = 100;

// Draws the last of what comes soon after one another: of thousands each would be a picture.
function seldom(draw) {
  let [waits, last] = [false, null];
  const next = () => {
    waits = last !== null;
    if (!waits) return;
    const now = last;
    last = null;
    setTimeout(next, PAUSE);
    draw(...now);
  };
  return (...given) => {
    last = given;
    if (!waits) next();
  };
}

export function newPanel(label, title, ...buttons) {
  const count = element('span', { class: 'count' });
  const bar = element('progress', { max: '1', value: '0', 'aria-label': label });
  const told = element('p', { class: 'unseen', role: 'status' });
  const head = element('div', { class: 'head' }, element('div', { class: 'bar' },
    element('h2', {}, title), count, element('div', { class: 'actions' }, buttons)), bar, told);
  const rows = element('ul', {});
  // Folded to its head when another place is opened, so that it covers nothing there.
  const fold = (isFolded) => {
    rows.hidden = isFolded;
    more.textContent = isFolded ? texts.messages.details : texts.messages.fold;
    more.setAttribute('aria-expanded', String(!isFolded));
  };
  const more = button(texts.messages.fold, () => fold(!rows.hidden),
    { class: 'small plain', 'aria-expanded': 'true' });
  head.querySelector('.actions').prepend(more);
  const away = () => {
    if (panel.isConnected) fold(true);
    else window.removeEventListener('hashchange', away);
  };
  window.addEventListener('hashchange', away);
  const panel = element('section', { class: 'uploads', 'aria-label': label }, head, rows);
  document.getElementById('uploads').append(panel);

  // Numbers alone go to a screen reader at the end only.
  const show = seldom((done, whole) => {
    count.textContent = texts.messages.progress(done, whole);
    bar.value = whole === 0 ? 1 : done / whole;
    bar.hidden = done === whole;
  });
  // Whoever sees the rows needs no words for what went well.
  const say = (words, isShown = false) => {
    told.className = isShown ? 'hint' : 'unseen';
    told.textContent = words;
  };
  return { rows, show, say, leave: () => putAwayLater(panel, STAYS),
    remove: () => putAway(panel) };
}

// So many have ended before anybody could stop them.
const FEW = 20;
const NO_PANEL = { show: () => {}, remove: () => {}, isStopped: () => false,
  signal: new AbortController().signal };

// A panel for work on so many objects, which can be stopped: {show, remove, isStopped, signal}.
export function stoppable(title, count) {
  if (count <= FEW) return NO_PANEL;
  const stopping = new AbortController();
  const stop = button(texts.acts.stop, () => {
    stopping.abort();
    stop.disabled = true;
  }, { class: 'small' });
  const { signal } = stopping;
  return { ...newPanel(title, title, stop), isStopped: () => signal.aborted, signal };
}
