// A user's own password: the present one, and a new one twice.

import { texts } from '../language/language.js';
import { button, element, field } from '../ui/dom.js';
import { showDialog, tell, tellFault, waitFor } from '../ui/messages.js';

// nginx remembers a right password for ten seconds.
const FORGOTTEN = 11000;

const pause = (time) => new Promise((resolve) => { setTimeout(resolve, time); });

// A request with the new password in its address makes the browser keep that one, and nobody is
// asked. Some browsers prefer the one that they have as long as it is taken.
async function keepNew(user, password) {
  const ask = () => new Promise((resolve) => {
    const asking = new XMLHttpRequest();
    asking.open('GET', 'me', true, user, password);
    asking.onloadend = resolve;
    asking.send();
  });
  await ask();
  await pause(FORGOTTEN);
  await ask();
}

// A word or a sentence if it wasn't changed; nothing if it was.
async function change(old, made) {
  const reply = await waitFor(fetch('password', {
    method: 'POST', headers: { 'Content-Type': 'application/json' },
    body: JSON.stringify({ old, new: made }),
  })).catch(() => null);
  if (reply?.status === 204) return null;
  const said = await reply?.json().catch(() => null);
  const why = texts.account.why[said?.why];
  if (!why) tellFault({ status: reply?.status ?? 0, body: said ?? null });
  return why ?? (reply?.status === 429 ? texts.account.why.busy : texts.account.notChanged);
}

function typeAnew(input) {
  input.focus();
  input.select();
}

function askFor(user, title, hint) {
  const [old, made, again] = ['current', 'new', 'new'].map((one) => element('input',
    { type: 'password', autocomplete: `${one}-password`, required: true }));
  const fault = element('p', { class: 'wrong', role: 'alert' });
  return showDialog(title, (finish) => [element('form', {
    onsubmit: async (event) => {
      event.preventDefault();
      const chosen = made.value.normalize('NFC');
      fault.textContent = '';
      const why = made.value === again.value ? await change(old.value, chosen)
        : texts.account.differ;
      fault.textContent = why ?? '';
      if (why === null) finish(chosen);
      else typeAnew(why === texts.account.why.old ? old : made);
    },
  }, hint ? element('p', {}, hint) : null,
  element('input', { type: 'text', autocomplete: 'username', value: user, hidden: true }),
  field(texts.account.present, old),
  field(texts.account.fresh, made, texts.account.freshHint),
  field(texts.account.again, again), fault,
  element('div', { class: 'actions' }, button(texts.acts.cancel, () => finish(null)),
    element('button', { type: 'submit', class: 'primary' }, texts.account.changeIt)))]);
}

export async function changePassword(user) {
  const reply = await waitFor(fetch('password', { cache: 'no-store' })).catch(() => null);
  if (reply?.status !== 204) {
    const said = await reply?.json().catch(() => null);
    const elsewhere = texts.account.elsewhere[said?.why];
    if (elsewhere) tell('bad', elsewhere);
    else tellFault({ status: reply?.status ?? 0, body: said ?? null });
    return;
  }
  const chosen = await askFor(user, texts.account.change, null);
  if (chosen === null) return;
  tell('good', texts.account.changed);
  keepNew(user, chosen);
}

// Whoever has a first password can do nothing but this.
export async function changeFirst(user) {
  const chosen = await askFor(user, texts.account.chooseOwn, texts.account.first);
  if (chosen === null) return;
  tell('good', texts.account.firstChanged);
  await keepNew(user, chosen);
  location.reload();
}
