// Asks which of the ready-made lists it shall be, and for the names of its groups or its user.

import { button, element, field, freshId } from '../ui/dom.js';
import { fullName, people } from '../net/directory.js';
import { isolated } from '../text/words.js';
import { isName } from '../acl/entries.js';
import { texts } from '../language/language.js';
import { showDialog } from '../ui/messages.js';
import { READY, readyText } from './ready_lists.js';
import { faultWords } from '../text/words.js';

function choices(onPick) {
  const made = READY.map((ready, index) => {
    const box = element('input', {
      type: 'radio', name: 'ready', value: String(index), checked: index === 0,
    });
    const title = element('span', { class: 'title' });
    const sentence = element('span', { class: 'hint' });
    box.addEventListener('change', () => onPick(ready));
    const shown = element('label', { class: 'choice' }, box, title, sentence);
    return { ready, title, sentence, shown };
  });
  const tell = (me, namesOf) => made.forEach(({ ready, title, sentence }) => {
    const names = namesOf(ready);
    title.textContent = ready.title(...names);
    sentence.textContent = ready.sentence(me, ...names);
  });
  return { tell, shown: element('fieldset', { class: 'choices' },
    element('legend', { class: 'unseen' }, texts.access.whichList),
    made.map(({ shown }) => shown)) };
}

// The names that a field offers, as far as they are known.
function offered(known, isUser) {
  const names = isUser ? known?.users ?? [] : Object.keys(known?.groups ?? {});
  return element('datalist', { id: freshId('names') }, names.map((name) => element('option',
    { value: name, label: isUser ? fullName(known, name) : null })));
}

// The fields for the names of a list. 'typed' has what was typed for each example.
function nameFields(ready, typed, known, onInput) {
  const made = ready.asks.map(({ label, example, isUser = false }) => {
    const names = offered(known, isUser);
    const input = element('input', {
      type: 'text', autocomplete: 'off', autocapitalize: 'none', spellcheck: 'false',
      value: typed.get(example) ?? '', list: names.id,
    });
    input.addEventListener('input', () => {
      typed.set(example, input.value);
      onInput();
    });
    const box = field(label, input);
    box.append(names);
    return { input, box };
  });
  // The names, or null where one is none, which is told then.
  const take = () => {
    for (const { input, box } of made) {
      const fits = isName(input.value);
      input.setAttribute('aria-invalid', String(!fits));
      box.querySelector('.hint').textContent = fits ? '' : faultWords('A3');
    }
    const wrong = made.find(({ input }) => !isName(input.value));
    wrong?.input.focus();
    return wrong ? null : made.map(({ input }) => input.value);
  };
  return { boxes: made.map(({ box }) => box), take };
}

// Returns the text of a list, or null.
export async function pickReady(me) {
  const known = await people();
  const shown = isolated(fullName(known, me));
  return showDialog(texts.advanced.ready, (finish) => {
    const typed = new Map();
    const namesOf = ({ asks }) => asks.map(({ example }) =>
      (isName(typed.get(example) ?? '') ? typed.get(example) : example));
    const place = element('div', { class: 'names' });
    let [ready, fields] = [null, null];
    const { tell, shown: lists } = choices((picked) => pick(picked));
    const pick = (picked) => {
      ready = picked;
      fields = nameFields(ready, typed, known, () => tell(shown, namesOf));
      place.replaceChildren(...fields.boxes);
    };
    pick(READY[0]);
    tell(shown, namesOf);
    const take = (event) => {
      event.preventDefault();
      const names = fields.take();
      if (names) finish(readyText(ready, me, names));
    };
    return [element('form', { onsubmit: take },
      element('p', {}, texts.access.replaces),
      lists, place, element('div', { class: 'actions' },
        button(texts.acts.cancel, () => finish(null)),
        element('button', { type: 'submit', class: 'primary' }, texts.access.takeList)))];
  }, 'ready');
}
