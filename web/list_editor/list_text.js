// A list as text, with line numbers, and with its fault beside the line that has it.

import { element, freshId } from '../ui/dom.js';
import { linesOf } from '../acl/entries.js';
import { texts } from '../language/language.js';
import { faultWords } from '../text/words.js';

function numbers(draft) {
  const count = Math.max(linesOf(draft.text).length, draft.fault?.line ?? 1);
  return Array.from({ length: count }, (_, index) => element('span',
    { class: draft.fault?.line === index + 1 ? 'wrong' : null }, String(index + 1)));
}

// Draws the text into 'body'. Returns a function that shows its fault and, given true, moves there.
export function drawText(draft, body) {
  const gutter = element('div', { class: 'gutter', 'aria-hidden': 'true' });
  const told = element('p', { class: 'fault', id: freshId('fault'), role: 'status' });
  const area = element('textarea', {
    'aria-label': texts.advanced.asText, 'aria-describedby': told.id, spellcheck: 'false',
    wrap: 'off', autocapitalize: 'none', autocomplete: 'off', readonly: !draft.mayChange,
    dir: 'ltr',
  });
  const show = (goThere = false) => {
    if (area.value !== draft.text) area.value = draft.text;
    gutter.replaceChildren(...numbers(draft));
    area.rows = Math.max(6, linesOf(draft.text).length + 1);
    area.setAttribute('aria-invalid', String(draft.fault !== null));
    told.textContent = draft.fault
      ? texts.advanced.line(draft.fault.line, faultWords(draft.fault.code)) : '';
    if (goThere) select(area, draft.fault.line);
  };
  area.addEventListener('input', () => {
    draft.setText(area.value);
    show();
  });
  body.replaceChildren(element('div', { class: 'text' }, gutter, area), told,
    element('p', { class: 'hint' },
      texts.advanced.form(element('code', {}, texts.advanced.parts))));
  show();
  return show;
}

function select(area, line) {
  const before = area.value.split('\n').slice(0, line - 1).join('\n').length;
  const begin = line === 1 ? 0 : before + 1;
  const end = area.value.indexOf('\n', begin);
  area.focus();
  area.setSelectionRange(begin, end < 0 ? area.value.length : end);
}
