// Tabs that work with a screen reader and with the keyboard.

import { element, freshId } from './dom.js';

// Two tabs with arrow keys between them. 'draw' fills the panel of the tab that is shown.
export function tabs(names, label, draw) {
  const panel = element('div', { role: 'tabpanel', id: freshId('panel') });
  const made = names.map((name) => element('button', {
    type: 'button', role: 'tab', id: freshId('tab'), 'aria-controls': panel.id,
    onclick: () => show(name),
  }, name));
  const show = (name) => {
    made.forEach((tab) => {
      const isShown = tab.textContent === name;
      tab.setAttribute('aria-selected', String(isShown));
      tab.tabIndex = isShown ? 0 : -1;
      if (isShown) panel.setAttribute('aria-labelledby', tab.id);
    });
    draw(name, panel);
  };
  const strip = element('div', { role: 'tablist', 'aria-label': label }, made);
  strip.addEventListener('keydown', (event) => {
    if (event.key !== 'ArrowLeft' && event.key !== 'ArrowRight') return;
    const other = made.find((tab) => tab.tabIndex < 0);
    show(other.textContent);
    other.focus();
  });
  return { strip, panel, show };
}
