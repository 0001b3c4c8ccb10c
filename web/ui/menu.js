// A menu of what can be done with something, opened by its button.

import { button, element, icon } from './dom.js';

const GAP = 4;

// Below the button, or above it where there is no space, and inside the window.
function putBeside(menu, opener) {
  const at = opener.getBoundingClientRect();
  const isBelow = at.bottom + GAP + menu.offsetHeight <= window.innerHeight;
  menu.style.top = `${isBelow ? at.bottom + GAP : Math.max(0, at.top - GAP - menu.offsetHeight)}px`;
  menu.style.left = `${Math.max(GAP, at.right - menu.offsetWidth)}px`;
}

// The item that gets the focus by a key, or null.
function itemFor(key, items, now) {
  const last = items.length - 1;
  const index = {
    ArrowDown: now === last ? 0 : now + 1, ArrowUp: now <= 0 ? last : now - 1, Home: 0, End: last,
  }[key];
  return index === undefined ? null : items[index];
}

// 'isChosen' says which one of several holds now, 'isBarred' that it can only say why it can't.
function itemOf({ words, does, href, look = null, lang = null, isChosen = null, isBarred = false },
  close) {
  const role = isChosen === null ? 'menuitem' : 'menuitemradio';
  return element(href ? 'a' : 'button', {
    role, tabindex: '-1', class: look, lang, href: href ?? null, type: href ? null : 'button',
    'aria-checked': isChosen === null ? null : String(isChosen),
    'aria-disabled': isBarred ? 'true' : null,
    onclick: () => {
      close();
      does?.();
    },
  }, words, isChosen ? icon('check') : null);
}

function open(opener, label, entries) {
  const close = (isBack = false) => {
    menu.remove();
    opener.setAttribute('aria-expanded', 'false');
    for (const [target, kind, listen] of listeners) target.removeEventListener(kind, listen, true);
    if (isBack) opener.focus({ preventScroll: true });
  };
  const items = entries.map((entry) => itemOf(entry, () => close(true)));
  const menu = element('div', { class: 'menu', role: 'menu', 'aria-label': label }, items);
  const follow = () => (opener.isConnected ? putBeside(menu, opener) : close());
  /** @type {[EventTarget, string, (event: any) => void][]} */
  const listeners = [
    [document, 'pointerdown', ({ target }) => {
      if (!menu.contains(target) && !opener.contains(target)) close();
    }],
    [document, 'scroll', follow], [window, 'resize', follow], [window, 'hashchange', () => close()],
  ];
  menu.addEventListener('keydown', (event) => {
    const next = itemFor(event.key, items, items.indexOf(document.activeElement));
    if (event.key === 'Escape' || event.key === 'Tab') close(true);
    else next?.focus();
    if (event.key === 'Escape' || next) event.preventDefault();
  });
  for (const [target, kind, listen] of listeners) target.addEventListener(kind, listen, true);
  document.body.append(menu);
  putBeside(menu, opener);
  opener.setAttribute('aria-expanded', 'true');
  items[0].focus({ preventScroll: true });
  return close;
}

// A button that opens a menu of entries {words, does or href, look, lang, isChosen, isBarred}. A
// function makes them when it is pressed. 'mark' is the button's picture.
export function menuButton(label, entries,
  { mark = 'more', ...properties } = /** @type {Record<string, any>} */ ({})) {
  let close = null;
  const opener = button(icon(mark), () => {
    if (opener.getAttribute('aria-expanded') === 'true') close();
    else close = open(opener, label, typeof entries === 'function' ? entries() : entries);
  }, { 'aria-label': label, 'aria-haspopup': 'menu', 'aria-expanded': 'false', ...properties });
  return opener;
}
