// Who comes back by the browser's own button finds what was looked for, and the focus at the link
// that led away. Both are kept with that step of the way back, and with nothing else.

export const kept = () => history.state ?? {};
export const keep = (more) => history.replaceState({ ...kept(), ...more }, '');
export const keepNothing = () => history.replaceState(null, '');

// A press that leads to another place of the page.
export function noteLeft({ target }) {
  const link = target instanceof Element && target.closest('a[href^="#"]');
  if (link) keep({ left: link.getAttribute('href') });
}

// Once the link is there again, if the focus is nowhere else by then.
export function focusLeft(box) {
  const { left } = kept();
  if (!left || !document.activeElement?.matches('body, main')) return;
  [...box.querySelectorAll('a')].find((one) => one.getAttribute('href') === left
    && one.checkVisibility())?.focus();
}
