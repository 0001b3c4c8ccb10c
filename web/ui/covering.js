// What stays at an edge of the window hides nothing that has the focus: so much of the window is
// told to be covered, and the style leaves it free when something is scrolled to. When it goes, the
// focus isn't lost with it.

const [ABOVE, BELOW] = ['--covered-above', '--covered-below'];
// What had the focus before it came here.
let before = null;

// What has the focus already, and is in sight, comes out from below what has just come.
function uncover(boxes, below) {
  const one = document.activeElement;
  if (!(one instanceof HTMLElement) || one.tabIndex < 0) return;
  if (boxes.some((box) => box.contains(one))) return;
  const { top, bottom } = one.getBoundingClientRect();
  if (bottom > innerHeight - below && top < innerHeight) one.scrollIntoView({ block: 'nearest' });
}

// 'boxes' stay at the top or at the bottom, whichever the style says.
export function keepClear(...boxes) {
  const measure = () => {
    const covered = { [ABOVE]: 0, [BELOW]: 0 };
    for (const box of boxes) {
      const { top, bottom, height } = box.getBoundingClientRect();
      const isAbove = top < innerHeight - bottom;
      const [edge, size] = isAbove ? [ABOVE, bottom] : [BELOW, innerHeight - top];
      if (height > 0) covered[edge] = Math.max(covered[edge], size);
    }
    for (const [edge, size] of Object.entries(covered)) {
      document.documentElement.style.setProperty(edge, `${Math.ceil(size)}px`);
    }
    if (covered[BELOW] > 0) uncover(boxes, covered[BELOW]);
  };
  const observer = new ResizeObserver(measure);
  for (const box of boxes) {
    observer.observe(box);
    box.addEventListener('focusin', ({ relatedTarget: from }) => {
      if (from && !boxes.some((one) => one.contains(from))) before = from;
    });
  }
  window.addEventListener('resize', measure);
}

// Takes away what stays there. The focus goes back to where it was.
export function putAway(box) {
  const hasFocus = box.contains(document.activeElement);
  box.remove();
  if (!hasFocus) return;
  if (before?.checkVisibility()) before.focus();
  if (document.activeElement === document.body) {
    document.querySelector('main').focus({ preventScroll: true });
  }
}

// The same by itself after so many milliseconds, but not while somebody looks at it.
export function putAwayLater(box, after) {
  setTimeout(() => {
    if (box.matches(':hover, :focus-within')) putAwayLater(box, after);
    else putAway(box);
  }, after);
}
