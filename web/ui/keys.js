// The arrow keys in the rows of a table, which is one stop of the Tab key.

const controlsOf = (row) =>
  [...row.querySelectorAll('[data-act]')].filter((one) => one.checkVisibility());

// The control for the same action in another row, or that row's name, or its first one.
function sameIn(row, act) {
  const controls = controlsOf(row);
  return controls.find((one) => one.dataset.act === act)
    ?? controls.find((one) => one.dataset.act === 'open') ?? controls[0];
}

// The next row in this direction in which anything can be done.
function rowBeside(row, step) {
  const next = row[step];
  return next === null || controlsOf(next).length > 0 ? next : rowBeside(next, step);
}

function beside(control, step) {
  const controls = controlsOf(control.closest('tr'));
  return controls[controls.indexOf(control) + step];
}

function target(control, key, rows) {
  const row = control.closest('tr');
  const other = {
    ArrowDown: () => rowBeside(row, 'nextElementSibling'),
    ArrowUp: () => rowBeside(row, 'previousElementSibling'),
    Home: () => rows.find((one) => controlsOf(one).length > 0),
    End: () => rows.findLast((one) => controlsOf(one).length > 0),
  }[key]?.();
  if (other) return sameIn(other, control.dataset.act);
  if (key === 'ArrowRight') return beside(control, 1);
  if (key === 'ArrowLeft') return beside(control, -1);
  return null;
}

// Up and down keep the column, left and right go through a row. 'shortcuts' are other keys, and
// what each does with a row.
export function rove(body, shortcuts = {}) {
  const stop = (control) => {
    for (const one of body.querySelectorAll('[data-act]')) one.tabIndex = one === control ? 0 : -1;
  };
  stop(body.querySelector('[data-act="open"]') ?? body.querySelector('[data-act]'));
  body.addEventListener('focusin', (event) => {
    if (event.target.dataset.act) stop(event.target);
  });
  body.addEventListener('keydown', (event) => {
    if (event.altKey || event.ctrlKey || event.metaKey || !event.target.dataset.act) return;
    const shortcut = shortcuts[event.key];
    shortcut?.(event.target.closest('tr'));
    const next = target(event.target, event.key, [...body.rows]);
    next?.focus();
    // What stays at an edge of the window may be over it.
    next?.scrollIntoView({ block: 'nearest' });
    if (shortcut || next) event.preventDefault();
  });
  // What the caption says of the arrow keys is heard at the heading already.
  body.closest('table')?.tHead?.addEventListener('keydown', (event) => {
    if (event.key !== 'ArrowDown') return;
    body.querySelector('[data-act][tabindex="0"]')?.focus();
    event.preventDefault();
  });
}
