// Which day it is on the machine, whose nightly run ends accesses: by what its front end said last,
// which a browser elsewhere, or with another clock, can't know.

const FORM = /^\d{4}-\d\d-\d\dT\d\d:\d\d:\d\d([+-])(\d\d):(\d\d)$/;

// How far that machine's clock and zone are ahead of this one's UTC, in milliseconds.
let ahead = null;

// The field Room-Time, as 2027-05-31T23:30:00+02:00; without it the browser's day counts.
export function heard(text) {
  const parts = FORM.exec(text ?? '');
  if (parts === null || Number.isNaN(Date.parse(parts[0]))) return;
  const minutes = Number(`${parts[1]}1`) * (60 * Number(parts[2]) + Number(parts[3]));
  ahead = Date.parse(parts[0]) + minutes * 60_000 - Date.now();
}

// As 2027-05-31.
export function today() {
  const now = Date.now();
  const zone = -60_000 * new Date(now).getTimezoneOffset();
  return new Date(now + (ahead ?? zone)).toISOString().slice(0, 10);
}
