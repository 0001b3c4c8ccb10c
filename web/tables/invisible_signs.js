// Signs of a name that can't be seen, beside controls, formatting signs and line ends, which
// Unicode has a category for: letters without a shape, and numbers that will have none; those that
// choose a form of the sign before them; blanks other than a space; and signs that turn the text
// around them. From the first brace on it is JSON, which rooms-admin reads too.

export const INVISIBLE_SIGNS = {
  "unseen": "\u034f\u115f\u1160\u17b4\u17b5\u180b-\u180d\u180f\u2065\u2800\u3164\uffa0",
  "unassigned": "\ufff0-\ufff8\udb40\udc00-\udb40\udcff\udb40\uddf0-\udb43\udfff",
  "selectors": "\ufe00-\ufe0f\udb40\udd00-\udb40\uddef",
  "blanks": "\u00a0\u1680\u2000-\u200a\u202f\u205f\u3000",
  "turning": "\u202a-\u202e\u2066-\u2069"
};
