// Signs in a name that can't be seen, or that turn the text around them. By these a name can look
// like another one, so they are shown.

import { texts } from '../language/language.js';
import { INVISIBLE_SIGNS } from '../tables/invisible_signs.js';

// Controls, formatting signs, blanks other than a space, and letters without a shape. A joiner is
// left alone where it belongs: after signs such as emojis, and in scripts that need it. So is what
// chooses a form of an emoji or of a Chinese sign.
const JOINS = '\\p{Extended_Pictographic}\\p{Emoji_Modifier}\\p{M}\\p{Script=Arabic}';
const JOINERS = `(?<!(?![\\u0300-\\u036f])[${JOINS}])[\\u200c\\u200d]`;
const CHOSEN = '(?<![\\p{Extended_Pictographic}\\p{Script=Han}])';
const SELECTORS = `${CHOSEN}[${INVISIBLE_SIGNS.selectors}](?!\\u20e3)`;
const FORMAT = '(?![\\u200c\\u200d])[\\p{Cc}\\p{Cf}\\p{Zl}\\p{Zp}]';
const UNSEEN = `[${INVISIBLE_SIGNS.unseen}${INVISIBLE_SIGNS.unassigned}]`;
const BLANKS = `[${INVISIBLE_SIGNS.blanks}]|^ +| +$`;
const SIGNS = new RegExp([JOINERS, SELECTORS, FORMAT, UNSEEN, BLANKS].join('|'), 'gu');

const codeOf = (sign) => (sign.startsWith(' ') ? texts.lists.space
  : `U+${sign.codePointAt(0).toString(16).toUpperCase().padStart(4, '0')}`);

// The name in pieces: {text}, or {code} for a sign.
export function piecesOf(name) {
  const pieces = [];
  let at = 0;
  for (const { 0: sign, index } of name.matchAll(SIGNS)) {
    if (index > at) pieces.push({ text: name.slice(at, index) });
    pieces.push({ code: codeOf(sign) });
    at = index + sign.length;
  }
  if (at < name.length) pieces.push({ text: name.slice(at) });
  return pieces;
}

// The name as text, with each sign as [U+202E].
export const marked = (name) =>
  piecesOf(name).map(({ text, code }) => text ?? `[${code}]`).join('');
