// What further down doesn't only follow a folder's list: where that is, and who has what there.

import { isException } from '../acl/inherit.js';
import { RANKS, readLevels } from '../acl/levels.js';
import { texts } from '../language/language.js';
import { shortened, whoName } from '../text/who_is.js';
import { isolated } from '../text/words.js';
import { element } from '../ui/dom.js';
import { linkTo } from '../ui/links.js';
import { tellFault } from '../ui/messages.js';
import { lookingLine } from '../ui/progress.js';
import { belowOf } from './consequences.js';
import { unreadNames } from '../text/unread.js';

const MOST_NAMED = 4;
const rank = (level) => RANKS.indexOf(level);

// Whose lines stand there, those who may do the most first: 'Zoe Adams – can manage'.
function linesThere({ list, kind }, known) {
  const rows = readLevels(list, kind).rows.filter(({ inherited, level }) =>
    !inherited && level !== 'pass' && level !== 'clear');
  const levels = [...new Set(rows.map(({ level }) => level))]
    .sort((one, other) => rank(other) - rank(one));
  return levels.map((level) => texts.outcome.line(
    shortened(rows.filter((row) => row.level === level).map((row) => shownAs(known, row)),
      MOST_NAMED), texts.outcome.keeps(level, kind, [])));
}

function shownAs(known, { who, isGroup }) {
  const name = isolated(whoName(known, who, isGroup));
  return isGroup ? texts.access.theGroup(name) : name;
}

function wordsFor(lines, { list }) {
  if (!list.protect) return lines.length === 0 ? texts.access.linesThere : lines.join('; ');
  return lines.length === 0 ? texts.access.onlyTheseThere : texts.access.onlyTheseAre(lines);
}

function placeLine({ known }, node) {
  const { path } = node;
  return element('li', {}, element('a', { href: linkTo(path, 'access') }, isolated(path)),
    element('span', { class: 'hint' }, wordsFor(linesThere(node, known), node)));
}

// What is said of what was seen further down: its exceptions, and what can't be seen.
function exceptionsSeen(state) {
  const { nodes, unread, all } = belowOf(state);
  const found = nodes.filter(isException);
  const follows = found.length + unread.length > 0 ? texts.access.restFollows
    : texts.access.allFollows;
  const hints = [
    unread.length > 0 ? texts.access.unseen(unreadNames(unread, 3)) : null,
    all ? follows : null,
  ].filter(Boolean);
  return element('div', {}, element('ul', {}, found.map((one) => placeLine(state, one))),
    ...hints.map((words) => element('p', { class: 'hint' }, words)));
}

// What further down doesn't only follow this list, looked for when somebody wants to know.
export function exceptions(state) {
  const { kind, looking } = state;
  if (kind !== 'folder') return null;
  const seen = element('div', {});
  const draw = (isBusy) => {
    const next = exceptionsSeen(state);
    if (next.textContent !== seen.textContent) seen.replaceChildren(next);
    line.draw(isBusy);
  };
  const look = () => {
    belowOf(state);
    looking.follow(draw, () => made.open && made.isConnected).catch(tellFault);
  };
  const line = lookingLine(looking, look);
  const made = element('details', {}, element('summary', {}, texts.access.exceptions),
    element('div', { class: 'exceptions' }, seen, line.shown));
  made.addEventListener('toggle', () => made.open && look());
  return made;
}
