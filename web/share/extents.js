// What one caller can do at places, by what the program answered. Nothing here draws or asks.

import { ANY_OTHER } from '../acl/callers.js';
import { lettersIn } from '../acl/levels.js';
import { UNNAMED, imagined } from '../acl/question.js';
import { texts } from '../language/language.js';
import { parentOf } from '../net/api.js';
import { isolated } from '../text/words.js';

// The caller who has this name, with the groups that are known.
export const callerOf = ({ callers, asked }, user) => callers.find((one) => one.user === user
  && (asked.isExact || one.groups.length === 0)) ?? callers.find((one) =>
  one.user === null && one.key === ANY_OTHER);

const isWhole = (level) => ['remove', 'manage'].includes(level);

// Whether somebody has more than their level.
function isBeyond({ level, all }) {
  const letters = lettersIn(level);
  return all.some(({ mask }) => [...mask].some((one) => !letters.includes(one)));
}

// What somebody can do at an object, in words: also what they may remove beyond their level.
function extentWords(extent, kind) {
  const { level, it, inside } = extent;
  const removals = isWhole(level) ? [] : [it && 'it', inside && 'inside'].filter(Boolean);
  const words = removals.length > 0 && level === 'none'
    ? texts.outcome.keepsRemoving(removals) : texts.outcome.keeps(level, kind, removals);
  return isBeyond(extent) ? texts.outcome.withMore(words) : words;
}

const isBelow = (path, top) => path !== top && path.startsWith(top === '/' ? '/' : `${top}/`);

// Where somebody can do something, from the top down: [{path, kind, level, words}], without places
// at which it is the same as at the nearest one above. The first one always stands.
export function extentsAt(said, places, caller, side) {
  const told = [];
  for (const { path, kind } of places) {
    const extent = said.extentAt(path, kind, caller, side);
    if (extent === null) continue;
    const words = extentWords(extent, kind);
    const above = [...told].reverse().find((one) => isBelow(path, one.path));
    const [clears, hasMore] = [extent.inside || isWhole(extent.level), isBeyond(extent)];
    if (above === undefined || above.level !== extent.level || (above.kind === kind
      ? above.words !== words : (extent.it && !above.clears) || (hasMore && !above.hasMore))) {
      told.push({ path, kind, level: extent.level, words, clears, hasMore });
    }
  }
  return told;
}

// The nearest folder above that has a name.
const namedAbove = (path) => path.slice(0, path.indexOf(`/${UNNAMED}`)) || '/';

// These levels say of whoever makes something there what they may do with it.
const OWN_SAID = ['change', 'remove', 'manage'];

// What somebody owns that only follows its folder, where that gives them something else than what
// others have there, and the level doesn't say it: [{path, words}] with the folder's path.
export function ownedAt(said, nodes, caller, side) {
  const at = (path) => said.at(path, caller, side);
  const isLike = (one, path) => at(one)?.mask === at(path).mask
    && at(one)?.removes === at(path).removes;
  const isApart = ({ path }) => {
    const folder = imagined(parentOf(path));
    const level = said.extentAt(parentOf(path), 'folder', caller, side)?.level;
    return at(path) !== null && !isLike(folder.other, path)
      && !(OWN_SAID.includes(level) && isLike(folder.own, path));
  };
  const found = nodes.filter((one) => one.path.includes(UNNAMED) && caller.user !== null
    && one.object.owner === caller.user && isApart(one)).map(({ path, kind }) => (
    { path: namedAbove(path), words: extentWords(said.extentAt(path, kind, caller, side), kind) }));
  return [...new Map(found.map((one) => [`${one.path} ${one.words}`, one])).values()];
}

export const wordsAt = ({ path, words }) => texts.outcome.at(words, isolated(path));
