// What comes back of an earlier night, against what came of it. The night is how it was before; who
// could then not read something and may now is told, or who may read and remove what comes back.
// What is there still is replaced or not, and keeps its access.

import { namesIn } from './said.mjs';

const OPENS = /^(.*) couldn’t read .* of it that night, and may as the folder is now\.$/;
const PERHAPS_OPENS = new RegExp('^Perhaps (.*) couldn’t read .* of it that night, which depends '
  + 'on whose it was, and may as the folder is now\\.$');
const REMOVES = /^(.*) may remove it or move it away, whoever reads it\.$/m;
const THEN = /^ *The people of that night: (.*)$/m;
const MISSING = /(\d+) objects? that (?:is|are) missing/;
const THERE = /(\d+) documents? (?:is|are) still there: if (?:it is|they are) replaced/;

// What isn't so of how many come back, and of what was there: 'kept' is {path, isSame, isListSame}
// of each document, of which 'isSame' says that it is as it has to be.
function keptWrongly({ text, missing, kept, isAllSeen }) {
  const saidOf = (pattern) => Number(pattern.exec(text)?.[1] ?? 0);
  const counts = [[MISSING, missing], [THERE, kept]].filter(([pattern, those]) =>
    isAllSeen && saidOf(pattern) !== those.length);
  return [...counts.map(([, those]) => `it isn’t ${those.length} in: ${text}`),
    ...kept.filter(({ isSame }) => !isSame).map(({ path }) => `${path} has other bytes`),
    ...kept.filter(({ isListSame }) => !isListSame).map(({ path }) => `${path} has another list`)];
}

// Adds to 'found' what is unsaid of those of whom something holds, and what is said and isn't so.
function judgesOf(found, path, { unjudged, callers, covers }) {
  const isOther = (name) => unjudged.includes(name.toLowerCase()) || /^\d+ others?$/.test(name);
  const isSaid = (names, caller) => names.some((one) => covers(one, caller));
  const unsaid = (what, names, holds) => {
    const those = callers.filter(holds);
    found.differ += those.length;
    found.unsaid.push(...those.filter((caller) => !isSaid(names, caller))
      .map(({ name, groups }) => `${name} ${groups} ${what} ${path}`));
  };
  const wrong = (what, names, isSo) => found.wrong.push(...names.flatMap(namesIn)
    .filter((one) => !isOther(one)
      && !callers.some((caller) => covers(one, caller) && isSo(caller)))
    .map((one) => `${one} ${what} ${path}`));
  return { unsaid, wrong };
}

// {unsaid, wrong} of one: 'who' is whose choice it was, 'tops' are what comes back and isn't in
// something else that does, 'callers' are others than me, and of those 'unjudged' it isn't asked
// whether what is said is so.
export function judgeReturned(shown, { paths, before, after, ...asked }) {
  const { path, tops, who, text, warnings, kept } = shown;
  const { callers } = asked;
  const found = { unsaid: [], wrong: keptWrongly(shown), differ: 0,
    compared: callers.length * (paths.length + kept.length) };
  const { unsaid, wrong } = judgesOf(found, path, asked);
  const namedBy = (pattern) => warnings.flatMap((one) => pattern.exec(one)?.[1] ?? []);
  const reads = (state, one) => (caller) => state.at(one, caller).letters.includes('r');
  const may = (what, pattern, holds) => {
    const names = [pattern.exec(text)?.[1] ?? []].flat();
    unsaid(what, names, holds);
    wrong(what, names, holds);
  };
  if (who === 'now') {
    const gains = (caller) => paths.some((one) => reads(after, one)(caller)
      && !reads(before, one)(caller));
    const isSomeUnknown = text.includes('You can’t see who could read');
    const [sure, perhaps] = [OPENS, PERHAPS_OPENS].map(namedBy);
    unsaid('may then read', [...sure, ...perhaps], (one) => !isSomeUnknown && gains(one));
    wrong('may then read', sure, gains);
    // Nobody is told whose it was: so it is so at least that they may read it now.
    wrong('may then read', perhaps, (caller) => paths.some((one) => reads(after, one)(caller)));
  } else if (who === 'then') {
    may('may read as then', THEN, (caller) => tops.some((one) => reads(after, one)(caller)));
  } else {
    found.wrong.push(...callers.filter((one) => paths.some((each) => reads(after, each)(one)))
      .map(({ name, groups }) => `${name} ${groups} may read ${path} too`));
    may('may remove', REMOVES, (caller) => tops.some((one) => after.at(one, caller).removes));
  }
  return found;
}
