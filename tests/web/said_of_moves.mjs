// What a move says, against what came of it: who may then read, change, remove or manage something,
// or no longer. {unsaid, wrong} of one move; see said.mjs.

const RIGHTS = { read: 'r', change: 'w', 'remove or move away': 'd', manage: 'C' };
const SENTENCE = new RegExp(`^(.*) (may then|can then no longer) (${
  `(?:(?:${Object.keys(RIGHTS).join('|')})(?:, | and | or | ))+`})(.*?)${
  '( and what is in it, apart from what is protected)?'}\\.$`);
const HAS = { r: /r/, w: /[wa]/, C: /[Co]/ };
const listed = (text) => text.split(/, | and /);

// {isGain, names, letters, places} of each sentence; a place is a path from the folder of what is
// moved, or null where it is one of several that are only counted.
export function movesIn(lines) {
  return lines.flatMap((line) => {
    const said = SENTENCE.exec(line);
    if (!said) return [];
    const [, who, verb, rights, places] = said;
    return [{ isGain: verb === 'may then', text: line, names: who,
      letters: Object.keys(RIGHTS).filter((words) => rights.includes(words))
        .map((words) => RIGHTS[words]),
      places: listed(places).map((one) => (/^\d+ others?$/.test(one) ? null
        : one.replace(/^some of what is in /, ''))) }];
  });
}

const lettersOf = ({ letters, removes }) => [...Object.keys(HAS).filter((one) =>
  HAS[one].test(letters)), ...removes ? ['d'] : []];
const isIn = (path, folder) => path === folder || path.startsWith(`${folder}/`);
const minus = (one, other) => one.filter((each) => !other.includes(each));

// 'paths' are the objects that were moved, as [from, to], and 'isKnown' says by 'to' whether it can
// be said what comes of it; 'root' is the folder that they were in. 'covers(who, caller)' says
// whether a sentence's names mean a caller, and 'isJudged' of which names it can be said at all.
export function judgeMove(claims, { paths, root, isKnown, isJudged, callers, covers, before,
  after }) {
  const found = { unsaid: [], wrong: [] };
  const told = new Set();
  for (const caller of callers) {
    for (const [from, to] of paths) {
      const [had, has] = [before, after].map((state) => lettersOf(state.at(to, caller)));
      for (const [isGain, letters] of [[true, minus(has, had)], [false, minus(had, has)]]) {
        for (const letter of letters) {
          const those = claims.filter((one) => one.isGain === isGain && one.letters.includes(letter)
            && covers(one.names, caller)
            && one.places.some((place) => place === null || isIn(from, `${root}/${place}`)));
          those.forEach((one) => told.add(`${claims.indexOf(one)} ${caller.key}`));
          // Whoever may clear a folder may remove what is in it.
          if (those.length === 0 && isKnown(to)) {
            found.unsaid.push(`${caller.name} ${caller.groups} ${isGain ? 'gains' : 'loses'} ${
              letter} at ${to}`);
          }
        }
      }
    }
  }
  claims.forEach((claim, at) => {
    if (isJudged(claim.names) && !callers.some((caller) => told.has(`${at} ${caller.key}`))) {
      found.wrong.push(`isn’t so: ${claim.text}`);
    }
  });
  return found;
}
