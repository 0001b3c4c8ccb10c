// Who could remove by a new list what others made, and couldn't before, as the program answered it,
// and the sentences about that. Whoever may remove something may also rename it and move it away.

import { AFTER, BEFORE } from '../acl/answer.js';
import { shared, toTell } from '../acl/callers.js';
import { KEEP } from '../acl/levels.js';
import { imagined } from '../acl/question.js';
import { texts } from '../language/language.js';
import { partyName } from './parties.js';
import { shortened } from './who_is.js';
import { placeWords, sentenceOf } from './words.js';

const [MOST_NAMED, MOST_CALLERS] = [3, 6];
const isIn = (path, folder) => path.startsWith(folder === '/' ? '/' : `${folder}/`);

// The protected folders of these that aren't in another one.
function outermost(nodes) {
  const shut = nodes.filter(({ kind, list }) => kind === 'folder' && list?.protect);
  return shut.filter(({ path }) => !shut.some((one) => isIn(path, one.path)));
}

// For a list that is about to be sent: {inside, itself: callers, opens}; 'inside' is {callers,
// isSaid, shut: paths, all, fault} or null, of which 'isSaid' is false where only the right to put
// documents there says so. 'nodes' are what was seen below, 'all' whether that is all of it, and
// 'protect' whether the list is then cut off.
export function removalOf(said, { path, kind }, { nodes, all, protect, fault = null }) {
  const extent = (caller, side) => said.extentAt(path, kind, caller, side);
  const isManager = (caller) => extent(caller, AFTER).level === 'manage';
  // Of a group that manages it nothing may be told, and of one who is in it and doesn't it is.
  const saysOf = (caller) => new Set(['removes', ...isManager(caller) ? [] : ['only']]);
  const gaining = (word) => shared(toTell(said.callers.filter((caller) => {
    const [had, has] = [BEFORE, AFTER].map((side) => extent(caller, side));
    return has?.[word] && had !== null && !had[word];
  }).map((caller) => ({ caller, says: saysOf(caller) })))).map(({ caller }) => caller);
  const says = (caller) => said.at(path, caller).raw.includes('D')
    || Object.values(imagined(path)).some((one) => said.at(one, caller)?.raw.includes('d'));
  // Whether the caller may move this one away, or a folder on the way to it.
  const mayMove = (one, caller) => [one, ...nodes.filter((node) => isIn(one.path, node.path))]
    .some((node) => said.at(node.path, caller)?.removes);
  const callers = kind === 'folder' ? gaining('inside') : [];
  const shut = outermost(nodes).filter((one) => callers.some((each) => mayMove(one, each)));
  const told = shut.length > 0 ? callers : callers.filter((one) => !isManager(one));
  const inside = told.length === 0 ? null : { callers: told, all, fault,
    isSaid: told.some(says), shut: shut.map((one) => one.path) };
  const itself = path === '/' ? [] : gaining('it').filter((one) => !isManager(one));
  return { inside, itself, opens: inside !== null || (itself.length > 0 && !protect) };
}

const named = (callers, known) =>
  shortened(callers.map((one) => partyName(one, known)), MOST_CALLERS);

// How folders that have a list of their own are called, by one or several and by their names.
const PROTECTED = [texts.warnings.includesProtected,
  texts.warnings.includesSeveralProtected];

function shutWords(shut, call) {
  const [one, several] = call;
  const places = shut.slice(0, MOST_NAMED).map(placeWords);
  const more = shut.length - places.length;
  const all = more > 0 ? [...places, texts.lists.others(more)] : places;
  return (shut.length === 1 ? one : several)(all);
}

// The sentence about what is in a folder. 'call' names its protected folders.
export function insideWords({ callers, isSaid: said, shut }, call = PROTECTED, known = null) {
  const names = named(callers, known);
  return [(said ? texts.warnings.removes : texts.warnings.removesUnsaid)(names),
    ...shut.length > 0 ? [shutWords(shut, call)] : [],
    ...said ? [] : [texts.warnings.remedy(KEEP)]].join(' ');
}

const unseenWords = ({ fault }) => (fault ? `${texts.warnings.unseen} ${sentenceOf(fault)}`
  : texts.warnings.unseen);

// All the sentences, for somebody who edits the list itself: [{kind, text}].
export function removalWords(kind, { inside, itself, opens }, known = null) {
  const unsure = (text) => ({ kind: 'unsure', text });
  const ofItself = kind === 'folder' ? texts.warnings.removesFolder
    : texts.warnings.removesDocument;
  return [
    ...inside === null ? [] : [{ kind: inside.shut.length > 0 ? 'bad' : 'unsure',
      text: insideWords(inside, PROTECTED, known) }],
    ...inside === null || inside.all ? [] : [unsure(unseenWords(inside))],
    ...itself.length === 0 ? [] : [unsure(ofItself(named(itself, known)))],
    ...opens ? [unsure(texts.warnings.opens)] : [],
  ];
}
