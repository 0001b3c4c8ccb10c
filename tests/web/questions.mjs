// The questions of the page against what 'rooms dump' says of the same room: an object has the
// owner, the group and the list that it has there, as far as the user may read these, and all that
// the user may see below what the question is about stands in it.

// Objects by path: {kind, owner, group, list}, of a dump without its sacls.
export function dumped(text) {
  const found = new Map();
  let [one, isDacl] = [null, false];
  for (const line of text.split('\n')) {
    const head = /^(?:(folder) (\S+) (\S+)|(document) (\S+) (\S+) \d+) (\/.*)$/.exec(line);
    if (head) {
      one = { kind: head[1] ?? head[4], owner: head[2] ?? head[5], group: head[3] ?? head[6],
        list: '' };
      found.set(head[7], one);
    } else if (line.startsWith('member ')) one = null;
    else if (line === 'dacl' || line === 'sacl') isDacl = line === 'dacl';
    else if (one && isDacl) one.list += `${line}\n`;
  }
  return found;
}

// {objects: [{kind, owner, group, path, list}], changed: [path]} of a question.
export function asked(text) {
  const [objects, changed] = [[], []];
  let one = null;
  for (const line of text.trimEnd().split('\n')) {
    const head = /^(folder|document) (\S+) (\S+) (\/.*)$/.exec(line);
    const change = /^(?:set|move|to|look|(?:folder|document)\+ \S+ \S+) (\/.*)$/.exec(line);
    if (head) {
      one = { kind: head[1], owner: head[2], group: head[3], path: head[4], list: '' };
      objects.push(one);
    } else if (change || /^(member|as|lists)\b/.test(line)) {
      one = null;
      if (change) changed.push(change[1]);
    } else if (one) one.list += `${line}\n`;
  }
  return { objects, changed };
}

// In the place of a list on the way that can't be read.
const OPEN = 'list:p\nA::EVERYONE@:x\n';
const above = (path) => path.slice(0, path.lastIndexOf('/')) || '/';
const isIn = (path, folder) => folder === '/' || path === folder || path.startsWith(`${folder}/`);
const linesOf = (list) => list.trimEnd().split('\n');
const isOwn = (line) => line !== '' && !line.split(':')[1].includes('I');
const followsIn = (dump, path) => {
  const { kind, list } = dump.get(path);
  const [flags, ...lines] = linesOf(list);
  const isLinked = kind === 'document' || flags.slice('list:'.length).includes('a');
  return !lines.some(isOwn) && !flags.includes('p', 'list:'.length) && isLinked
    && (above(path) === path || linesOf(dump.get(above(path)).list)[0].includes('a', 5)
      || dump.get(above(path)).kind === 'document');
};

// What is wrong with a question, by the dump and by what the user may do: 'rights' of a path.
// 'mark' begins the names of what is imagined, or stands for several that are alike.
export function faultsOf(text, dump, rights) {
  const { objects, changed } = asked(text);
  const told = [];
  // A list that is asked about by itself stands in a room that is none.
  const isThere = ({ path, list }) => dump.has(path) && path !== '/' && list !== OPEN;
  if (!objects.some(isThere)) return [];
  const named = new Map(objects.filter(({ path }) => dump.has(path)).map((one) => [one.path, one]));
  for (const one of named.values()) told.push(...faultsAt(one, dump, rights));
  const marked = objects.filter(({ path }) => !dump.has(path));
  for (const { path, list } of marked) {
    if (list !== 'follows\n') told.push(`${path} isn't there, and has a list`);
  }
  // What is below the highest place that changes, but not below what can't be listed.
  const top = changed.filter((path) => dump.has(path))
    .sort((one, other) => one.length - other.length)[0] ?? '/';
  const isSeen = (path) => path === top || (isSeen(above(path)) && rights(above(path)).includes('r')
    && dump.get(above(path)).kind === 'folder');
  for (const [path, one] of dump) {
    if (top === '/' || !isIn(path, top) || named.has(path) || !isSeen(path)) continue;
    if (one.kind === 'document' && !rights(path).includes('c')) continue;
    if (!followsIn(dump, path)) told.push(`${path} is left out`);
    else if (!marked.some((each) => each.kind === one.kind && isIn(each.path, nearest(path, named))
      && (isNobody(each.owner) || each.owner === one.owner)
      && (isNobody(each.group) || each.group === one.group))) {
      told.push(`${path} of ${one.owner} is left out, and nothing stands for it`);
    }
  }
  return told;
}

function nearest(path, named) {
  let at = path;
  // What only follows is as another folder that does.
  while (!named.has(at) || named.get(at).list === 'follows\n') at = above(at);
  return at;
}

// Nobody in particular, whose name can't be read; a list asks for it.
const isNobody = (name) => /^[?+]/.test(name);

function faultsAt({ path, kind, owner, group, list }, dump, rights) {
  const is = dump.get(path);
  const [reads, knows] = [...'ct'].map((letter) => rights(path).includes(letter));
  const told = [];
  if (kind !== is.kind) told.push(`${path} is a ${is.kind}`);
  for (const [got, wanted] of [[owner, is.owner], [group, is.group]]) {
    if (isNobody(got)) continue;
    if (!knows) told.push(`${path}: ${got} can't be known`);
    else if (got !== wanted) told.push(`${path}: ${got}, not ${wanted}`);
  }
  // What only follows says nothing to its owner.
  if (knows && list !== 'follows\n' && (isNobody(owner) || isNobody(group))) {
    told.push(`${path}: whose it is can be read`);
  }
  if (list === 'unread\n' || (list === OPEN && list !== is.list)) {
    if (reads) told.push(`${path}: its list can be read`);
  } else if (!reads) told.push(`${path}: its list can't be known`);
  else if (list !== 'follows\n' && list !== is.list) told.push(`${path} has ${is.list}not ${list}`);
  else if (list === 'follows\n' && !followsIn(dump, path)) told.push(`${path} doesn't only follow`);
  return told;
}
