// What 'rooms review' and 'rooms dump' say of a room with many trees, tree by tree: a tree lies
// below a path of two names, such as /m/share0.
import { asked } from './said.mjs';
import { rowName } from './worlds.mjs';

// Where the tree ends in a path that has one, or else where the path ends.
function endOfTree(text, start, end) {
  const second = text.indexOf('/', text.indexOf('/', start + 1) + 1 || end);
  return second < 0 || second > end ? end : second;
}

// The lines of each tree together. 'placeOf' says where the path begins and ends in a line that
// begins and ends there, or null of one that belongs to the path before.
function byTree(text, placeOf) {
  const found = new Map();
  let [from, tree] = [0, ''];
  const keep = (to) => found.set(tree, (found.get(tree) ?? '') + text.slice(from, to));
  for (let at = 0; at < text.length;) {
    const end = text.indexOf('\n', at) + 1 || text.length;
    const place = placeOf(text, at, end - 1);
    const next = place && text.slice(place[0], endOfTree(text, ...place));
    if (next && next !== tree) {
      keep(at);
      [from, tree] = [at, next];
    }
    at = end;
  }
  keep(text.length);
  return found;
}

// Rights and removals are those of few known.
const known = new Map();
function grantOf(rights, removes) {
  const key = `${rights},${removes}`;
  if (!known.has(key)) {
    known.set(key, { ...asked({ rights, removes: removes === 'yes' }), rights });
  }
  return known.get(key);
}

// Paths begin with a slash, and have no comma.
const placeInRow = (text, at) => (text[at] === '/' ? [at, text.indexOf(',', at)] : null);

// The rows of a review: {letters, rights, removes} by path and user.
export class Review {
  constructor(text) { this.trees = byTree(text, placeInRow); }

  // Of a tree, and of the folder that it is in.
  rowsOf(top) {
    const found = new Map();
    for (const tree of [top.slice(0, top.lastIndexOf('/')), top]) {
      for (const row of this.trees.get(tree)?.match(/^\/.*/gm) ?? []) {
        const [path, , user, rights, removes] = row.split(',');
        if (!found.has(path)) found.set(path, new Map());
        found.get(path).set(user, grantOf(rights, removes));
      }
    }
    return found;
  }
}

function placeInDump(text, at, end) {
  const isHead = text.startsWith('folder ', at) || text.startsWith('document ', at);
  return isHead ? [text.indexOf(' /', at) + 1, end] : null;
}

// The text of a dump: that of a tree, with all that is above.
export class Dump {
  constructor(text) { this.trees = byTree(text, placeInDump); }

  of(top) {
    return ['/', top.slice(0, top.lastIndexOf('/')), top]
      .map((tree) => this.trees.get(tree) ?? '').join('');
  }
}

const NOTHING = { letters: '', removes: false };

// Of each world the rows of one tree: 'came' says where what then stands at a path stood before,
// and 'passing' has the folders whose lists what is in them follows.
export class State {
  constructor(rows, passing, came = (path) => path) {
    Object.assign(this, { rows, passing, came });
  }

  at(path, caller) {
    const from = this.came(path);
    const those = from === null ? null : this.rows.get(caller.world).get(from);
    return those ? those.get(rowName(caller)) ?? those.get('*') : NOTHING;
  }

  // Null where what is there follows a list of its own, which says nothing of what is made there.
  inside(path, caller) {
    return this.passing.has(path) ? this.at(`${path}/other`, caller) : null;
  }
}
