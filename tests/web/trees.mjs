// Trees at random for plays of dialogs: an office's lists, and lists by hand. Alice manages most.

export const ALL = 'rwanNxDtThHdcCoy';
export const USERS = ['alice', 'bob', 'carol', 'dana', 'kim', 'zoe'];
// Most are in several groups.
export const GROUPS = { staff: ['bob', 'carol', 'kim'], sales: ['carol', 'dana'],
  board: ['dana', 'kim', 'carol'] };
const NAMES = Object.keys(GROUPS);
const MASKS = ['rxtc', 'rwaxtc', 'rwaxDtc', ALL];
const LETTERS = 'rxwaDtdcCo';

export class Chance {
  // Of 100 lists so many are written by hand. Most lists name the person, and let everybody pass.
  constructor(seed, byHandOf = 25) { Object.assign(this, { seed, byHandOf, person: null }); }

  random(most) {
    this.seed = (this.seed * 1103515245 + 12345) % 2147483648;
    return Math.floor(this.seed / 65536) % most;
  }

  pick(all) { return all[this.random(all.length)]; }

  is(percent) { return this.random(100) < percent; }

  // In another order.
  mixed(all) {
    return all.map((one) => [this.random(1 << 15), one]).sort(([one], [other]) => one - other)
      .map(([, one]) => one);
  }

  someone() {
    return this.pick([...USERS.slice(1).map((user) => [user, '']),
      ...NAMES.map((name) => [name, 'g']), ['AUTHENTICATED@', '']]);
  }

  // Own lines of levels, in an order that the panel can say.
  lines(kind) {
    const reach = kind === 'folder' ? 'fd' : '';
    const who = Array.from({ length: this.random(4) }, () => this.someone());
    if (this.person !== null && this.is(70)) who.unshift([this.person, '']);
    const seen = [...new Map(who.map((one) => [one[0], one])).values()];
    const masks = kind === 'folder' ? MASKS : ['rxtc', 'rwaxtc', ALL];
    const made = seen.map(([name, group]) => [this.pick(masks), `${reach}${group}:${name}`]);
    const those = (isHead) => made.filter(([mask]) => (mask.includes('D')) === isHead)
      .map(([mask, rest]) => `A:${rest}:${mask}`);
    const keep = kind === 'folder' && this.is(60) ? ['D:d:EVERYONE@:Dd'] : [];
    const own = keep.length > 0 && this.is(40) ? ['A:fi:OWNER@:d'] : [];
    const ways = kind === 'folder' && this.is(this.person === null ? 40 : 90)
      ? [`A::${this.pick([...USERS.slice(1), ...Array(5).fill('AUTHENTICATED@')])}:x`] : [];
    const drops = kind === 'folder' && this.is(10) ? [`A:g:${this.pick(NAMES)}:wx`] : [];
    return [...those(true), ...keep, ...those(false), ...ways, ...drops, ...own];
  }

  // Lines that somebody wrote by hand.
  byHand(kind) {
    return Array.from({ length: 1 + this.random(3) }, () => {
      const [name, group] = this.is(20) ? [this.pick(['OWNER@', 'GROUP@', 'EVERYONE@']), '']
        : this.someone();
      const reach = kind === 'folder' ? this.pick(['', 'fd', 'fd', 'd', 'fi', 'f', 'fdn', 'di'])
        : '';
      const mask = this.is(60) ? this.pick([...MASKS, 'x', 'wx', 'd', 'D'])
        : [...LETTERS].filter(() => this.is(40)).join('');
      return `${this.is(25) ? 'D' : 'A'}:${reach}${group}:${name}:${mask}`;
    });
  }

  listFor(kind, isApart, manager) {
    const reach = kind === 'folder' ? 'fd' : '';
    const mine = isApart && this.is(90) ? [`A:${reach}:${manager}:${ALL}`] : [];
    const lines = this.is(this.byHandOf) ? this.byHand(kind) : this.lines(kind);
    const flags = `${kind === 'folder' && !this.is(4) ? 'a' : ''}${isApart ? 'p' : ''}`;
    return [`list:${flags}`, ...mine, ...lines, ''].join('\n');
  }

  // [{path, kind, owner, group, list}] below the path of a folder, each after its folder. A list
  // is null where the object only follows.
  tree(top, size = 4 + this.random(7)) {
    const first = this.pick(['A::AUTHENTICATED@:xt', 'A:g:staff:rxtc', 'A:fdg:staff:rxtc',
      'A::AUTHENTICATED@:x']);
    const found = [{ path: top, kind: 'folder',
      list: ['list:ap', `A:fd:alice:${ALL}`, first, ''].join('\n') }];
    for (let number = 0; number < size; number += 1) {
      const folders = found.filter(({ kind, path }) => kind === 'folder'
        && path.split('/').length < 6);
      const folder = this.pick(number < 2 ? folders.slice(-1) : folders);
      const kind = number < 2 || this.is(50) ? 'folder' : 'document';
      found.push({ path: `${folder.path}/n${number}`, kind, list: this.is(45) ? null
        : this.listFor(kind, this.is(25), 'alice') });
    }
    return found.map((one) => ({ ...one, owner: this.pick(['alice', 'bob', 'dana', 'kim', 'carol']),
      group: this.pick(['office', 'staff', 'sales']) }));
  }
}

// The requests of one who may do all until then: lists come last, those below first.
export const requestsFor = (tree) => [
  ...tree.map(({ path, kind }) => (kind === 'folder' ? ['POST', `/folder${path}`]
    : ['PUT', `/doc${path}`, path])),
  ...tree.map(({ path, owner, group }) =>
    ['PUT', `/attr${path}`, JSON.stringify({ group, owner })]),
  ...[...tree].reverse().filter(({ list }) => list !== null)
    .map(({ path, list }) => ['PUT', `/dacl${path}`, list]),
];
