// The tests of web/acl/levels.js, run by node and in a browser that shows the page, with model.mjs
// before it. 'given' is {lists, count}: the text of docs/lists.md, and how many lists are tried at
// random.
const [given, base, finish] = arguments;

const names = ['entries.js', 'levels.js'];
const modules = Promise.all(names.map((name) => import(`${base}/${name}`)));
modules.then(([lists, levels]) => {
  const { LETTERS, isInherited, printEntry, printList, readListText } = lists;
  const { KEEP, OWN, cutOff, entriesOf, isKeep, joined, readLevels, whyNot, withLevel } = levels;
  const told = [];
  const equal = (name, got, wanted) => {
    const [one, other] = [got, wanted].map((each) => JSON.stringify(each));
    if (one !== other) told.push(`${name}: ${one}, not ${other}`);
  };
  const list = (...lines) => readListText(lines.join('\n')).list;
  const ownOf = (one) => one.entries.filter((entry) => !isInherited(entry)).map(printEntry);
  const levelsOf = (one, kind = 'folder') => readLevels(one, kind).rows
    .map(({ who, level, inherited }) => `${who} ${level}${inherited ? ' from above' : ''}`);
  const [user, group] = [(who) => ({ who, isGroup: false }), (who) => ({ who, isGroup: true })];
  const FOLDER = ['pass', 'drop', 'see', 'read', 'add', 'change', 'remove', 'manage'];
  const isHead = (level) => ['remove', 'manage'].includes(level);

  // The own entries of a list, from its levels alone.
  const composed = ({ rows, keep, own }, kind) => {
    const part = (holds) => rows.filter(({ level, inherited }) => !inherited && holds(level))
      .flatMap((row) => entriesOf(row.level, row.who, row.isGroup, kind)).map(printEntry);
    return [...part(isHead), ...(keep ? [KEEP] : []), ...part((level) => !isHead(level)),
      ...(own ? [OWN] : [])];
  };

  // Each list of the page, there and back. That of /drafts denies something.
  const LEVELS = {
    '/policies': ['alice manage', 'staff read'],
    '/minutes': ['alice manage', 'staff add'],
    '/letters': ['alice manage', 'staff change'],
    '/bob': ['alice manage', 'bob remove'],
    '/personnel': ['alice manage', 'personnel remove'],
    '/handbook': ['alice manage', 'editors remove', 'staff read'],
    '/inbox': ['alice manage', 'clerks remove', 'staff drop'],
    '/drafts': null,
  };
  const pattern = /list set (\/\S+) <<END\n([^]*?)END\n/g;
  const texts = Object.fromEntries(
    [...given.lists.matchAll(pattern)].map(([, path, text]) => [path, text]));
  equal('the lists of the page', Object.keys(texts).sort(), Object.keys(LEVELS).sort());

  const comesAndGoes = (path, one) => {
    for (const level of FOLDER) for (const subject of [user('new'), group('new')]) {
      const name = `${path}, ${level} for ${JSON.stringify(subject)}`;
      const there = withLevel(one, 'folder', subject, level);
      const row = readLevels(there, 'folder').rows.find(({ who }) => who === 'new');
      equal(`${name}: is it`, [row.level, row.isGroup], [level, subject.isGroup]);
      equal(`${name}: still simple`, whyNot(there, 'folder'), null);
      const back = withLevel(there, 'folder', subject, null, level === 'pass');
      equal(`${name}: and gone`, ownOf(back), ownOf(one));
    }
  };
  const thereAndBack = (path, one, row) => {
    const sorted = (each) => ownOf(each).sort();
    for (const level of ['read', 'change', 'remove', 'manage']) {
      const there = withLevel(one, 'folder', row, level);
      const back = withLevel(there, 'folder', row, row.level);
      equal(`${path}, ${row.who} to ${level} and back`, sorted(back), sorted(one));
    }
  };
  for (const [path, text] of Object.entries(texts)) {
    const one = readListText(text).list;
    const model = readLevels(one, 'folder');
    equal(`${path}: simple`, model.why, LEVELS[path] === null ? 'denies' : null);
    if (LEVELS[path] === null) continue;
    equal(`${path}: levels`, levelsOf(one), LEVELS[path]);
    equal(`${path}: back`, composed(model, 'folder'), ownOf(one));
    comesAndGoes(path, one);
    for (const row of model.rows) thereAndBack(path, one, row);
  }

  // From nothing to each list, by levels alone.
  const top = ['list:ap', `A:fd:alice:${LETTERS}`];
  const built = (lines, ...steps) => printList(steps.reduce((one, [subject, level]) =>
    withLevel(one, 'folder', subject, level), list(...lines)));
  const [staff, clerks, editors] = ['staff', 'clerks', 'editors'].map(group);
  equal('letters by levels', built(top, [staff, 'change']), texts['/letters']);
  equal('minutes by levels', built(top, [staff, 'add']), texts['/minutes']);
  equal('inbox by levels', built(top, [clerks, 'remove'], [staff, 'drop']), texts['/inbox']);
  equal('policies by levels', built([...top, KEEP], [staff, 'read']), texts['/policies']);
  equal('handbook by levels', built([...top, KEEP], [editors, 'remove'], [staff, 'read']),
    texts['/handbook']);

  // A folder that follows the top: the line is written, and who manages is carried above it.
  const linked = list('list:a', `A:fdI:alice:${LETTERS}`);
  const shared = withLevel(linked, 'folder', staff, 'change');
  equal('carried', ownOf(shared), ['A:fd:alice:Dd', KEEP, 'A:fdg:staff:rwaxtc', OWN]);
  const both = list('list:a', `A::alice:${LETTERS}`, `A:fdI:alice:${LETTERS}`);
  // What stands here only is custom, so nothing is said of those who add.
  equal('carried, though here already', ownOf(withLevel(both, 'folder', staff, 'change')),
    ['A:fd:alice:Dd', `A::alice:${LETTERS}`, KEEP, 'A:fdg:staff:rwaxtc']);
  equal('less than from above', ownOf(withLevel(shared, 'folder', user('alice'), 'read')),
    [KEEP, 'A:fdg:staff:rwaxtc', 'A:fd:alice:rxtc', OWN]);
  equal('nothing to carry', ownOf(withLevel(linked, 'folder', staff, 'read')),
    ['A:fdg:staff:rxtc']);
  const under = list('list:a', `A:fdI:alice:${LETTERS}`, 'D:dI:EVERYONE@:Dd', 'A:fdgI:staff:rwaxtc',
    'A:fiI:OWNER@:d');
  equal('the line from above counts', ownOf(withLevel(under, 'folder', user('dana'), 'change')),
    ['A:fd:dana:rwaxtc']);
  equal('inherited rows', levelsOf(under), ['alice manage from above', 'staff change from above']);
  // Once Alice isn't above any more, what was carried is a line of its own; beside hers it is none.
  equal('carried alone', levelsOf(list('list:a', 'A:fd:alice:Dd', KEEP, 'A:fdg:staff:rwaxtc')),
    ['alice clear', 'staff change']);
  const twice = list('list:a', 'A:fdI:alice:Dd', 'D:dI:EVERYONE@:Dd', 'A:fdgI:staff:rwaxtc',
    `A:fdI:alice:${LETTERS}`);
  equal('carried, and passed down', [levelsOf(twice), whyNot(twice, 'folder')],
    [['alice manage from above', 'staff change from above'], null]);
  equal('cut off', printList(cutOff(under)),
    `list:ap\nA:fd:alice:${LETTERS}\n${KEEP}\nA:fdg:staff:rwaxtc\n${OWN}\n`);
  equal('cut off is simple', whyNot(cutOff(under), 'folder'), null);
  equal('cut off, carried twice', ownOf(cutOff(shared)),
    [...ownOf(shared), `A:fd:alice:${LETTERS}`]);
  // Unticked, nothing is left of what was copied, even if something here was changed since. What
  // only stands here stays, and so does whoever would lose something by the line that keeps things.
  const coming = list('list:a', `A:fdI:alice:${LETTERS}`, 'A:fdgI:staff:rxtc').entries;
  const backTo = (...own) => ownOf(joined(list('list:ap', ...own), coming, 'folder'));
  const copied = [`A:fd:alice:${LETTERS}`, 'A:fdg:staff:rxtc'];
  equal('back, with nothing of its own', backTo(...copied), []);
  equal('back, to its own', backTo('A:fd:kim:rxtc', ...copied), ['A:fd:kim:rxtc']);
  equal('back, though somebody was removed', backTo(copied[0]), []);
  equal('back, though somebody was added', backTo(copied[0], 'A:fd:kim:rxtc', copied[1]),
    ['A:fd:kim:rxtc']);
  equal('back, with the line', backTo(copied[0], KEEP, 'A:fd:kim:rwaxtc', copied[1]),
    [copied[0], KEEP, 'A:fd:kim:rwaxtc']);
  equal('back, to what can’t be read',
    ownOf(joined(list('list:ap', ...copied), [], 'folder')), copied);
  const document = list('list:', `A:I:alice:${LETTERS}`, 'A:Ig:staff:rwaxtc', 'A:I:OWNER@:d');
  equal('a document', levelsOf(document, 'document'),
    ['alice manage from above', 'staff change from above']);
  equal('a document is shared', ownOf(withLevel(document, 'document', user('dana'), 'read')),
    ['A::dana:rxtc']);

  // What isn't simple, and why.
  for (const [why, ...entries] of [
    ['denies', 'D::bob:w'], ['denies', 'D:fd:EVERYONE@:Dd'], ['denies', 'D:dI:EVERYONE@:Ddw'],
    ['denies', 'D:fI:bob:r'], ['order', KEEP, 'A:fd:bob:rwaxDtc'],
    // What comes from above stands in nobody's way: only it may not remove here.
    [null, KEEP, `A:fdI:alice:${LETTERS}`],
    [null, `A::alice:${LETTERS}`, KEEP, `A:fdI:alice:${LETTERS}`],
    ['order', 'A:n:bob:d'], ['order', 'A:fi:bob:D'],
    ['open', 'A:fd:bob:rwaxtc'], ['open', 'A:fdI:bob:wx'], [null, 'A:fi:bob:w'], [null, 'A::bob:a'],
    [null, `A:fd:alice:${LETTERS}`, KEEP, `A:fdI:alice:${LETTERS}`], [null, KEEP, 'A:n:bob:r'],
  ]) equal(`why ${entries}`, whyNot(list('list:a', ...entries), 'folder'), why);
  equal('apart', whyNot(list('list:', 'A:fd:bob:rxtc'), 'folder'), 'apart');
  equal('closed up',
    ownOf(levels.closedUp(list('list:a', 'A:fd:bob:rwaxtc', `A:fdI:alice:${LETTERS}`))),
    ['A:fd:alice:Dd', KEEP, 'A:fd:bob:rwaxtc']);

  // Who may remove by the folder above, and not here, may by one line more.
  const two = list('list:a', `A:fd:carol:${LETTERS}`, KEEP, 'A:fdg:staff:rwaxtc', OWN,
    `A:fdI:alice:${LETTERS}`, 'A:fdIg:clerks:rwaxDtc');
  const rowsOf = (one) => readLevels(one, 'folder').rows;
  const barredIn = (one) => rowsOf(one).filter(({ barred }) => barred).map(({ who }) => who);
  equal('barred', barredIn(two), ['alice', 'clerks']);
  const let1 = levels.letRemove(two, rowsOf(two).filter(({ who }) => who === 'clerks'));
  equal('one is let', ownOf(let1), [`A:fd:carol:${LETTERS}`, 'A:fdg:clerks:D', KEEP,
    'A:fdg:staff:rwaxtc', OWN]);
  equal('the other one isn’t', barredIn(let1), ['alice']);
  const further = list('list:a', `A:fdI:carol:${LETTERS}`, 'D:dI:EVERYONE@:Dd',
    `A:fdI:alice:${LETTERS}`);
  equal('further down', ownOf(levels.letRemove(further, rowsOf(further))), ['A:fd:alice:Dd']);
  equal('nobody else', levelsOf(let1).filter((one) => !one.startsWith('clerks')),
    levelsOf(two).filter((one) => !one.startsWith('clerks')));

  // A line that only lets somebody pass stays by itself; a custom one is never touched.
  const kim = user('kim');
  const passing = withLevel(list('list:a', 'A::kim:x'), 'folder', kim, 'read');
  equal('a way stays', ownOf(passing), ['A::kim:x', 'A:fd:kim:rxtc']);
  equal('a way outlives access', ownOf(withLevel(passing, 'folder', kim, null)), ['A::kim:x']);
  equal('a way goes', ownOf(withLevel(passing, 'folder', kim, null, true)), ['A:fd:kim:rxtc']);
  const custom = list('list:a', 'A::bob:a', 'A:fd:carol:rxtc');
  equal('custom', levelsOf(custom), ['bob custom', 'carol read']);
  equal('custom is never altered', withLevel(custom, 'folder', user('bob'), 'read'), null);
  equal('custom stays beside', ownOf(withLevel(custom, 'folder', user('carol'), null)),
    ['A::bob:a']);
  equal('idle letters', levelsOf(list('list:a', 'A:fd:bob:rwaxDtdcCo', 'A:fdg:x:rnxtcy')),
    ['bob manage', 'x read']);

  // An end date is an entry that grants nothing, beside those of the level. It goes with them.
  const eve2 = user('eve');
  const dated = withLevel(list('list:a', OWN), 'folder', eve2, 'read', false,
    { day: '2027-05-31', asker: 'alice' });
  equal('until', ownOf(dated), ['A:fd:eve:rxtc', 'A:g:until.2027-05-31.read.u.eve@alice:', OWN]);
  equal('a row with its date',
    readLevels(dated, 'folder').rows.map(({ who, level, until }) => [who, level, until]),
    [['eve', 'read', '2027-05-31']]);
  equal('still simple with a date', whyNot(dated, 'folder'), null);
  equal('gone with its date', ownOf(withLevel(dated, 'folder', eve2, null)), [OWN]);
  equal('a level without its date', ownOf(withLevel(dated, 'folder', eve2, 'remove')),
    ['A:fd:eve:rwaxDtc', OWN]);
  equal('names in a date', ownOf(withLevel(list('list:a'), 'folder', group('a+b@c'), 'read', false,
    { day: '2027-05-31', asker: 'OFFICE\\alice' }))[1],
      'A:g:until.2027-05-31.read.g.a+2Bb+40c@OFFICE-5Calice:');
  const past = list('list:a', 'A:g:ended.2027-06-01.read.u.eve@alice:',
    'A:g:until.2027-13-31.read.u.eve@alice:');
  equal('ended', readLevels(past, 'folder').ended.map(({ who, day }) => [who, day]),
    [['eve', '2027-06-01']]);
  const until = 'A:g:until.2027-05-31.read.u.eve@alice:';
  const endsIn = (...lines) => readLevels(list('list:a', ...lines), 'folder');
  equal('ends by itself', endsIn('A:fd:eve:rxtc', until).rows.map(({ ends }) => ends), [true]);
  equal('changed since', endsIn(`A:fd:eve:${LETTERS}`, until).rows.map(({ ends }) => ends),
    [false]);
  equal('a day alone', endsIn(until, 'A:fdg:eve:rxtc').loose.map(({ who, day }) => [who, day]),
    [['eve', '2027-05-31']]);
  equal('none alone',
    endsIn('A:fd:eve:rxtc', until, 'A:g:ended.2027-06-01.read.u.bob@alice:').loose, []);
  equal('no day is no date', levelsOf(past), ['until.2027-13-31.read.u.eve@alice custom']);
  equal('a name too long for a date',
    withLevel(list('list:a'), 'folder', user('e'.repeat(60)), 'read', false,
    { day: '2027-05-31', asker: 'alice' }), null);

  // Lists at random: whoever isn't meant keeps exactly what they had, here and below.
  let seed = 7;
  const random = (most) => {
    seed = (seed * 1103515245 + 12345) % 2147483648;
    return Math.floor(seed / 65536) % most;
  };
  const pick = (all) => all[random(all.length)];
  const WHO = [user('alice'), user('bob'), group('staff'), group('sales'), user('AUTHENTICATED@'),
    user('EVERYONE@')];
  const callers = ['alice', 'bob', 'eve', null].flatMap((name) =>
    [[], ['staff'], ['sales'], ['staff', 'sales'], ['new']]
      .map((groups) => ({ user: name, groups })));
  // What each may do with an object that has these entries, with what others made in it, and with
  // what they made there if they may add to it: letters, with d for whoever may remove it.
  const powersBy = (entries, kind) => {
    const object = (path, of, owner, more) => ({ path, kind: of, owner, group: 'office', own: [],
      auto: true, protect: false, isNew: true, ...more });
    const within = (owner) => [object('/it/f', 'folder', owner), object('/it/d', 'document', owner),
      object('/it/f/d', 'document', owner)];
    const it = object('/it', kind, 'mona', { own: entries.filter((one) => !isInherited(one)),
      grey: entries.filter(isInherited), isNew: false });
    const top = object('/', 'folder', 'mona', { own: [entryOf('A::EVERYONE@:x')], auto: false });
    const roomOf = (owner) => new Model([top, it, ...kind === 'folder' ? within(owner) : []]);
    const made = new Map();
    const said = (room, caller) => [...room.objects.keys()].slice(1)
      .map((path) => room.rights(path, caller))
      .map(({ letters, removes }) => `${letters}${removes ? 'd' : ''}`);
    return (caller) => {
      if (!made.has('')) made.set('', roomOf(''));
      const all = said(made.get(''), caller);
      const { user } = caller;
      if (kind === 'document' || user === null || !/[wa]/.test(all[0])) return all;
      if (!made.has(user)) made.set(user, roomOf(user));
      return [...all, ...said(made.get(user), caller).slice(1)];
    };
  };
  const entryOf = (text) => list('list:', text).entries[0];

  const atRandom = (kind) => {
    const forms = kind === 'folder' ? FOLDER : ['read', 'change', 'manage'];
    let entries = Array.from({ length: random(5) }, () => pick(WHO))
      .flatMap(({ who, isGroup }) => entriesOf(pick(forms), who, isGroup, kind));
    const putIn = (entry) => entries.splice(random(entries.length + 1), 0, entry);
    if (kind === 'folder' && random(4) === 0) {
      const rights = pick(['D', 'd', 'rwaxDtc', LETTERS]);
      putIn(entryOf(`A:${pick(['', 'd', 'f', 'fi', 'fdn'])}:alice:${rights}`));
    }
    if (random(2) === 1) putIn(entryOf(KEEP));
    if (kind === 'document') entries = entries.filter((entry) => !isKeep(entry));
    if (random(3) === 0) entries.push(entryOf(`A::cust:${pick(['w', 'rC', 'a', 'xt'])}`));
    const split = random(entries.length + 1);
    entries = entries.map((entry, index) => (index < split ? entry
      : entryOf(`${entry.type}:I${entry.flags}:${entry.who}:${entry.mask}`)));
    return { auto: true, protect: false, entries };
  };
  const seen = { simple: 0, changed: 0 };
  const tryOne = () => {
    const kind = random(4) === 0 ? 'document' : 'folder';
    const before = atRandom(kind);
    if (whyNot(before, kind) !== null) {
      equal('refused', withLevel(before, kind, group('new'), 'read'), null);
      return;
    }
    seen.simple += 1;
    const level = pick(kind === 'folder' ? FOLDER : ['read', 'change', 'manage']);
    const after = withLevel(before, kind, group('new'), level);
    const cut = cutOff(before);
    equal('only these people, and back', printList(joined(cut, before.entries.filter(isInherited),
      kind)), printList({ ...before, entries: before.entries.filter((one) => !isInherited(one)) }));
    if (after === null) {
      told.push(`no longer simple after ${level}: ${printList(before)}`);
      return;
    }
    const sorted = (one) => ownOf(one).sort();
    const back = withLevel(after, kind, group('new'), null, level === 'pass');
    equal(`${level} there and back, ${printList(after)}`, sorted(back), sorted(before));
    const powers = [before, after, cut].map((one) => powersBy(one.entries, kind));
    for (const caller of callers) {
      const [had, has, left] = powers.map((each) => each(caller));
      const isMeant = caller.groups.includes('new');
      const isKept = isMeant ? [...had[0]].every((letter) => has[0].includes(letter))
        : String(has) === String(had);
      if (isKept && String(left) === String(had)) continue;
      const lists = `${printList(before)}${printList(after)}`;
      told.push(`${JSON.stringify(caller)} has ${had}, then ${has}, cut off ${left}: `
        + `${level} for new\n${lists}`);
    }
  };
  // One who is there gets another level, or none: again nobody else's rights change.
  const isMeantBy = ({ who, isGroup }, caller) => who.endsWith('@')
    || (isGroup ? caller.groups.includes(who) : caller.user === who);
  const changeOne = () => {
    const kind = random(4) === 0 ? 'document' : 'folder';
    const before = atRandom(kind);
    const rows = readLevels(before, kind).rows.filter(({ inherited }) => !inherited);
    if (whyNot(before, kind) !== null || rows.length === 0) return;
    const row = pick(rows);
    const isPass = row.level === 'pass';
    // As the menu of a line has them.
    const forms = kind === 'folder'
      ? FOLDER.filter((one) => one !== 'pass') : ['read', 'change', 'manage'];
    const level = isPass ? null : pick([...forms, null]);
    const after = withLevel(before, kind, row, level, isPass);
    // Whoever has more from above, or something that isn't a level, stays as they are.
    if (after === null) return;
    seen.changed += 1;
    const back = row.level === 'custom' || level === null ? null
      : withLevel(after, kind, row, row.level, isPass);
    // Who had a line twice has it once then, and whoever adds comes to the line for owners.
    const lines = (one) => [...new Set(ownOf(one))].filter((line) => line !== OWN).sort();
    if (back !== null) {
      equal(`${row.who} to ${level} and back, ${printList(after)}`, lines(back), lines(before));
    }
    const has = readLevels(after, kind).rows.filter((one) => !one.inherited && one.key === row.key
      && (one.level === 'pass') === isPass).map((one) => one.level);
    if (String(has) !== String(level === null ? [] : [level])) {
      told.push(`${row.who} has ${has}, not ${level}\n${printList(before)}${printList(after)}`);
    }
    const powers = [before, after].map((one) => powersBy(one.entries, kind));
    for (const caller of callers.filter((one) => !isMeantBy(row, one))) {
      const [had, now] = powers.map((each) => String(each(caller)));
      if (had !== now) {
        told.push(`${JSON.stringify(caller)} had ${had}, then ${now}: ${row.who} gets ${level}\n${
          printList(before)}${printList(after)}`);
      }
    }
  };
  for (let count = 0; count < given.count; count += 1) {
    tryOne();
    changeOne();
  }
  if (seen.changed * 5 < given.count) {
    told.push(`only ${seen.changed} of ${given.count} were changed`);
  }
  if (seen.simple * 2 < given.count) told.push(`only ${seen.simple} of ${given.count} were simple`);
  finish(told);
}).catch((fault) => finish([String(fault?.stack ?? fault)]));
