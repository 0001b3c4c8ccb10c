// What is passed down by the pages of docs, and sentences about names and faults, run in a browser
// that shows the page. 'examples' are {passed: [[PARENT'S ENTRY, FOLDER'S, DOCUMENT'S]]}.
const [examples, finish] = arguments;

const names = ['/entries.js', '/inherit.js', '/words.js', '/invisible.js'];
const modules = names.map((name) => import(name));
Promise.all(modules).then(([{ readEntry, printEntry }, { passedDown }, words, signs]) => {
  const told = [];
  const equal = (name, got, wanted) => {
    const [one, other] = [got, wanted].map((each) => JSON.stringify(each));
    if (one !== other) told.push(`${name}: ${one}, not ${other}`);
  };
  const has = (name, text, ...parts) => {
    const plain = text?.replace(/[\u2068\u2069]/g, '');
    if (!parts.every((word) => plain?.includes(word))) told.push(`${name}: ${text}`);
  };

  for (const [parent, folder, file] of examples.passed) {
    for (const [kind, wanted] of [['folder', folder], ['document', file]]) {
      const down = passedDown([readEntry(parent).entry], kind).map(printEntry).join();
      equal(`${parent} to a ${kind}`, down, wanted);
    }
  }

  equal('a user called constructor', words.whoWords({ who: 'constructor', flags: '' }),
    'the user constructor');

  // Signs that can't be seen, and what is none.
  for (const [name, wanted] of [['plan', 'plan'], ['plan ', 'plan[space]'], [' a b', '[space]a b'],
    ['a\u202eb', 'a[U+202E]b'], ['a\u00a0b', 'a[U+00A0]b'], ['a\u200bb', 'a[U+200B]b'],
    ['a\u200db', 'a[U+200D]b'], ['\ufeffa', '[U+FEFF]a'], ['a\u{e0041}', 'a[U+E0041]'],
    ['\u{1f468}\u200d\u{1f467}', '\u{1f468}\u200d\u{1f467}'], ['\u2764\ufe0f', '\u2764\ufe0f'],
    ['\u0645\u06cc\u200c\u062e', '\u0645\u06cc\u200c\u062e'], ['שלום "x"', 'שלום "x"'],
    ['e\u0301', 'e\u0301'], ['e\u0301\u200d', 'e\u0301[U+200D]'],
    ['a\ufe00', 'a[U+FE00]'], ['1\ufe0f', '1[U+FE0F]'], ['1\ufe0f\u20e3', '1\ufe0f\u20e3'],
    ['\u2764\ufe0f\ufe0f', '\u2764\ufe0f[U+FE0F]'], ['\u845b\u{e0100}', '\u845b\u{e0100}'],
    ['a\u{e0100}', 'a[U+E0100]'], ['a\u3000', 'a[U+3000]'], ['a\u180f', 'a[U+180F]'],
    ['\u2764\ufe0f\u200d\u{1f525}', '\u2764\ufe0f\u200d\u{1f525}'],
    ['   ', '[space]'], ['a\u3164', 'a[U+3164]']]) {
    equal(`signs of ${JSON.stringify(name)}`, signs.marked(name), wanted);
  }

  // A user with a session has no password here.
  has('signed out', words.sentenceOf({ status: 401, body: null }), 'session ended', 'sign in');
  const tried = words.sentenceOf({ status: 429, body: null });
  has('too many tries', tried, 'too many passwords were tried', 'Wait a minute');

  // What leaves open whether the request was carried out says so, and never that nothing changed.
  for (const status of [0, 500, 504]) {
    const sentence = words.sentenceOf({ status, body: null });
    has(`after status ${status}`, sentence, 'may or may not have been', 'look');
    equal(`after status ${status}, no promise`, sentence.includes('nothing was'), false);
  }
  finish(told);
}).catch((fault) => finish([String(fault)]));
