// The tests of web/acl/entries.js, run in a browser that shows the page. 'examples' come from the
// pages of docs: {texts: [TEXT], entries: [[WRITTEN, PRINTED or fault]],
// faults: [[TEXT, LINE, CODE]], printed: [TEXT, PRINTED]}.
const [examples, finish] = arguments;

import('/entries.js').then(({ readEntry, readListText, printEntry, printList, lineOfEntry }) => {
  const told = [];
  const equal = (name, got, wanted) => {
    const [found, expected] = [got, wanted].map((value) => JSON.stringify(value));
    if (found !== expected) told.push(`${name}: ${found}, not ${expected}`);
  };
  const repeated = (line, times) => `list:\n${line.repeat(times)}`;

  for (const text of examples.texts) {
    const { list, fault } = readListText(text);
    equal(`read ${text}`, fault, undefined);
    if (fault) continue;
    equal(`there and back ${text}`, readListText(printList(list)).list, list);
    equal(`printed once more ${text}`, printList(readListText(printList(list)).list),
      printList(list));
  }
  for (const [written, wanted] of examples.entries) {
    const { entry, fault } = readEntry(written);
    equal(written, fault ?? printEntry(entry), wanted);
  }
  for (const [text, line, code] of examples.faults) {
    equal(text, readListText(text).fault, { line, code });
  }
  equal('printed', printList(readListText(examples.printed[0]).list), examples.printed[1]);

  equal('carriage returns', readListText('\r\nlist:a\r\nA::bob:r\r\n').list.entries.length, 1);
  equal('a space before #', readListText('list:\n #\n').fault, { line: 2, code: 'A5' });
  equal('no Unicode', readListText('list:\nA::bob\ud800:r').fault, { line: 2, code: 'A13' });
  equal('no Unicode in a comment', readListText('#\ud800\nlist:').fault, undefined);
  equal('64 own entries', readListText(repeated('A::bob:r\n', 64)).fault, undefined);
  equal('65 own entries', readListText(repeated('A::bob:r\n', 65)).fault, { line: 66, code: 'A8' });
  equal('4,096 entries', readListText(repeated('A:I:bob:r\n', 4096)).fault, undefined);
  equal('4,097 entries', readListText(repeated('A:I:bob:r\n', 4097)).fault,
    { line: 4098, code: 'A7' });
  equal('a long name', readEntry(`A::${'b'.repeat(64)}@${'c'.repeat(64)}:r`).fault, undefined);
  equal('a name too long', readEntry(`A::${'b'.repeat(65)}:r`).fault, 'A3');
  equal('markup', readEntry('A::<b>x</b>:r').fault, 'A3');
  equal('no such special name', readEntry('A::NOBODY@:r').fault, 'A3');
  equal('the line of an entry', lineOfEntry('# x\nlist:\n\nA::bob:r\n#\nD::bob:w\n', 2), 6);
  finish(told);
}).catch((fault) => finish([String(fault)]));
