#!/usr/bin/env python3
"""How long the page takes, through nginx with TLS over a line that is late: figures.py FOLDER PORT
ACCESS-LOG LINE SOCKET SIZE SIZE SIZE [TABLE]

A folder of each of the first two sizes is shared, and a name is looked for among the last one. LINE
is the process of delay.py; SOCKET is the room's. Rows go to TABLE as 'what | HTTP/2 | HTTP/1.1'."""
import os
import signal
import sys
import time

from browser import Browser, Checks

sys.path.insert(0, os.path.join(os.path.dirname(os.path.realpath(__file__)), '..', 'lib'))
from pipelined import Room  # noqa: E402

HOST = 'rooms.example'
ALL = 'rwanNxDtThHdcCoy'
# When the rows of a folder are there for the first time, and when their dates are.
WATCH = """
new MutationObserver((_, watching) => {
  if (!document.querySelector('table.folder tbody tr')) return;
  window.rowsAfter ??= performance.now();
  if (!document.querySelector('table.folder time')) return;
  window.datesAfter = performance.now();
  watching.disconnect();
}).observe(document, { childList: true, subtree: true });"""
# Whether the dates of a folder were asked for before its names had come.
BESIDE = """
const [dates, names] = ['/door/folder/wide', '/folder/wide'].map((path) =>
  performance.getEntriesByType('resource').find((one) => new URL(one.name).pathname === path));
return dates.startTime < names.responseEnd;"""
# Whether each script of the page was asked for before any had come.
AT_ONCE = """
const scripts = performance.getEntriesByType('resource')
  .filter(({ name }) => /page-[0-9a-f]+[.]js$/.test(name));
const first = Math.min(...scripts.map(({ responseEnd }) => responseEnd));
return scripts.length === 3 && scripts.every(({ startTime }) => startTime < first);"""
# Does something, and answers after how many milliseconds something holds.
TIMED = """
const done = arguments[arguments.length - 1];
const began = performance.now();
(%s)();
const look = () => ((%s)() ? done(performance.now() - began) : setTimeout(look, 5));
look();"""
PICK = """() => document.querySelector('[role=option]')
  .dispatchEvent(new Event('pointerdown', { cancelable: true }))"""
READY = """() => document.querySelector('.adding .outcome[aria-busy=false]')
  && !document.querySelector('.adding .primary').disabled"""
FIND = """() => document.querySelector('.find').click()"""
FOUND = """() => document.querySelector('.found-of .small')
  && [...document.querySelectorAll('.found .name')].some((one) => one.textContent === 'needle')"""


def fill(room, folder, count):
    """Folders with 100 documents each, in a folder whose list is one of those that offices ask
    for."""
    room.ask('POST', f'/folder/{folder}')
    room.ask('PUT', f'/dacl/{folder}', f'list:a\nA:fd:alice:{ALL}\nD:d:EVERYONE@:Dd\n'
             'A:fdg:staff:rwaxtc\nA:fi:OWNER@:d\n')
    for number in range(count // 101):
        room.ask('POST', f'/folder/{folder}/{number}')
    for number in range(count - count // 101):
        room.ask('PUT', f'/doc/{folder}/{number % max(1, count // 101)}/d{number}', 'x')
    room.send()


class Figures:
    def __init__(self, folder, port, log, line):
        self.folder, self.log, self.line = folder, log, int(line)
        self.base = f'https://{HOST}:{port}'
        self.rows, self.shares = {}, []
        self.browser = None

    def begin(self, version):
        words = ['--ignore-certificate-errors-spki-list='
                 + open(f'{self.folder}/spki', encoding='ascii').read().strip()]
        if version == 'HTTP/1.1':
            words.append('--disable-http2')
        self.browser = Browser(f'{self.folder}/{version.replace("/", "")}', self.base, 'alice', 'a',
                               f'MAP {HOST} 127.0.0.1', words=words)
        self.browser.driver.set_script_timeout(300)
        self.browser.driver.execute_cdp_cmd('Page.addScriptToEvaluateOnNewDocument',
                                            {'source': WATCH})

    def requests(self):
        return len(self.asked())

    def asked(self):
        """The targets of all requests."""
        with open(self.log, encoding='utf-8') as file:
            return [line.split(' ')[2] for line in file]

    def at_rest(self):
        """What the panel itself asks for is over, and is in the log."""
        before = -1
        while before != (before := self.requests()):
            time.sleep(0.5)

    def note(self, what, milliseconds, before):
        asked = self.requests() - before
        self.rows.setdefault(what, []).append(
            f'{milliseconds / 1000:.2f} s, {asked} request{"" if asked == 1 else "s"}')

    def load(self, what):
        """As by somebody who comes: no connection is open."""
        self.browser.driver.get('about:blank')
        os.kill(self.line, signal.SIGUSR1)
        before = self.requests()
        self.browser.driver.get(f'{self.base}/')
        after = self.browser.until(lambda: self.browser.script('return window.rowsAfter'), 'rows')
        self.browser.settled()
        self.note(what, after, before)
        assert self.browser.script(AT_ONCE), 'a script was asked for after another one'

    def dates(self, what):
        """How much later than the rows of a folder they come: the least of some loads. Of a long
        folder the first rows are drawn: one of these has a date."""
        self.browser.driver.execute_async_script("fetch('doc/wide/a', { method: 'PUT',"
                                                 " body: 'x' }).then(arguments[0])")
        least = 1e9
        for _ in range(5):
            self.browser.driver.get('about:blank')
            os.kill(self.line, signal.SIGUSR1)
            before = self.requests()
            self.browser.driver.get(f'{self.base}/#/wide')
            dates = self.browser.until(lambda: self.browser.script('return window.datesAfter'),
                                       'dates')
            rows = self.browser.script('return window.rowsAfter')
            least = min(least, dates - rows)
        self.note(what, least, before)
        # No further round of the line.
        assert self.browser.script(BESIDE), 'dates were asked for after the names'

    def share(self, what, folder):
        self.browser.open(f'#/{folder}?access')
        self.browser.until(lambda: self.browser.all('.holders'), 'the panel')
        self.browser.write('.picker input', 'bob')
        self.browser.until(lambda: self.browser.all('[role=option]'), 'a choice')
        self.at_rest()
        before = self.requests()
        self.note(what, self.browser.driver.execute_async_script(TIMED % (PICK, READY)), before)
        self.shares.append(self.asked()[before:])

    def find(self, what):
        self.browser.open('')
        self.browser.until(lambda: self.browser.all('.find'), 'the button')
        self.browser.write('.tools input', 'needle')
        before = self.requests()
        self.note(what, self.browser.driver.execute_async_script(TIMED % (FIND, FOUND)), before)


def see_counts(figures, checks):
    checks.holds('each was taken twice', all(len(one) == 2 for one in figures.rows.values()),
                 figures.rows)
    # (of what lies near it is asked once more where what lies below takes longer than that)
    counts = [len(one) for one in figures.shares]
    checks.holds('a share asks once what lies below, and no oftener by how much that is',
                 all(sum('/door/below/' in target for target in one) == 1
                     for one in figures.shares) and max(counts) <= min(counts) + 1,
                 figures.shares)


def main():
    folder, port, log, line, place, *more = sys.argv[1:]
    sizes, table = [int(one) for one in more[:3]], more[3:]
    room = Room(place)
    fill(room, 'some', sizes[0])
    fill(room, 'many', sizes[1])
    fill(room, 'rest', sizes[2] - sizes[0] - sizes[1])
    room.ask('POST', '/folder/wide')
    for number in range(sizes[0]):
        room.ask('PUT', f'/doc/wide/d{number}', 'x')
    room.ask('PUT', '/doc/rest/0/needle', 'x')
    room.send()
    figures, checks = Figures(folder, port, log, line), Checks()
    some, many, all_of = (f'{one:,}' for one in sizes)
    for version in ('HTTP/2', 'HTTP/1.1'):
        figures.begin(version)
        try:
            checks.step(f'{version}: the first time', lambda: figures.load(
                'the page, the first time'))
            checks.step(f'{version}: later', lambda: figures.load('the page, later'))
            checks.step(f'{version}: dates', lambda: figures.dates(
                f'when {some} documents changed, after their names'))
            checks.step(f'{version}: a share', lambda: figures.share(
                f'what comes of a share, {some} objects below', 'some'))
            checks.step(f'{version}: a large share', lambda: figures.share(
                f'what comes of a share, {many} objects below', 'many'))
            checks.step(f'{version}: a name', lambda: figures.find(
                f'a name among {all_of} objects'))
        finally:
            figures.browser.quit()
    see_counts(figures, checks)
    for name in table:
        with open(name, 'w', encoding='utf-8') as out:
            for what, cells in figures.rows.items():
                print(' | '.join([what, *cells]), file=out)
    print('end', flush=True)


main()
