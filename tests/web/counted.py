#!/usr/bin/env python3
"""How many clicks it takes to do what offices do most, at most: counted.py FOLDER FRONT-PORT

Each is what the best of the usual programs for that takes. Typing isn't a click."""

import base64
import datetime
import signal
import sys
import urllib.request

from browser import Browser, Checks
from people import Names, day
from selenium.webdriver.common.by import By

ALL = 'rwanNxDtThHdcCoy'
KEEP, OWN = 'D:d:EVERYONE@:Dd', 'A:fi:OWNER@:d'
USERS = ['alice', 'bob', 'carol', 'dana', 'eve']
GROUPS = {'staff': ['bob'], 'sales': [], 'law': [], 'press': [], 'clerks': [], 'house': []}


class Counted:
    def __init__(self, folder, front):
        self.folder = folder
        self.base = f'http://127.0.0.1:{front}'
        self.alice = None
        self.clicks = 0

    def ask(self, method, target, body=None):
        word = base64.b64encode(b'alice:a').decode()
        asked = urllib.request.Request(self.base + target, body, {'Authorization': f'Basic {word}'},
                                       method=method)
        with urllib.request.urlopen(asked) as reply:
            return reply.read().decode()

    def put_list(self, path, *lines):
        self.ask('PUT', f'/dacl{path}', '\n'.join([*lines, '']).encode())

    def own_of(self, path):
        return [line for line in self.ask('GET', f'/dacl{path}').split('\n')[1:]
                if line and 'I' not in line.split(':')[1]]

    def make(self):
        Names(f'{self.folder}/names').put('people.json', {
            'made': day(), 'members': True, 'users': USERS, 'groups': GROUPS, 'names': {}})
        for path in ('/work', '/work/deep', '/work/deep/deeper'):
            self.ask('POST', f'/folder{path}')
        self.put_list('/work', 'list:ap', f'A:fd:alice:{ALL}')
        self.ask('PUT', '/doc/work/deep/deeper/paper.pdf', b'%PDF-1.4\n')

    # What counts.

    def click(self, find, what):
        def does():
            one = find()
            if one is None:
                return False
            one.click()
            return True
        self.alice.until(does, what)
        self.clicks += 1

    def press(self, words, within='body'):
        self.click(lambda: self.alice.button(words, within), words)

    def choose(self, name, css=''):
        """A name that was typed."""
        self.alice.write('.picker input', name)
        self.click(lambda: next((one.find_element(By.CSS_SELECTOR, css) if css else one
                                 for one in self.alice.all('[role=option]')
                                 if name in one.text), None), name)

    def share(self):
        self.alice.until(lambda: self.alice.script(
            "return document.querySelector('.adding .primary')?.disabled === false"), 'Share')
        self.press('Share', '.adding')
        self.alice.says('can now')

    def confirm(self, words):
        self.alice.until(lambda: self.alice.all('dialog .outcome[aria-busy=false]'), 'a question')
        self.press(words, 'dialog .actions')
        self.alice.until(lambda: not self.alice.all('dialog'), 'its end')

    def row(self, folder, name):
        self.alice.open(f'#{folder}')
        self.alice.until(lambda: self.alice.names(), 'rows')
        self.clicks = 0
        self.press(f'Access: {name}')
        self.alice.until(lambda: self.alice.all('.holders'), 'the panel')

    # What is done.

    def with_colleague(self):
        self.row('/', 'work')
        self.choose('bob')
        self.share()
        assert 'A:fd:bob:rxtc' in self.own_of('/work'), self.own_of('/work')

    def with_group(self):
        self.row('/', 'work')
        self.choose('sales', '.quick')
        self.share()
        assert {'A:fdg:sales:rwaxtc', KEEP, OWN} <= set(self.own_of('/work'))

    def deep_document(self):
        """The way there, two folders above, is opened with it."""
        self.put_list('/work', 'list:ap', f'A:fd:alice:{ALL}')
        self.row('/work/deep/deeper', 'paper.pdf')
        self.choose('eve')
        self.share()
        assert self.own_of('/work/deep/deeper/paper.pdf') == ['A::eve:rxtc']
        for path in ('/work', '/work/deep', '/work/deep/deeper'):
            assert 'A::eve:x' in self.own_of(path), path

    def taken_back(self):
        self.row('/work/deep/deeper', 'paper.pdf')
        self.press('Remove access: eve')
        self.confirm('Remove access')
        self.alice.until(lambda: self.own_of('/work/deep/deeper/paper.pdf') == [], 'the list')
        for path in ('/work', '/work/deep', '/work/deep/deeper'):
            self.alice.until(lambda: 'A::eve:x' not in self.own_of(path), path)

    def three_people(self):
        self.row('/', 'work')
        for name in ('bob', 'carol', 'dana'):
            self.choose(name)
        self.share()
        assert {f'A:fd:{name}:rxtc' for name in ('bob', 'carol', 'dana')} <= set(
            self.own_of('/work'))

    def who_and_whence(self):
        self.row('/work', 'deep')
        assert 'from work' in ' '.join(self.alice.texts('.holders')[0].split())

    def two_of_six(self):
        """From the panel on."""
        self.put_list('/work', 'list:ap', f'A:fd:alice:{ALL}',
                      *[f'A:fdg:{group}:rxtc' for group in GROUPS])
        self.row('/work', 'deep')
        self.clicks = 0
        self.click(lambda: self.alice.one('.following input'), 'the tick')
        self.alice.until(lambda: self.alice.all('dialog .whom'), 'whom it is for')
        for name in ('law', 'press'):
            self.click(lambda: next(one for one in self.alice.all('dialog .whom label')
                                    if one.text.startswith(name)), name)
        self.confirm('Only these people')
        self.alice.until(lambda: self.ask('GET', '/dacl/work/deep').startswith('list:ap'), 'it')
        assert {line.split(':')[2] for line in self.own_of('/work/deep')} == {
            'alice', 'law', 'press'}, self.own_of('/work/deep')

    def month_later(self):
        self.put_list('/work', 'list:ap', f'A:fd:alice:{ALL}', 'A:fd:bob:rxtc')
        self.row('/', 'work')
        self.press('Last day of bob: no end')
        last = (datetime.date.today() + datetime.timedelta(days=31)).isoformat()
        self.alice.script("document.querySelector('.until input').value = arguments[0]", last)
        self.press('Set', '.until')
        self.alice.says('The access of bob ends on')

    def pdf(self):
        driver = self.alice.driver
        self.alice.open('#/work/deep/deeper')
        self.clicks = 0
        before = driver.current_window_handle
        self.press('paper.pdf', 'table.folder')
        self.alice.until(lambda: len(driver.window_handles) == 2, 'a tab')
        driver.switch_to.window(next(one for one in driver.window_handles if one != before))
        self.alice.until(lambda: driver.current_url.startswith('blob:'), 'the PDF')
        driver.close()
        driver.switch_to.window(before)


PLAY = [
    ('a folder with a colleague, to read', Counted.with_colleague, 4),
    ('a folder with a group, to change', Counted.with_group, 3),
    ('a document with a person, the way there included', Counted.deep_document, 4),
    ('that is taken back, the way included', Counted.taken_back, 3),
    ('a folder with three people', Counted.three_people, 5),
    ('who has access, and from where', Counted.who_and_whence, 1),
    ('only two of six groups', Counted.two_of_six, 4),
    ('an end a month later', Counted.month_later, 3),
    ('a look at a PDF', Counted.pdf, 1),
]


def main():
    signal.signal(signal.SIGTERM, lambda *_: sys.exit(1))
    play = Counted(*sys.argv[1:])
    checks = Checks()
    play.make()
    play.alice = Browser(f'{play.folder}/counting', play.base, 'alice', 'a')
    try:
        for name, act, most in PLAY:
            checks.step(name, lambda: act(play))
            checks.holds(f'{name}: {play.clicks} clicks', play.clicks <= most,
                         f'more than {most}')
    finally:
        play.alice.quit()
    play.ask('DELETE', '/object/work/deep/deeper/paper.pdf')
    for path in ('/work/deep/deeper', '/work/deep', '/work'):
        play.ask('DELETE', f'/object{path}')
    Names(f'{play.folder}/names').put('people.json', None)
    print('end', flush=True)


main()
