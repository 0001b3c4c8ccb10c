#!/usr/bin/env python3
"""The links by which a program on the computer opens a document and saves it in place.

    editing.py FOLDER FRONT-PORT SITE

/drive is spoken where SITE is 'drive', and isn't where it is 'none'.
"""

import signal
import sys

from browser import Browser, Checks

SUITE = ('LibreOffice', 'vnd.libreoffice.command')
ASKED = ("return performance.getEntriesByType('resource')"
         ".filter((one) => one.name.endsWith('/drive/')).length")


class Editing:
    def __init__(self, folder, front, site):
        self.folder = folder
        self.base = f'http://127.0.0.1:{front}'
        self.has = site == 'drive'
        self.alice = None

    def menu(self, name):
        """What a document's menu has before 'Download', with where each entry leads."""
        alice = self.alice
        alice.one(f'tr[data-path="/{name}"] [data-act=menu]').click()
        entries = alice.script("return [...document.querySelectorAll('.menu > *')]"
                               ".map((one) => [one.textContent, one.getAttribute('href')])")
        alice.one('h1').click()
        assert not alice.all('.menu')
        return entries[:entries.index(['Download', None])]

    def with_programs(self, address, *programs):
        """What the menu should have, if the site has such addresses."""
        links = [[f'Open in {name}', f'{scheme}:ofe|u|{self.base}/drive/{address}']
                 for name, scheme in programs]
        return [['Preview', None], *(links if self.has else [])]

    def of_the_suite(self):
        self.alice.open('')
        self.alice.lists('plain', 'letter & |.odt', 'notes.txt', 'plan.DOCX')
        wanted = self.with_programs('letter%20%26%20%7C.odt', SUITE)
        self.alice.until(lambda: self.menu('letter & |.odt') == wanted, 'the entry')

    def of_others(self):
        wanted = self.with_programs('plan.DOCX', SUITE, ('Word', 'ms-word'))
        assert self.menu('plan.DOCX') == wanted, self.menu('plan.DOCX')
        assert self.menu('notes.txt') == self.with_programs('notes.txt'), self.menu('notes.txt')

    def asked_once(self):
        """And never without need."""
        assert self.alice.script(ASKED) == 1
        self.alice.open('#/plain')
        self.alice.lists('notes.txt')
        assert self.alice.script(ASKED) == 0


PLAY = [
    ('a document of LibreOffice', Editing.of_the_suite),
    ('documents of others', Editing.of_others),
    ('the site is asked once', Editing.asked_once),
]


def main():
    signal.signal(signal.SIGTERM, lambda *_: sys.exit(1))
    editing = Editing(*sys.argv[1:])
    checks = Checks()
    alice = Browser(f'{editing.folder}/alice-{sys.argv[3]}', editing.base, 'alice', 'a')
    try:
        editing.alice = alice
        for name, act in PLAY:
            checks.step(name, lambda: act(editing))
    finally:
        alice.quit()
    print('end', flush=True)


main()
