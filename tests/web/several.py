#!/usr/bin/env python3
"""The page of a room at a path, beside that of office: the same files, and requests that go below
the path.

    several.py FOLDER FRONT-PORT

carol may do all in the room invoices at /invoices/, and is nobody in office.
"""

import signal
import sys
import urllib.parse

from browser import Browser, Checks

LINKS = ("return [...document.querySelectorAll('a')]"
         ".map((one) => [one.innerText, one.getAttribute('href')])")


class Several:
    def __init__(self, folder, front):
        self.folder = folder
        self.site = f'http://127.0.0.1:{front}'
        self.base = f'{self.site}/invoices'
        self.carol = None

    def start(self):
        carol = self.carol
        carol.driver.get(f'{self.site}/rooms/')
        links = carol.script(LINKS)
        assert links == [['Invoices & <orders>', '/invoices/'], ['office', '/']], links
        assert carol.script(
            "return getComputedStyle(document.querySelector('.sheet')).padding") != '0px'
        carol.script("document.querySelector('a').click()")
        carol.settled()
        assert carol.driver.current_url == f'{self.base}/', carol.driver.current_url
        assert carol.one('#me').text == 'carol'

    def folder_and_documents(self):
        carol = self.carol
        carol.open('')
        carol.press('New folder')
        carol.write('dialog input', 'a b%2F?#')
        carol.press('Make it', 'dialog')
        # A slash can't be in a name, but what looks like an escaped one can.
        carol.says('a b%2F?#', 'was made')
        carol.press('a b%2F?#')
        path = f'{self.folder}/bill.txt'
        with open(path, 'wb') as file:
            file.write(b'ten')
        carol.script("document.querySelector('input[type=file]').hidden = false")
        carol.one('input[type=file]').send_keys(path)
        carol.until(lambda: len(carol.all('.uploads .good')) == 1, 'an upload')
        carol.lists('bill.txt')
        place = urllib.parse.quote('a b%2F?#', safe='')
        assert carol.driver.current_url == f'{self.base}/#/{place}', carol.driver.current_url
        carol.act('Download', 'bill.txt')
        assert carol.downloaded('bill.txt') == b'ten'

    def lists(self):
        carol = self.carol
        carol.open('#/?dacl')
        carol.until(lambda: carol.all('.entries select'), 'the list')
        carol.open('#/?rights')
        carol.until(lambda: carol.all('.rights'), 'the rights')

    def links(self):
        carol = self.carol
        carol.open('')
        carol.script("Object.defineProperty(navigator, 'clipboard', { value: undefined })")
        carol.act('Copy link', 'a b%2F?#')
        copied = carol.one('dialog input').get_attribute('value')
        assert copied == f'{self.base}/#/{urllib.parse.quote("a b%2F?#", safe="")}', copied


PLAY = [
    ('the start page leads to the room', Several.start),
    ('a folder and a document at a path', Several.folder_and_documents),
    ('lists at a path', Several.lists),
    ('links at a path', Several.links),
]


def main():
    signal.signal(signal.SIGTERM, lambda *_: sys.exit(1))
    several = Several(*sys.argv[1:])
    checks = Checks()
    carol = Browser(f'{several.folder}/carol', several.base, 'carol', 'c')
    try:
        several.carol = carol
        for name, act in PLAY:
            checks.step(name, lambda: act(several))
        errors = carol.errors()
        checks.holds('nothing on the console at a path', errors == [], str(errors))
    finally:
        carol.quit()
    print('end', flush=True)


main()
