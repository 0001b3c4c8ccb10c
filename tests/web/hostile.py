"""Documents with scripts in them, by each way to a document, in Chromium: hostile.py FOLDER FRONT

Each script would leave a word in the browser's store of this site, and change the title."""

import base64
import io
import signal
import sys
import urllib.request
import zipfile

from browser import Browser, Checks

SCRIPT = "localStorage.setItem('evil', 'yes'); document.title = 'evil';"
HTML = f'<!doctype html><title>x</title><script>{SCRIPT}</script><img src=x onerror="{SCRIPT}">'
SVG = (f'<svg xmlns="http://www.w3.org/2000/svg" width="9" height="9" onload="{SCRIPT}">'
       f'<script>{SCRIPT}</script><rect width="9" height="9"/></svg>')
XHTML = (f'<?xml version="1.0"?><html xmlns="http://www.w3.org/1999/xhtml"><head><script>{SCRIPT}'
         '</script><title>x</title></head><body/></html>')
PAPERS = {'page.html': HTML, 'picture.svg': SVG, 'page.xhtml': XHTML, 'called.pdf': HTML,
          'called.png': HTML, 'called.txt': HTML}
# Some kilobytes that say 400 MB of blanks, or of a text that stands in each cell.
BLANKS = ('<d xmlns:text="urn:t"><body>' + '<text:s text:c="100000000"/>' * 4
          + '<text:s text:c="1000"/>' * 20000 + '<p>end</p></body></d>')
SHARED = f'<sst><si><t>{"x" * 1000000}</t></si></sst>'
CELL = '<c t="s"><v>0</v></c>'
SHEET = f'<worksheet><row>{CELL * 400}</row></worksheet>'
BOMBS = {'blanks.odt': {'content.xml': BLANKS},
         'cells.xlsx': {'xl/sharedStrings.xml': SHARED, 'xl/worksheets/sheet1.xml': SHEET}}
# Behind which the bytes of a document stand.
WAYS = ['doc/bad/', 'door/doc/bad/', 'drive/bad/']
EVIL = "return [localStorage.getItem('evil'), document.title === 'evil']"


class Hostile:
    def __init__(self, folder, front):
        self.folder = folder
        self.base = f'http://127.0.0.1:{front}'
        self.alice = None

    def ask(self, method, target, body=None):
        word = base64.b64encode(b'alice:a').decode()
        asked = urllib.request.Request(f'{self.base}/{target}', body,
                                       {'Authorization': f'Basic {word}'}, method=method)
        with urllib.request.urlopen(asked) as reply:
            return reply.headers, reply.read()

    def make(self):
        self.ask('POST', 'folder/bad')
        for name, text in PAPERS.items():
            self.ask('PUT', f'doc/bad/{name}', text.encode())

    def is_harmless(self, what):
        alice = self.alice
        driver = alice.driver
        for one in driver.window_handles[1:]:
            driver.switch_to.window(one)
            driver.close()
        driver.switch_to.window(driver.window_handles[0])
        found = alice.script(EVIL)
        assert found == [None, False], (what, found)

    def looked_at(self):
        """In the page: by a press, by its menu, by its link."""
        alice = self.alice
        for name in PAPERS:
            alice.open('#/bad')
            alice.until(lambda: len(alice.names()) == len(PAPERS), 'the rows')
            alice.press(name, 'table.folder')
            alice.open('#/bad')
            alice.act('Preview', name)
            alice.until(lambda: alice.all('dialog .content > *'), name)
            assert not alice.all('dialog .content :is(script, iframe, svg, object, embed)'), name
            self.is_harmless(f'{name} by its menu')
            alice.open(f'#/bad/{name}?show')
            alice.until(lambda: alice.all('.shown-document > *'), name)
            self.is_harmless(f'{name} by its link')

    def in_a_tab(self):
        """HTML that is called a PDF, as a browser opens it."""
        alice = self.alice

        def is_open():
            return len(alice.driver.window_handles) == 2
        alice.open('#/bad')
        alice.press('called.pdf', 'table.folder')
        alice.until(lambda: is_open() or alice.all('dialog'), 'it')
        if not is_open():
            alice.press('Open in a tab', 'dialog')
            alice.until(is_open, 'a tab')
        self.is_harmless('a tab')

    def of_little_bytes(self):
        """What a few bytes say a million times isn't shown."""
        alice = self.alice
        self.ask('POST', 'folder/bombs')
        for name, parts in BOMBS.items():
            made = io.BytesIO()
            with zipfile.ZipFile(made, 'w', zipfile.ZIP_DEFLATED) as packed:
                for part, text in parts.items():
                    packed.writestr(part, text)
            self.ask('PUT', f'doc/bombs/{name}', made.getvalue())
            alice.open(f'#/bombs/{name}?show')
            alice.until(lambda: alice.all('.shown-document > *'), name)
            assert 'no preview' in alice.one('.shown-document').text, name

    def by_address(self):
        """Nothing is shown as a page of this site, whatever leads there."""
        alice = self.alice
        for way in WAYS:
            for name in PAPERS:
                headers, _ = self.ask('GET', way + name)
                assert headers['X-Content-Type-Options'] == 'nosniff', (way, name)
                assert headers['Content-Disposition'].startswith('attachment'), (way, name)
                assert 'sandbox' in headers['Content-Security-Policy'], (way, name)
                assert headers['Content-Type'] in (None, 'application/octet-stream'), (way, name)
            for name in ('page.html', 'picture.svg', 'page.xhtml'):
                alice.driver.get('about:blank')
                alice.driver.get(f'{self.base}/{way}{name}')
            alice.open('')
            self.is_harmless(way)
        headers, _ = self.ask('GET', 'door/zip/bad')
        assert headers['Content-Type'] == 'application/zip'
        assert headers['Content-Disposition'].startswith('attachment')


PLAY = [('hostile documents in the page', Hostile.looked_at),
        ('one in a tab', Hostile.in_a_tab), ('of little bytes', Hostile.of_little_bytes),
        ('by their addresses', Hostile.by_address)]


def main():
    signal.signal(signal.SIGTERM, lambda *_: sys.exit(1))
    play, checks = Hostile(*sys.argv[1:]), Checks()
    play.make()
    play.alice = Browser(f'{play.folder}/hostile', play.base, 'alice', 'a')
    try:
        for name, act in PLAY:
            checks.step(name, lambda: act(play))
    finally:
        play.alice.quit()
    print('end', flush=True)


if __name__ == '__main__':
    main()
