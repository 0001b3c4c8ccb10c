"""PDFs in the page, in Chromium: pages.py FOLDER FRONT-PORT

FOLDER/pdfs has documents. The root lets alice do all, and bob read."""

import base64
import signal
import sys
import urllib.request

from browser import Browser, Checks
from selenium.webdriver.common.keys import Keys

PASSWORDS = {'alice': 'a', 'bob': 'b'}
PAPERS = '#/papers'
# What is drawn on a page, as far as its picture shows any of it.
INK = """
const image = document.querySelectorAll('.pages img')[arguments[0]];
const canvas = Object.assign(document.createElement('canvas'),
  { width: image.naturalWidth, height: image.naturalHeight });
const pen = canvas.getContext('2d');
pen.drawImage(image, 0, 0);
const points = pen.getImageData(0, 0, canvas.width, canvas.height).data;
let ink = 0;
for (let at = 0; at < points.length; at += 4) if (points[at] < 128) ink += 1;
return [image.naturalWidth, image.naturalHeight, ink > 1000];
"""


class Pages:
    def __init__(self, folder, front):
        self.folder = folder
        self.base = f'http://127.0.0.1:{front}'
        self.alice = self.bob = None

    def ask(self, method, target, body=None):
        word = base64.b64encode(b'alice:a').decode()
        asked = urllib.request.Request(self.base + target, body, {'Authorization': f'Basic {word}'},
                                       method=method)
        with urllib.request.urlopen(asked) as reply:
            return reply.read()

    def document(self, name):
        with open(f'{self.folder}/pdfs/{name}.pdf', 'rb') as source:
            return source.read()

    def make(self):
        self.ask('POST', '/folder/papers')
        self.ask('PUT', '/sacl/papers', b'list:a\nU:fdSF:EVERYONE@:r\n')
        for name in ('letter', 'many', 'rubbish', 'forms', 'plan'):
            self.ask('PUT', f'/doc/papers/{name}.pdf', self.document(name))
        self.ask('PUT', '/doc/papers/words.pdf', b'only words')
        self.ask('PUT', '/doc/papers/closed.pdf', self.document('letter'))
        self.ask('PUT', '/dacl/papers/closed.pdf',
                 b'list:ap\nA::alice:rwanNxDtThHdcCoy\nA::bob:tc\n')

    @staticmethod
    def alts(user):
        return user.script("return [...document.querySelectorAll('.pages img')].map("
                           '(one) => one.alt)')

    def opened(self, user, name):
        user.open(PAPERS)
        user.press(f'{name}.pdf', 'table.folder')

    @staticmethod
    def focused(user):
        return user.script("""const at = document.activeElement;
            return at.ariaLabel ?? at.innerText""")

    def by_one_click(self):
        """All pages, one below the other, each with its number, and none in a frame."""
        bob = self.bob
        self.opened(bob, 'letter')
        bob.until(lambda: self.alts(bob)[:1] == ['Page 1 of 3'], 'the first page')
        assert bob.script(INK, 0) == [1414, 2000, True], bob.script(INK, 0)
        assert bob.texts('dialog h2') == ['letter.pdf']
        # The keys scroll in it at once.
        assert self.focused(bob) == 'letter.pdf', self.focused(bob)
        bob.until(lambda: bob.type(Keys.END) or self.alts(bob) == [
            f'Page {page} of 3' for page in (1, 2, 3)], 'all pages')
        assert not bob.all('dialog .pages-end')
        assert bob.script(INK, 2)[2]
        assert bob.script('return frames.length') == 0
        # (what is behind the dialog has no name while that is open)
        assert all(one.accessible_name for one in bob.all('dialog :is(button, [tabindex])'))
        bob.press('Download', 'dialog')
        assert bob.downloaded('letter.pdf') == self.document('letter')
        bob.type(Keys.ESCAPE)
        bob.until(lambda: not bob.all('dialog'), 'its end')
        assert self.focused(bob).strip() == 'letter.pdf', self.focused(bob)

    def by_keys(self):
        """From the list by keys alone, with a larger picture, and in a tab."""
        alice = self.alice
        alice.open(PAPERS)
        alice.script("""[...document.querySelectorAll('table.folder [data-act=open]')]
            .find((one) => one.innerText.includes('letter')).focus()""")
        alice.type(Keys.ENTER)
        alice.until(lambda: self.alts(alice), 'the first page')
        wide = "return document.querySelector('.pages img').clientWidth"
        before = alice.script(wide)
        alice.type(Keys.TAB)
        # (a page that isn't there yet has a button before it)
        if self.focused(alice) == 'Next page':
            alice.type(Keys.TAB)
        assert self.focused(alice) == 'Larger', self.focused(alice)
        alice.type(Keys.SPACE)
        alice.until(lambda: alice.script(wide) > 1.8 * before, 'a larger one')
        assert alice.script("return document.activeElement.ariaPressed") == 'true'
        driver, first = alice.driver, alice.driver.current_window_handle
        alice.type(Keys.TAB, Keys.TAB)
        assert self.focused(alice) == 'Open in a tab', self.focused(alice)
        alice.type(Keys.ENTER)
        alice.until(lambda: len(driver.window_handles) == 2, 'a tab')
        driver.switch_to.window(next(one for one in driver.window_handles if one != first))
        alice.until(lambda: driver.current_url.startswith(f'blob:{self.base}/'), 'the PDF')
        driver.close()
        driver.switch_to.window(first)
        alice.type(Keys.ESCAPE)
        alice.until(lambda: not alice.all('dialog'), 'its end')

    def by_its_link(self):
        """Who comes by a link sees the document."""
        alice = self.alice
        alice.open('#/papers/letter.pdf?show')
        alice.until(lambda: self.alts(alice)[:1] == ['Page 1 of 3'], 'the first page')
        alice.until(lambda: len(self.alts(alice)) == 3 or alice.script(
            'window.scrollTo(0, document.scrollingElement.scrollHeight)'), 'all pages')
        assert not alice.all('.in-tab')
        alice.press('Larger', 'main')
        assert not alice.is_wider()

    def telephone(self):
        for wide, high in ((320, 800), (390, 844), (390, 664)):
            self.alice.resize(wide, high)
            self.opened(self.alice, 'letter')
            self.alice.until(lambda: self.alts(self.alice), 'the first page')
            assert not self.alice.is_wider()
            shown = self.alice.script("""
                const { left, right, width } =
                  document.querySelector('.pages img').getBoundingClientRect();
                const buttons = [...document.querySelectorAll('dialog .actions button')];
                const dialog = document.querySelector('dialog').getBoundingClientRect();
                return [left >= 0, right <= innerWidth, width > 0.8 * innerWidth,
                  buttons.every((one) => one.getBoundingClientRect().right <= dialog.right
                    && one.getBoundingClientRect().bottom <= dialog.bottom),
                  dialog.bottom <= innerHeight]""")
            assert shown == [True] * 5, (wide, high, shown)
            self.alice.type(Keys.ESCAPE)
        self.alice.resize(1200, 900)

    def refused(self):
        """Why there is none is told, with the way to have it all the same."""
        alice = self.alice
        for name, words in (('rubbish', 'is damaged'), ('forms', 'takes too much'),
                            ('words', 'no PDF document')):
            self.opened(alice, name)
            alice.says(words, 'ownload', css='dialog .content', patience=60)
            assert not self.alts(alice)
            alice.press('Download', 'dialog')
            assert alice.downloaded(f'{name}.pdf')
            alice.press('Close', 'dialog')

    def large(self):
        """A scan that the room keeps in parts."""
        alice = self.alice
        asked = urllib.request.Request(
            f'{self.base}/door/doc/papers/scan.pdf', self.document('scan'), {
                'If-None-Match': '*',
                'Authorization': f"Basic {base64.b64encode(b'alice:a').decode()}"}, method='PUT')
        with urllib.request.urlopen(asked) as reply:
            assert reply.status == 201, reply.status
        self.opened(alice, 'scan')
        alice.until(lambda: self.alts(alice) == ['Page 1 of 1'], 'the page')
        alice.press('Close', 'dialog')

    def many(self):
        """Of thousands of pages some are fetched: those that somebody gets to."""
        alice = self.alice
        self.opened(alice, 'many')
        alice.until(lambda: self.alts(alice)[:1] == ['Page 1 of 14,000'], 'the first page')
        alice.until(lambda: len(self.alts(alice)) > 2 or alice.script(
            "document.querySelector('dialog .content').scrollTo(0, 1e6)"), 'more')
        assert len(self.alts(alice)) < 9, self.alts(alice)
        alice.press('Close', 'dialog')

    def denied(self):
        self.bob.open(PAPERS)
        self.bob.script("""document.querySelector(
            '[data-path="/papers/closed.pdf"] [data-act=open]').click()""")
        self.bob.says('you may not read')
        assert not self.bob.all('dialog')

    def replaced(self):
        """Pages of two documents never stand beside one another."""
        alice = self.alice
        self.ask('PUT', '/doc/papers/late.pdf', self.document('many'))
        alice.open(PAPERS)
        alice.script("""window.fetch = ((real) => async (target, ...rest) => {
            if (/[?]2$/.test(target)) await new Promise((go) => { window.go = go; });
            return real(target, ...rest); })(window.fetch)""")
        alice.press('late.pdf', 'table.folder')
        alice.until(lambda: alice.script(
            "document.querySelector('dialog .content')?.scrollTo(0, 1e6);"
            'return Boolean(window.go)'),
            'the second page is asked for')
        self.ask('PUT', '/doc/papers/late.pdf', self.document('letter'))
        alice.script('window.go()')
        alice.says('Somebody else changed the document meanwhile', css='dialog .content')
        assert self.alts(alice) == ['Page 1 of 14,000']
        alice.press('Close', 'dialog')

    def away(self):
        """A page that didn't come is asked for again by a press."""
        alice = self.alice
        alice.open(PAPERS)
        alice.script("""window.fails = true;
            window.fetch = ((real) => async (target, ...rest) => (
            window.fails && /[?]2$/.test(target) ? new Response('{"why":"x"}', { status: 500 })
              : real(target, ...rest)))(window.fetch)""")
        alice.press('letter.pdf', 'table.folder')
        alice.until(lambda: alice.script(
            "document.querySelector('dialog .content')?.scrollTo(0, 1e6)")
            or alice.all('.pages-end .hint'), 'why')
        alice.script('window.fails = false')
        alice.press('Try again', 'dialog')
        alice.until(lambda: len(self.alts(alice)) >= 2, 'the second page')
        alice.press('Close', 'dialog')


PLAY = [('a PDF by one click', Pages.by_one_click), ('by keys', Pages.by_keys),
        ('by its link', Pages.by_its_link), ('on a telephone', Pages.telephone),
        ('what can not be shown', Pages.refused), ('a scan of ten megabytes', Pages.large),
        ('thousands of pages', Pages.many),
        ('who may not read it', Pages.denied), ('one that is replaced', Pages.replaced),
        ('a page that does not come', Pages.away)]


def main():
    folder, front = sys.argv[1:]
    signal.signal(signal.SIGTERM, lambda *_: sys.exit(1))
    play, checks, made = Pages(folder, front), Checks(), []
    play.make()
    try:
        for user in ('alice', 'bob'):
            made.append(Browser(f'{folder}/{user}', play.base, user, PASSWORDS[user]))
            setattr(play, user, made[-1])
        for name, act in PLAY:
            checks.step(name, lambda: act(play))
        for one in made:
            errors = one.errors()
            checks.holds('nothing on the console', errors == [], str(errors))
    finally:
        for one in made:
            one.quit()
    print('end', flush=True)


if __name__ == '__main__':
    main()
