"""The page in each language, on a telephone: languages.py FOLDER FRONT-PORT

FOLDER/names has what nginx serves at /people. The root lets alice do all, and everybody with a name
pass through. What a button says is asked of the page itself; what the languages say of one another
languages.mjs looks at."""

import base64
import signal
import sys
import urllib.request

from selenium.webdriver.common.keys import Keys

from browser import Browser, Checks
from people import Names, people

NARROW = (390, 800)
NAMES = {'en': 'English', 'de': 'Deutsch', 'fr': 'Français'}
# What a clerk of each language knows the button by.
SHARE = {'en': 'Share', 'de': 'Freigeben', 'fr': 'Partager'}
NEW_FOLDER = {'en': 'New folder', 'de': 'Neuer Ordner', 'fr': 'Nouveau dossier'}
UNTIL = {'en': '31 May 2099', 'de': '31. Mai 2099', 'fr': '31 mai 2099'}


class Languages:
    def __init__(self, folder, front):
        self.folder, self.base = folder, f'http://127.0.0.1:{front}'
        self.names = Names(f'{folder}/names')
        self.browsers = []
        self.alice = None

    def ask(self, method, target, body=None):
        word = base64.b64encode(b'alice:a').decode()
        asked = urllib.request.Request(self.base + target, body, {'Authorization': f'Basic {word}'},
                                       method=method)
        with urllib.request.urlopen(asked) as reply:
            return reply.read().decode()

    def begin(self, name, languages):
        """A browser of these languages, on a telephone."""
        made = Browser(f'{self.folder}/{name}', self.base, 'alice', 'a', languages=languages)
        self.browsers.append(made)
        made.resize(*NARROW)
        return made

    def make(self):
        self.names.put('people.json', people())
        for path in ('/letters', '/letters/2026', '/letters/board'):
            self.ask('POST', f'/folder{path}')
        self.ask('PUT', '/doc/letters/reply.txt', b'Dear all')
        self.alice = self.begin('alice', 'en')

    @staticmethod
    def spoken(user):
        return user.script('return document.documentElement.lang')

    def text(self, entry):
        """An entry of the table that the page has."""
        return self.alice.driver.execute_async_script(
            "const done = arguments[1]; import('./language.js').then(({ texts }) =>"
            " done(arguments[0].split('.').reduce((at, name) => at[name], texts)))", entry)

    def fits(self):
        """Nothing stands out of the window at the right, also in a dialog."""
        wide = self.alice.script("""
            const all = [document.scrollingElement, ...document.querySelectorAll('dialog')];
            return all.filter((one) => one.scrollWidth > one.clientWidth)
              .map((one) => `${one.tagName}: ${one.scrollWidth} of ${one.clientWidth}`)""")
        assert wide == [], wide

    @staticmethod
    def adds(user, words):
        """What a telephone has behind its '+'."""
        user.click(user.one('.phone .primary'))
        user.button(words, '.menu')
        user.type(Keys.ESCAPE)

    def of_browser(self):
        """The first one of the browser's that there is, or English."""
        for number, (wanted, language) in enumerate((('de-CH,fr,en', 'de'), ('it,fr-CA', 'fr'),
                                                     ('it', 'en'))):
            user = self.begin(f'of-browser-{number}', wanted)
            user.open('#/')
            assert self.spoken(user) == language, (wanted, self.spoken(user))
            self.adds(user, NEW_FOLDER[language])
            user.quit()
            self.browsers.remove(user)

    def asked(self, act):
        """The files of the page that nginx was asked for meanwhile."""
        with open(f'{self.folder}/access.log', encoding='utf-8') as log:
            before = len(log.readlines())
        act()
        with open(f'{self.folder}/access.log', encoding='utf-8') as log:
            targets = [line.split(' ')[2] for line in log.readlines()[before:]]
        return [one for one in targets if one == '/' or one.startswith('/page-')]

    def files(self):
        """Six at the first visit: page, its two scripts, the texts of the browser's language alone,
        style and sign. One later."""
        user = self.begin('files', 'fr')
        first = self.asked(lambda: user.open('#/'))
        assert len(first) == len(set(first)) == 6, first
        endings = sorted(one.rpartition('.')[2] for one in first)
        assert endings == ['/', 'css', 'js', 'js', 'js', 'svg'], first
        later = self.asked(lambda: user.open('#/letters'))
        assert later == ['/'], later
        user.quit()
        self.browsers.remove(user)

    def choose(self, language):
        """At the name's menu, and kept after that."""
        alice = self.alice
        alice.open('#/')
        now = self.spoken(alice)
        alice.press(self.text('account.menu'))
        chosen = alice.texts('.menu [aria-checked="true"]')
        assert [one.strip() for one in chosen] == [NAMES[now]], chosen
        self.fits()
        alice.press(NAMES[language], '.menu')
        alice.until(lambda: self.spoken(alice) == language, 'the other language')
        alice.settled()
        alice.open('#/letters')
        assert self.spoken(alice) == language
        self.adds(alice, NEW_FOLDER[language])

    def share(self, language):
        """With bob until a day, then changed and taken away, and nothing stands out."""
        alice = self.alice
        alice.open('#/letters?access')
        alice.until(lambda: alice.all('.holders'), 'who has access')
        self.fits()
        alice.write('.picker input', 'bob')
        alice.press_choice('Bob Lindqvist')
        alice.until(lambda: alice.all('.said'), 'what comes of it')
        alice.script("""const day = document.querySelector('.adding input[type=date]');
            day.value = '2099-05-31'; day.dispatchEvent(new Event('change'))""")
        alice.until(lambda: any(UNTIL[language] in one for one in alice.texts('.said')), 'the day')
        self.fits()
        alice.until(lambda: alice.script(
            "return document.querySelector('.adding .primary').disabled === false"), 'all of it')
        alice.press(SHARE[language], '.adding')
        alice.says('Bob Lindqvist', UNTIL[language])
        assert 'A:fd:bob:rxtc' in self.ask('GET', '/dacl/letters')
        assert any(UNTIL[language] in one for one in alice.texts('.holders')), 'the last day'
        self.fits()
        self.take_away()

    def take_away(self):
        alice = self.alice
        alice.script("""const one = [...document.querySelectorAll('.holders select')]
            .find((each) => each.getAttribute('aria-label').includes('Bob Lindqvist'));
            one.value = 'gone'; one.dispatchEvent(new Event('change'))""")
        alice.until(lambda: alice.all('dialog'), 'a question')
        self.fits()
        removes = self.text('access.removeAccess')
        alice.until(lambda: alice.script(
            'return [...document.querySelectorAll("dialog button")].some((one) =>'
            ' one.textContent === arguments[0] && !one.disabled)', removes), 'all was looked at')
        alice.press(removes, 'dialog')
        alice.until(lambda: 'bob' not in self.ask('GET', '/dacl/letters'), 'no line of bob')
        alice.until(lambda: not alice.all('dialog'), 'no question')

    def looks(self):
        """Each view, and the menus and questions of a folder."""
        alice = self.alice
        for place in ('#/', '#/letters', '#/letters?rights', '#/letters?dacl', '#/letters?sacl',
                      '#/letters/reply.txt?show', '#/letters/reply.txt?access', '#/none'):
            alice.open(place)
            self.fits()
        alice.open('#/letters')
        alice.click(alice.one('[data-path="/letters/reply.txt"] [data-act=menu]'))
        self.fits()
        alice.press(self.text('folder.renameOrMove'), '.menu')
        alice.until(lambda: alice.all('dialog'), 'where to')
        self.fits()
        alice.type(Keys.ESCAPE)
        alice.until(lambda: not alice.all('dialog'), 'no question')
        alice.click(alice.one('[data-path="/letters/2026"] [data-act=menu]'))
        alice.press(self.text('acts.remove'), '.menu')
        alice.until(lambda: alice.all('dialog'), 'a question')
        self.fits()
        alice.type(Keys.ESCAPE)

    def refuses(self):
        """What the room refuses is told in the language that was chosen."""
        alice = self.alice
        alice.open('#/none')
        words = self.alice.driver.execute_async_script(
            "const done = arguments[0]; import('./words.js').then(({ sentenceOf }) => done("
            "sentenceOf({ status: 404, body: { at: '/none' }, asked: null })))")
        assert words in alice.texts('.notice p') or any(
            words.replace('\u2068', '').replace('\u2069', '') in one
            for one in alice.texts('.notice')), (words, alice.texts('.notice'))


def main():
    folder, front = sys.argv[1:]
    signal.signal(signal.SIGTERM, lambda *_: sys.exit(1))
    languages, checks = Languages(folder, front), Checks()
    try:
        checks.step('objects', languages.make)
        checks.step('the language of a browser', languages.of_browser)
        checks.step('files of the page', languages.files)
        for language, name in [*NAMES.items(), ('en', 'English')][1:]:
            checks.step(f'{name} is chosen', lambda: languages.choose(language))
            checks.step(f'sharing in {name}', lambda: languages.share(language))
            checks.step(f'all fits in {name}', languages.looks)
            checks.step(f'a refusal in {name}', languages.refuses)
        errors = languages.alice.errors()
        checks.holds('nothing on the console', errors == [], str(errors))
    finally:
        for one in languages.browsers:
            one.quit()
    print('end', flush=True)


if __name__ == '__main__':
    main()
