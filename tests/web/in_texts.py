"""One field for names and texts, in Chromium: in_texts.py FOLDER FRONT-PORT

Answers about texts are this play's, in the place of the door's. The root lets alice do all."""

import base64
import json
import signal
import sys
import urllib.request

from browser import Browser, Checks
from selenium.webdriver.common.keys import Keys

FIELD = '.tools input'
# Whether texts are searched, and what of them is told: 'window.says' is [status, body], and while
# 'window.holds' nothing is answered. 'window.asked' has the targets, 'window.given' is what /mine
# has.
STUB = """
Object.assign(window, { asked: [], says: arguments[1], searches: arguments[0], given: arguments[2],
                        holds: false });
window.fetch = ((real) => async (target, ...rest) => {
  if (target === 'mine' && window.given) {
    return Response.json({ made: new Date().toISOString(), managers: [], places: window.given });
  }
  if (/^door[/]search[/]/.test(target)) {
    window.asked.push(target);
    if (window.holds) await new Promise((go) => { window.go = go; });
    const [status, told] = window.says;
    return new Response(told, { status });
  }
  const reply = await real(target, ...rest);
  if (!/^door[/]folder[/]/.test(target)) return reply;
  return new Response(JSON.stringify({ ...await reply.json(), searches: window.searches }));
})(window.fetch);
"""
HOSTILE = '<img src=x onerror="document.title = 1">'


def told(found, **more):
    return [200, json.dumps({'all': True, 'at': '/', 'found': found, 'night': '2026-11-30.020000',
                             'unread': 0, 'without': 0, **more})]


PLAN = {'count': 4, 'path': '/deep/er/Notice of June.pdf',
        'text': ['the ', 'Kündigung', 'sschreiben of Ms Müller']}


class InTexts:
    def __init__(self, folder, front):
        self.base = f'http://127.0.0.1:{front}'
        self.alice = Browser(f'{folder}/alice', self.base, 'alice', 'a')

    def ask(self, method, target, body=None):
        word = base64.b64encode(b'alice:a').decode()
        asked = urllib.request.Request(self.base + target, body, {'Authorization': f'Basic {word}'},
                                       method=method)
        with urllib.request.urlopen(asked) as reply:
            return reply.read()

    def make(self):
        for path in ('/deep', '/deep/er'):
            self.ask('POST', f'/folder{path}')
        for path in ('/letter.txt', '/deep/er/Notice%20of%20June.pdf', '/deep/notice.txt'):
            self.ask('PUT', f'/doc{path}', b'x')

    def opened(self, searches=True, says=None, given=None):
        """The folder, as it is where texts are searched or not."""
        alice = self.alice
        alice.open('#/deep')
        alice.script(STUB, searches, says or told([]), given)
        alice.script("location.hash = '#/'")
        alice.until(lambda: 'letter.txt' in alice.names(), 'the rows')
        words = 'Find in names and texts' if searches else 'Filter by name'
        alice.until(lambda: alice.script(
            'return document.querySelector(arguments[0]).ariaLabel', FIELD) == words, words)
        return alice

    def looked(self, text):
        self.alice.write(FIELD, text)
        self.alice.type(Keys.ENTER)
        self.alice.until(lambda: self.alice.all('.found-of'), 'what is found')

    def without(self):
        """Where the room searches no texts, the field is as before, and nothing is asked."""
        alice = self.opened(False)
        self.looked('notice')
        alice.until(lambda: alice.texts('.found .name') == ['Notice of June.pdf', 'notice.txt']
                    or alice.texts('.found .name') == ['notice.txt', 'Notice of June.pdf'],
                    'names')
        assert not alice.all('.found-in-texts')
        assert alice.script('return window.asked') == []

    def both(self):
        """Names at once, and below them texts, with the words marked."""
        alice = self.opened(says=told([PLAN], without=3, unread=2))
        alice.script('window.holds = true')
        self.looked('kündigung müller')
        alice.says('Looking through texts', css='.found-in-texts')
        alice.until(lambda: alice.script('return Boolean(window.go)'), 'it is asked')
        alice.script('window.go()')
        alice.until(lambda: alice.all('.in-texts'), 'texts')
        assert alice.script('return window.asked') == [
            'door/search/?k%C3%BCndigung%20m%C3%BCller'], alice.script('return window.asked')
        assert alice.texts('.in-texts .name') == ['Notice of June.pdf']
        assert alice.texts('.in-texts mark') == ['Kündigung']
        assert alice.texts('.snippet') == ['the Kündigungsschreiben of Ms Müller']
        said = ' '.join(alice.texts('.found-in-texts'))
        for words in ('In texts, as of', '02:00', 'and since then', '4 times', 'in /deep/er',
                      'Without text, such as scans: 3 documents.',
                      'Changed since then and not looked through: 2 documents.',
                      '“u” also finds “ü”. But “ue” doesn’t'):
            assert words in said, (words, said)
        assert alice.unnamed() == [], alice.unnamed()

    def readable(self):
        """A name stands in one line and what is in the text below it, on a desk and a telephone."""
        long = {**PLAN, 'path': '/deep/er/Notice of all days of June.pdf',
                'text': ['the ' * 30, 'Kündigung', 'sschreiben of Ms Müller' * 4]}
        for width in (1280, 390):
            self.alice.resize(width, 844)
            alice = self.opened(says=told([long]))
            self.looked('kündigung')
            alice.until(lambda: alice.all('.snippet'), 'texts')
            name, text = (alice.one(f'.in-texts {css}').rect for css in ('.name', '.snippet'))
            assert name['height'] < 30 and text['y'] >= name['y'] + name['height'], (width, name)
            assert text['width'] > width * 0.7, (width, text)
            assert not alice.is_wider()
        self.alice.resize(1200, 900)

    def given(self):
        """What was given to me in a folder that doesn't show it is found from above too."""
        for path in ('/closed', '/closed/bills', '/closed/other'):
            self.ask('POST', f'/folder{path}')
        self.ask('PUT', '/doc/closed/bills/Bill%20of%20June.txt', b'x')
        self.ask('PUT', '/dacl/closed/bills', b'list:ap\nA:fd:alice:rwaxDdtcC\n')
        self.ask('PUT', '/dacl/closed', b'list:ap\nA:fd:alice:xcCDd\n')
        places = [{'path': f'/closed/{name}', 'kind': 'folder', 'rights': 'rxtc'}
                  for name in ('bills', 'gone')]
        alice = self.opened(says=told([PLAN]), given=places)
        self.looked('bill')
        alice.until(lambda: alice.texts('.found:not(.in-texts) .name') == [
            'bills', 'Bill of June.txt'], 'what was given')
        alice.until(lambda: alice.texts('.in-texts .name') == ['Notice of June.pdf'], 'texts')
        assert alice.script('return window.asked') == [
            f'door/search/{place}?bill' for place in ('', 'closed/bills', 'closed/gone')]
        self.ask('PUT', '/dacl/closed', b'list:a\n')
        for path in ('/closed/bills/Bill%20of%20June.txt', '/closed/bills', '/closed/other',
                     '/closed'):
            self.ask('DELETE', f'/object{path}')

    def back(self):
        """Whoever comes back from what was found, or loads the page again, finds it again."""
        alice = self.opened(says=told([PLAN]))
        self.looked('notice')
        alice.until(lambda: alice.all('.in-texts .object'), 'texts')
        alice.click(alice.one('.in-texts .object'))
        alice.until(lambda: alice.texts('h1') == ['Notice of June.pdf'], 'the document')
        alice.driver.back()
        alice.until(lambda: alice.texts('.in-texts .name') == ['Notice of June.pdf'], 'texts')
        assert alice.script('return document.querySelector(arguments[0]).value', FIELD) == 'notice'
        alice.until(lambda: len(alice.all('.found .object')) == 3, 'names')
        alice.reload()
        alice.until(lambda: len(alice.all('.found .object')) == 2, 'names')
        # Once it is put away it doesn't come again.
        alice.press('Back to the folder')
        alice.until(lambda: 'letter.txt' in alice.names(), 'the rows')
        alice.press('deep')
        alice.until(lambda: 'notice.txt' in alice.names(), 'the folder')
        alice.driver.back()
        alice.until(lambda: 'letter.txt' in alice.names(), 'the rows')
        alice.settled()
        assert not alice.all('.found-of')
        alice.until(lambda: alice.script('return history.state?.find ?? null') is None,
                    'nothing is kept')

    def by_keys(self):
        """From the field down through names and texts, and back by Escape."""
        alice = self.opened(says=told([PLAN, {**PLAN, 'path': '/deep/other.pdf'}]))
        self.looked('notice')
        alice.until(lambda: len(alice.all('.found-of .found .object')) == 4, 'names and texts')
        wanted = alice.texts('.found-of .found .object .name')
        got = []
        for _ in wanted:
            alice.type(Keys.ARROW_DOWN)
            got.append(alice.script('return document.activeElement.innerText').strip())
        assert got == wanted, (got, wanted)
        alice.type(Keys.ARROW_UP)
        assert alice.script('return document.activeElement.innerText').strip() == wanted[-2]
        alice.type(Keys.ESCAPE)
        assert alice.script('return document.activeElement.matches(arguments[0])', FIELD)
        alice.type(Keys.ESCAPE)
        alice.until(lambda: 'letter.txt' in alice.names(), 'the rows again')

    def read_aloud(self):
        alice = self.opened(says=told([PLAN]))
        alice.script("""window.read = [];
            for (const one of document.querySelectorAll('body > :is(.spoken, .alarm)')) {
              new MutationObserver(() => window.read.push(one.textContent))
                .observe(one, { childList: true }); }""")
        self.looked('june')
        alice.until(lambda: any('1 document with these words in the text' in one
                                for one in alice.script('return window.read')), 'it is said')

    def as_text(self):
        """What stands in a document or in its name is text, whatever it says."""
        alice = self.opened(says=told([
            {'count': 1, 'path': f'/deep/{HOSTILE.replace("/", "")}',
             'text': [HOSTILE, HOSTILE, HOSTILE]}, {'count': 2, 'path': '/deep/x', 'text': None},
            {'count': -1, 'path': '/deep/y', 'text': ['one']}]))
        self.looked('onerror')
        alice.until(lambda: len(alice.all('.in-texts .object')) == 3, 'texts')
        assert not alice.all('.found-of img')
        assert alice.texts('.snippet') == [HOSTILE * 3]
        assert alice.texts('.in-texts mark') == [HOSTILE]
        assert alice.script('return document.title') != '1'

    def later(self):
        """The place in a document that is told without one comes by a press."""
        alice = self.opened(says=told([{'count': 2, 'path': '/deep/x'}]))
        self.looked('kündigung')
        alice.until(lambda: alice.all('.in-texts .where'), 'a button')
        alice.script('window.asked = []; window.says = arguments[0]', told([PLAN], night=None))
        alice.press('Show the place')
        alice.until(lambda: alice.texts('.snippet') == ['the Kündigungsschreiben of Ms Müller'],
                    'the place')
        assert alice.script('return window.asked') == ['door/search/deep/x?k%C3%BCndigung']

    def none(self):
        alice = self.opened(says=told([], all=False))
        self.looked('june')
        alice.says('No text that was looked through', css='.found-in-texts')
        alice.says('Not all could be looked through', css='.found-in-texts')
        alice.script('window.says = arguments[0]', told([]))
        # A link to the open folder leads back to it.
        alice.click(alice.one('#home'))
        alice.until(lambda: 'letter.txt' in alice.names(), 'the rows again')
        self.looked('june')
        alice.says('No text of a document that you may read', css='.found-in-texts')
        # One letter is looked for in names alone.
        alice.script('window.asked = []')
        self.looked('j')
        alice.says('words of two letters and more', css='.found-in-texts')
        assert alice.script('return window.asked') == []

    def not_now(self):
        """Names are there all the same, and a press looks again."""
        alice = self.opened(says=[503, '{"why":"no-texts"}'])
        self.looked('notice')
        alice.says('Texts can’t be looked through at the moment.', css='.found-in-texts')
        alice.until(lambda: len(alice.all('.found .object')) == 2, 'names')
        alice.script('window.says = arguments[0]', told([PLAN]))
        alice.press('Try again', '.found-in-texts')
        alice.until(lambda: alice.texts('.in-texts .name') == ['Notice of June.pdf'], 'texts')

    def typed_on(self):
        """What is typed meanwhile counts, and not what comes late."""
        alice = self.opened(says=told([PLAN]))
        alice.script('window.holds = true')
        self.looked('notice')
        alice.until(lambda: alice.script('return Boolean(window.go)'), 'it is asked')
        alice.write(FIELD, 'letter')
        alice.script('window.holds = false; window.go()')
        alice.until(lambda: alice.names() == ['letter.txt'], 'the rows that fit')
        assert not alice.all('.in-texts')

    def telephone(self):
        alice = self.opened(says=told([{**PLAN, 'text': ['x' * 90, 'y' * 80, 'z' * 90]}]))
        for width in (320, 390):
            alice.resize(width, 800)
            self.looked('june')
            alice.until(lambda: alice.all('.snippet'), 'texts')
            assert not alice.is_wider()
        alice.resize(1200, 900)


PLAY = [('where no texts are searched', InTexts.without), ('names and texts', InTexts.both),
        ('names that are read', InTexts.readable), ('the way back', InTexts.back),
        ('what was given further down', InTexts.given),
        ('by keys', InTexts.by_keys), ('what is read aloud', InTexts.read_aloud),
        ('what is hostile', InTexts.as_text), ('a place by a press', InTexts.later),
        ('nothing is found', InTexts.none),
        ('not at the moment', InTexts.not_now), ('something else meanwhile', InTexts.typed_on),
        ('on a telephone', InTexts.telephone)]


def main():
    signal.signal(signal.SIGTERM, lambda *_: sys.exit(1))
    play, checks = InTexts(*sys.argv[1:]), Checks()
    try:
        play.make()
        for name, act in PLAY:
            checks.step(name, lambda: act(play))
        errors = play.alice.errors()
        checks.holds('nothing on the console', errors == [], str(errors))
    finally:
        play.alice.quit()
    print('end', flush=True)


if __name__ == '__main__':
    main()
