"""What somebody meets at the page who has no mouse, in Chromium: by_keys.py FOLDER FRONT-PORT

FOLDER/names has what nginx serves at /people. The root lets alice do all, and everybody with a name
pass through. The door keeps dates, and who it was."""

import base64
import signal
import sys
import time
import urllib.request

from browser import Browser, Checks
from people import Names, day
from selenium.webdriver.common.keys import Keys

ALL = 'rwanNxDtThHdcCoy'
# A desk, and the same window at 400 %, with the bar that scrolls it.
DESK, ENLARGED = (1280, 900), (320, 225)
NAMES = {'alice': 'Alice Moreau', 'bob': 'Bob Lindqvist', 'zoe': 'Zoe Adams'}

# The label or the text of what has the focus.
FOCUSED = """
const at = document.activeElement;
return (at.ariaLabel ?? at.labels?.[0]?.innerText ?? at.innerText ?? '').trim();
"""
# What is read aloud by itself from now on.
LISTEN = """
window.heard = [];
new MutationObserver((changes) => {
  for (const { addedNodes } of changes) for (const one of addedNodes) {
    if (one.parentElement?.closest('.spoken, .alarm')) window.heard.push(one.textContent);
  }
}).observe(document.body, { childList: true, subtree: true });
"""
HEARD = "return window.heard.join(' ').replace(/[\\u2068\\u2069]/g, '')"
# Whether something else lies over all of what has the focus.
HIDDEN = """
const one = document.activeElement;
const { left, right, top, bottom } = one.getBoundingClientRect();
return [0.1, 0.5, 0.9].every((x) => [0.1, 0.5, 0.9].every((y) => {
  const at = document.elementFromPoint(left + (right - left) * x, top + (bottom - top) * y);
  return at === null || !one.contains(at) && !at.contains(one);
}));
"""
# The controls of the list of which a part is cut off.
CUT = """
const box = document.querySelector('.folder-view .sheet').getBoundingClientRect();
return [...document.querySelectorAll('table.folder :is(button, a, input)')].filter((one) => {
  const { left, right, width } = one.getBoundingClientRect();
  return one.checkVisibility() && width > 0 && (left < box.left || right > box.right);
}).map((one) => one.ariaLabel ?? one.innerText);
"""


class ByKeys:
    def __init__(self, folder, front):
        self.folder = folder
        self.base = f'http://127.0.0.1:{front}'
        self.alice = None

    def ask(self, method, target, body=None):
        word = base64.b64encode(b'alice:a').decode()
        asked = urllib.request.Request(self.base + target, body, {'Authorization': f'Basic {word}'},
                                       method=method)
        with urllib.request.urlopen(asked) as reply:
            return reply.read().decode()

    def make(self):
        Names(f'{self.folder}/names').put('people.json', {
            'made': day(), 'members': True, 'users': ['alice', 'bob', 'eve', 'zoe'],
            'groups': {'staff': ['bob', 'zoe']}, 'names': NAMES})
        for path in ('/letters', '/letters/2026', '/letters/board'):
            self.ask('POST', f'/folder{path}')
        for number in range(12):
            self.ask('PUT', f'/doc/letters/2026/Reply%20{number}.txt', b'Dear all')

    def lists(self):
        for path, more in (('/letters', 'A:fd:zoe:rxtc'), ('/letters/2026', 'A:fd:bob:rxtc')):
            self.ask('PUT', f'/dacl{path}',
                     f'list:ap\nA:fd:alice:{ALL}\n{more}\n'.encode())

    def level_of(self, user):
        return [line.rpartition(':')[2] for line in self.ask('GET', '/dacl/letters').split('\n')
                if f':{user}:' in line]

    def focused(self):
        return self.alice.script(FOCUSED)

    def has_focus(self, words):
        try:
            self.alice.until(lambda: self.focused().startswith(words), f'the focus at {words}', 5)
        except Exception:
            tag = self.alice.script('return document.activeElement.tagName')
            raise AssertionError(f'{tag} “{self.focused()[:60]}” has the focus, not “{words}”') \
                from None

    def go(self, words, key=Keys.TAB, most=60):
        for _ in range(most):
            if self.focused().startswith(words):
                return
            self.alice.type(key)
        raise AssertionError(f'{words} has no focus after {most}, but “{self.focused()}”')

    def hears(self, words):
        try:
            self.alice.until(lambda: words in self.alice.script(HEARD), words, 10)
        except Exception:
            raise AssertionError(f'heard “{self.alice.script(HEARD)}”, not “{words}”') from None

    def description(self, css):
        """That which Chromium tells a screen reader."""
        driver = self.alice.driver
        driver.execute_cdp_cmd('DOM.enable', {})
        top = driver.execute_cdp_cmd('DOM.getDocument', {'depth': 0})['root']['nodeId']
        node = driver.execute_cdp_cmd('DOM.querySelector', {'nodeId': top, 'selector': css})
        seen = driver.execute_cdp_cmd('Accessibility.getPartialAXTree', {
            'nodeId': node['nodeId'], 'fetchRelatives': False})['nodes'][0]
        return seen.get('description', {}).get('value', '')

    def opened(self, place):
        self.alice.open(f'#{place}')
        self.alice.until(lambda: self.alice.names() or self.alice.all('.holders'), 'it')
        self.alice.script(LISTEN)

    def levels(self):
        """An arrow key is on its way to another level, and asks nothing."""
        alice = self.alice
        self.lists()
        self.opened('/letters?access')
        alice.script("document.querySelector('main').focus()")
        self.go('What Zoe Adams can do')
        alice.type(Keys.ARROW_DOWN)
        time.sleep(1)
        assert not alice.all('dialog'), alice.texts('dialog h2')
        alice.type(Keys.ARROW_DOWN, Keys.ENTER)
        alice.says('goes from “Can read” to “Can add, change and remove”', css='dialog')
        alice.type(Keys.ESCAPE)
        alice.until(lambda: not alice.all('dialog'), 'its end')
        time.sleep(1)
        assert not alice.all('dialog'), 'it is asked twice'
        shown = "return document.activeElement.selectedOptions[0].textContent"
        assert alice.script(shown) == 'Can read', alice.script(shown)
        alice.type(Keys.ARROW_DOWN, Keys.ESCAPE)
        assert alice.script(shown) == 'Can read', alice.script(shown)
        # Whoever goes elsewhere is asked too.
        alice.type(Keys.ARROW_DOWN, Keys.TAB)
        alice.says('to “Can add and change”', css='dialog')
        assert self.level_of('zoe') == ['rxtc']
        alice.type(Keys.ENTER)
        alice.until(lambda: self.level_of('zoe') == ['rwaxtc'], 'the level')

    def closed(self):
        """The focus goes back to where it was before it came to what is closed."""
        alice = self.alice
        self.opened('/letters/2026')
        alice.script("document.querySelector('tbody [data-act=open]').focus()")
        alice.type(Keys.F2)
        alice.one('dialog input')
        alice.type('Answer', Keys.ENTER)
        alice.until(lambda: 'Answer.txt' in alice.names(), 'the new name')
        self.has_focus('Answer.txt')
        self.go('Close this message', most=3)
        alice.type(Keys.ENTER)
        self.has_focus('Answer.txt')
        # Nor does a message go by itself while the focus is in it.
        alice.type(Keys.F2)
        alice.one('dialog input')
        alice.type('Reply 0', Keys.ENTER)
        alice.until(lambda: 'Reply 0.txt' in alice.names(), 'the old name')
        self.go('Close this message', most=3)
        time.sleep(7)
        self.has_focus('Close this message')
        alice.type(Keys.ENTER)
        self.has_focus('Reply 0.txt')

    def upload(self, *files):
        self.alice.script("document.querySelector('input.files').hidden = false")
        self.alice.one('input.files').send_keys('\n'.join(files))
        self.alice.script("document.querySelector('input.files').hidden = true")

    def closed_panel(self):
        path = f'{self.folder}/too large.txt'
        with open(path, 'wb') as file:
            file.truncate(104857601)
        self.opened('/letters/2026')
        self.upload(path)
        self.alice.until(lambda: self.alice.texts('.uploads .count') == ['1 of 1'], 'the end')
        self.alice.script("document.querySelector('tbody [data-act=open]').focus()")
        self.go('Close', most=4)
        self.alice.type(Keys.ENTER)
        self.has_focus('Reply 0.txt')

    def forgotten(self):
        self.opened('/')
        self.go('Forget these')
        self.alice.type(Keys.ENTER)
        self.alice.until(lambda: not self.alice.all('.more-places h2'), 'its end')
        assert self.alice.script('return document.activeElement.tagName') == 'MAIN'

    def uncovered(self):
        """At 400 % a message that comes leaves in sight what has the focus."""
        alice = self.alice
        self.lists()
        alice.resize(*ENLARGED)
        self.opened('/letters?access')
        self.go('Add people or groups')
        alice.type('eve')
        alice.until(lambda: alice.all('[role=option]'), 'eve')
        alice.type(Keys.ENTER)
        alice.until(lambda: alice.script(
            "return document.querySelector('.adding .primary')?.disabled === false"), 'Share')
        self.go('Share')
        alice.type(Keys.ENTER)
        alice.until(lambda: 'can now read' in ' '.join(alice.texts('.notice')), 'a message')
        self.has_focus('Add people or groups')
        time.sleep(0.5)
        assert not alice.script(HIDDEN)
        alice.resize(*DESK)

    def ticked(self):
        """What can be done with it comes above the rows, and leaves the box in sight."""
        alice = self.alice
        alice.resize(*ENLARGED)
        self.opened('/letters/2026')
        self.go('Size')
        alice.type(Keys.TAB, Keys.ARROW_LEFT, Keys.SPACE)
        alice.until(lambda: alice.texts('.chosen .count') == ['1 selected'], 'it')
        bottom = "return document.activeElement.getBoundingClientRect().bottom"
        assert alice.script(bottom) <= ENLARGED[1], alice.script(bottom)
        alice.resize(*DESK)

    def narrow(self):
        """1.4.10: no control of a list with dates is cut off."""
        for size in (ENLARGED, (305, 640)):
            self.alice.resize(*size)
            self.opened('/letters/2026')
            self.alice.until(lambda: self.alice.all('[data-sort=size]'), 'the dates')
            assert self.alice.script(CUT) == [], (size, self.alice.script(CUT))
        self.alice.resize(*DESK)

    def filtered(self):
        """4.1.3: how many rows are left is said, once nothing more is typed."""
        self.opened('/letters/2026')
        self.go('Filter by name')
        self.alice.type('reply 1')
        self.hears('3 names with “reply 1”')
        self.alice.type('x')
        self.hears('Nothing')

    def into_rows(self):
        self.opened('/letters/2026')
        self.go('Select all')
        self.alice.type(Keys.ARROW_DOWN)
        self.has_focus('Reply 0.txt')

    def named(self):
        """What opens is said by its name."""
        self.opened('/letters')
        self.go('2026')
        self.alice.type(Keys.ENTER)
        self.has_focus('2026')
        assert self.alice.script('return document.activeElement.tagName') == 'MAIN'
        self.alice.until(lambda: 'Reply 1.txt' in self.alice.names(), 'it')
        self.go('Access')
        self.alice.type(Keys.ENTER)
        self.has_focus('2026, Who has access')

    def back(self):
        """The browser's own button leads to the link that led away."""
        alice = self.alice
        self.opened('/letters')
        self.go('2026')
        alice.type(Keys.ARROW_DOWN, Keys.ARROW_RIGHT)
        self.has_focus('Access: board')
        alice.type(Keys.ENTER)
        alice.until(lambda: alice.all('.holders'), 'who has access')
        alice.driver.back()
        alice.until(lambda: 'board' in alice.names(), 'the folder')
        self.has_focus('Access: board')

    def back_to_found(self):
        alice = self.alice
        self.opened('/')
        self.go('Filter by name')
        alice.type('reply 1', Keys.ENTER)
        alice.until(lambda: len(alice.all('.found a.object')) == 3, 'three')
        self.go('Reply 10.txt')
        alice.type(Keys.ENTER)
        alice.until(lambda: alice.all('main pre'), 'the document')
        alice.driver.back()
        alice.until(lambda: len(alice.all('.found a.object')) == 3, 'what was found')
        self.has_focus('Reply 10.txt')
        # A link to the folder that is open shows all of it.
        alice.press('All documents', 'header nav')
        alice.until(lambda: alice.names() == ['letters'], 'the folder')

    def outcome(self):
        """A dialog is read with what it says, and then what else would come of it."""
        alice = self.alice
        self.lists()
        self.opened('/letters?access')
        self.go('Remove access: Zoe Adams')
        alice.type(Keys.ENTER)
        alice.one('dialog')
        said = self.description('dialog')
        for words in ('is taken off the list', 'no access any more'):
            assert words in said, said
        alice.type(Keys.ESCAPE)
        self.opened('/letters/2026?access')
        self.go('Add people or groups')
        alice.type('eve')
        alice.until(lambda: alice.all('[role=option]'), 'eve')
        alice.type(Keys.ENTER)
        self.hears('Nobody loses anything')


PLAY = [('arrow keys and levels', ByKeys.levels), ('a message is closed', ByKeys.closed),
        ('a panel is closed', ByKeys.closed_panel), ('a list is forgotten', ByKeys.forgotten),
        ('a message hides no focus', ByKeys.uncovered),
        ('what is ticked stays in sight', ByKeys.ticked),
        ('a list with dates in a narrow window', ByKeys.narrow),
        ('from the heading into the rows', ByKeys.into_rows),
        ('a filter is heard', ByKeys.filtered), ('a place is heard', ByKeys.named),
        ('back to a row', ByKeys.back), ('back to what was found', ByKeys.back_to_found),
        ('what would come of it is heard', ByKeys.outcome)]


def main():
    folder, front = sys.argv[1:]
    signal.signal(signal.SIGTERM, lambda *_: sys.exit(1))
    play, checks = ByKeys(folder, front), Checks()
    play.make()
    play.alice = Browser(f'{folder}/alice', play.base, 'alice', 'a')
    try:
        play.alice.resize(*DESK)
        for name, act in PLAY:
            checks.step(name, lambda: act(play))
        errors = play.alice.errors()
        checks.holds('nothing on the console', errors == [], str(errors))
    finally:
        play.alice.quit()
    print('end', flush=True)


if __name__ == '__main__':
    main()
