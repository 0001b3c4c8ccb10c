"""The play of a user's own password: own_password.py FOLDER FRONT BROWSER [PORT]

BROWSER is chromium or firefox, which listens at PORT. alice has 'first one of alice', carol a first
password, 'given to carol', which opens nothing. Of the room hr root alone changes passwords."""

import os
import sys
import time

sys.path.insert(0, os.path.dirname(os.path.realpath(__file__)))
from browser import Browser, Checks  # noqa: E402
from selenium.webdriver.common.keys import Keys  # noqa: E402
from tasks import Counted  # noqa: E402

FIELDS = 'dialog input[type=password]'
# nginx takes an old one for ten seconds.
FORGOTTEN = 12


class Passwords:
    def __init__(self, start):
        self.alice = start('alice', 'first%20one%20of%20alice')
        self.carol = start('carol', 'given%20to%20carol')

    @staticmethod
    def fill(user, *texts):
        for field, text in zip(user.all(FIELDS), texts):
            field.clear()
            field.send_keys(text)
        user.press('Change it', 'dialog')

    @staticmethod
    def status_of(user, target):
        return user.driver.execute_async_script(
            'const done = arguments[1];'
            'fetch(arguments[0]).then((reply) => done(reply.status), () => done(0));', target)

    def opened(self):
        """By two clicks, and the third one changes it."""
        self.alice.open('#/')
        at = Counted(self.alice)
        at.press('Your account')
        at.press('Change your password', '.menu')
        assert len(self.alice.until(lambda: self.alice.all(FIELDS), 'the fields')) == 3
        assert at.count == 2, at.count

    def refused(self):
        """Each in words, and the dialog stays."""
        alice = self.alice
        for texts, words in (
                (('first one of alice', 'gravel under bridges', 'gravel over bridges'), 'differ'),
                (('wrong', 'gravel under bridges', 'gravel under bridges'), 'isn’t right'),
                (('first one of alice', 'short', 'short'), 'at least 10'),
                (('first one of alice', 'password12', 'password12'), 'easy to guess')):
            self.fill(alice, *texts)
            alice.says(words, css='dialog .wrong')
            # What is to be typed anew has the focus.
            present, new = alice.all(FIELDS)[:2]
            wanted = present if words == 'isn’t right' else new
            alice.until(lambda one=wanted: alice.script(
                'return document.activeElement === arguments[0]', one), f'the focus: {words}')

    def changed(self):
        alice = self.alice
        self.fill(alice, 'first one of alice', 'gravel under bridges', 'gravel under bridges')
        alice.says('was changed')
        assert not alice.all('dialog')

    def goes_on(self):
        """The browser sends the new one, and asks nobody."""
        time.sleep(FORGOTTEN)
        assert self.status_of(self.alice, 'folder/') == 200
        self.alice.reload()
        assert self.alice.all('main .bar')

    def by_keys(self):
        """Beside what is typed."""
        alice = self.alice
        alice.open('#/')
        at = Counted(alice)
        at.go('Your account')
        at.type(Keys.ENTER)
        at.go('Change your password', Keys.ARROW_DOWN)
        at.type(Keys.ENTER)
        alice.until(lambda: alice.all(FIELDS), 'the fields')
        for text in ('gravel under bridges', 'walnuts under bridges', 'walnuts under bridges'):
            alice.type(text)
            at.type(Keys.TAB)
        at.go('Change it')
        at.type(Keys.ENTER)
        alice.says('was changed')
        assert at.count <= 24, at.count
        # Back to the one that those after this know.
        time.sleep(FORGOTTEN)
        alice.open('#/')
        at.press('Your account')
        at.press('Change your password', '.menu')
        alice.until(lambda: alice.all(FIELDS), 'the fields')
        self.fill(alice, 'walnuts under bridges', 'gravel under bridges', 'gravel under bridges')
        alice.says('was changed')
        time.sleep(FORGOTTEN)

    def first(self):
        """Nothing but the change is offered, and the room opens after it."""
        carol = self.carol
        carol.driver.get(f'{carol.base}/#/')
        carol.one('dialog')
        assert 'Choose a password of your own' in carol.texts('dialog h2')
        self.fill(carol, 'given to carol', 'walnuts in december', 'walnuts in december')
        carol.says('opens in some seconds')
        time.sleep(FORGOTTEN)
        assert self.status_of(carol, 'folder/') == 200
        carol.open('#/')
        assert not carol.all('dialog')

    def elsewhere(self):
        alice = self.alice
        alice.driver.get(f"{alice.base.replace('//', '//alice:gravel%20under%20bridges@')}/hr/me")
        alice.open('hr/#/')
        alice.press('Your account')
        alice.press('Change your password', '.menu')
        alice.says('the administrator alone')

    def quiet(self):
        for user in (self.alice, self.carol):
            assert user.errors() == [], user.errors()


def main():
    folder, front, browser, *port = sys.argv[1:]
    made = []

    def start(user, password):
        place, base = f'{folder}/{browser}-{user}', f'http://127.0.0.1:{front}'
        if browser == 'firefox':
            from firefox import Firefox
            made.append(Firefox(place, base, user, password, int(port[0]) + len(made)))
        else:
            made.append(Browser(place, base, user, password))
        return made[-1]
    checks = Checks()
    try:
        play = Passwords(start)
        for name, act in (
                ('the dialog at the name', play.opened), ('what is refused', play.refused),
                ('the change', play.changed), ('the browser goes on', play.goes_on),
                *([('by few keys', play.by_keys)] if browser == 'chromium' else []),
                ('a first password', play.first), ('where root alone changes it', play.elsewhere),
                ('no fault in the console', play.quiet)):
            checks.step(f'{browser}: {name}', act)
    finally:
        for one in made:
            one.quit()
    print('end', flush=True)


main()
