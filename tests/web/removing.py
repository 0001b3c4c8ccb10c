"""What is removed with all below it, in Chromium: removing.py FOLDER FRONT-PORT ACCESS-LOG SOCKET

The root lets alice do all. The door is started anew a second after it was killed."""

import base64
import os
import re
import signal
import sys
import urllib.request

from browser import Browser, Checks

sys.path.insert(0, os.path.join(os.path.dirname(os.path.realpath(__file__)), '..', 'lib'))
from pipelined import Room  # noqa: E402

MANY, SOME = 5000, 1500
# Calls back in the middle of a removal, once so many are gone.
COUNTED = """
const [most, done] = arguments;
const look = () => {
  const [gone] = (document.querySelector('.uploads .count')?.textContent ?? '0').split(' ');
  if (Number(gone.replace(',', '')) >= most) done(true);
  else setTimeout(look, 5);
};
look();
"""
# Whether a page that is left now would ask first.
ASKS = """const event = new Event('beforeunload', { cancelable: true });
window.dispatchEvent(event); return event.defaultPrevented;"""


class Removing:
    def __init__(self, folder, front, log, place):
        self.folder, self.log = folder, log
        self.base = f'http://127.0.0.1:{front}'
        self.room = Room(place)
        self.alice = None

    def ask(self, method, target, body=None):
        word = base64.b64encode(b'alice:a').decode()
        asked = urllib.request.Request(self.base + target, body, {'Authorization': f'Basic {word}'},
                                       method=method)
        with urllib.request.urlopen(asked) as reply:
            return reply.read().decode()

    def fill(self, count):
        self.ask('POST', '/folder/many')
        for number in range(count):
            self.room.ask('PUT', f'/doc/many/{number}', 'x')
        self.room.send()

    def requests(self, before):
        with open(self.log, encoding='utf-8') as file:
            return [line.split()[1:3] for line in file.readlines()[before:]]

    def lines(self):
        with open(self.log, encoding='utf-8') as file:
            return len(file.readlines())

    def kill_door(self):
        """In the middle of its work."""
        with open(f'{self.folder}/door.pid', encoding='utf-8') as file:
            os.kill(int(file.read()), signal.SIGKILL)

    def asked(self):
        alice = self.alice
        alice.open('')
        alice.act('Remove', 'many')
        alice.until(lambda: alice.all('dialog .danger'), 'a question')

    def at_once(self):
        """It is asked first, and then is one request; the page can't be left unasked."""
        alice = self.alice
        self.fill(MANY)
        before = self.lines()
        self.asked()
        assert '5,000 documents' in alice.texts('dialog p')[0], alice.texts('dialog p')
        alice.press('Remove it', 'dialog')
        assert alice.driver.execute_async_script(COUNTED, 100)
        assert alice.script(ASKS)
        alice.says('many was removed', patience=120)
        assert not alice.script(ASKS)
        changes = [[method, target] for method, target in self.requests(before)
                   if method != 'GET' and not target.startswith('/door/goes')]
        assert changes == [['POST', '/door/remove/']], changes
        assert '"many"' not in self.ask('GET', '/folder/')

    def ticked(self):
        """So it is with those that are ticked, though their names are too long for an address."""
        alice = self.alice
        self.fill(SOME)
        alice.open('#/many')
        before = self.lines()
        alice.until(lambda: alice.all('thead .pick input'), 'the tick')
        alice.one('thead .pick input').click()
        alice.press('Remove', '.chosen')
        alice.says('1,500 documents will be gone', css='dialog')
        alice.press('Remove them', 'dialog')
        alice.says('1,500 documents were removed', patience=120)
        changes = [one for one in self.requests(before) if one[0] != 'GET']
        assert changes == [['POST', '/door/goes/many'], ['POST', '/door/remove/many']], changes
        self.ask('DELETE', '/object/many')

    def killed(self):
        """A door that is killed in the middle: once there is one again, the rest goes too."""
        alice = self.alice
        self.fill(SOME)
        self.asked()
        alice.press('Remove it', 'dialog')
        assert alice.driver.execute_async_script(COUNTED, 200)
        self.kill_door()
        alice.says('many was removed', patience=120)
        assert '"many"' not in self.ask('GET', '/folder/')

    def named(self):
        """If something came to the rest meanwhile, nothing more goes, and what is left is named."""
        alice = self.alice
        self.fill(SOME)
        self.asked()
        alice.press('Remove it', 'dialog')
        assert alice.driver.execute_async_script(COUNTED, 200)
        self.kill_door()
        self.ask('PUT', '/doc/many/late', b'x')
        told = alice.until(lambda: [one for one in alice.texts('.notice')
                                    if 'Still there: many' in one], 'what is left')
        left = self.ask('GET', '/folder/many').count('"name"')
        assert 1 < left < SOME - 100, left
        wanted = f'Still there: many ({left:,} documents and 1 folder).'
        assert wanted in re.sub('[\u2068\u2069]', '', told[0]), (wanted, told)
        assert '"late"' in self.ask('GET', '/folder/many')


PLAY = [('5,000 by one request', Removing.at_once), ('1,500 that are ticked', Removing.ticked),
        ('a door that is killed', Removing.killed), ('what it leaves', Removing.named)]


def main():
    signal.signal(signal.SIGTERM, lambda *_: sys.exit(1))
    play, checks = Removing(*sys.argv[1:]), Checks()
    play.alice = Browser(f'{play.folder}/removing', play.base, 'alice', 'a')
    try:
        for name, act in PLAY:
            checks.step(name, lambda: act(play))
    finally:
        play.alice.quit()
    print('end', flush=True)


if __name__ == '__main__':
    main()
