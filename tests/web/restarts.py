#!/usr/bin/env python3
"""A server that ends and begins again while the page is at work.

    restarts.py FOLDER FRONT-PORT ACCESS-LOG PROGRAM ROOM SOCKET

ROOM is a room whose root lets alice do all. The server at SOCKET, behind the front end, is this
play's.
"""

import base64
import json
import os
import shutil
import signal
import subprocess
import sys
import time
import urllib.request

from browser import PATIENCE, Browser, Checks

MANY = 80
SIZE = 150000
# So many bytes a second that two documents are sent in a second, until the upload was interrupted.
SLOW = 300000
# The second list that is sent waits until 'window.go()'.
HOLD = """
const real = window.fetch;
let count = 0;
window.fetch = async (target, words) => {
  count += words?.method === 'PUT' ? 1 : 0;
  if (words?.method === 'PUT' && count === 2) {
    await new Promise((resolve) => { Object.assign(window, { held: true, go: resolve }); });
  }
  return real(target, words);
};
"""
CHOOSE = "document.querySelector('input.files').hidden = false"


class Restarts:
    def __init__(self, folder, front, log, program, room, place):
        self.folder, self.log, self.program, self.room = folder, log, program, room
        self.place = place
        self.base = f'http://127.0.0.1:{front}'
        self.alice = self.server = None

    def start(self):
        if os.path.lexists(self.place):
            os.unlink(self.place)
        with open(f'{self.folder}/served', 'wb') as out:
            self.server = subprocess.Popen(
                [self.program, 'serve', self.room, '--socket', self.place, '--count', '1000000'],
                stdout=out, stdin=subprocess.DEVNULL)
        self.alice.until(lambda: os.path.getsize(f'{self.folder}/served') > 0, 'a server')

    def kill(self):
        self.server.send_signal(signal.SIGKILL)
        self.server.wait()

    def ask(self, method, target, body=None):
        word = base64.b64encode(b'alice:a').decode()
        asked = urllib.request.Request(self.base + target, body, {'Authorization': f'Basic {word}'},
                                       method=method)
        with urllib.request.urlopen(asked) as reply:
            return reply.read()

    def names(self, path):
        return sorted(child['name'] for child in json.loads(self.ask('GET', f'/folder{path}')))

    def files(self, count):
        """Files of this machine, each with bytes of its own."""
        os.makedirs(f'{self.folder}/many', exist_ok=True)
        made = {}
        for number in range(1, count + 1):
            path = f'{self.folder}/many/Report {number:02}.txt'
            content = f'{number} '.encode() * (SIZE // 4)
            with open(path, 'wb') as file:
                file.write(content)
            made[path] = content
        return made

    def pace(self, bytes_a_second):
        self.alice.driver.execute_cdp_cmd('Network.enable', {})
        self.alice.driver.execute_cdp_cmd('Network.emulateNetworkConditions', {
            'offline': False, 'latency': 0, 'downloadThroughput': -1,
            'uploadThroughput': bytes_a_second})

    def upload(self, folder, paths):
        alice = self.alice
        alice.open(f'#{folder}')
        self.pace(SLOW)
        alice.script(CHOOSE)
        alice.one('input.files').send_keys('\n'.join(paths))
        # Under the pointer the panel stays.
        alice.point('.uploads h2')

    def sent(self):
        return self.alice.script("return document.querySelectorAll('.uploads .good').length")

    def reach(self, count):
        self.alice.until(lambda: self.sent() >= count, f'{count} documents')
        assert self.sent() < MANY, 'the upload was over before it could be interrupted'

    def lost_answers(self, since):
        """nginx says it of the room, and the door of a request by it."""
        with open(self.log, encoding='utf-8') as log:
            return [line for line in log.readlines()[since:] if line.startswith(('502 ', '503 '))]

    def lines(self):
        with open(self.log, encoding='utf-8') as log:
            return len(log.readlines())

    def kept(self, folder, made):
        names = [os.path.basename(path) for path in made]
        assert self.names(folder) == sorted(names), self.names(folder)
        for path, content in made.items():
            name = urllib.request.quote(os.path.basename(path))
            assert self.ask('GET', f'/doc{folder}/{name}') == content, name

    def ends_well(self):
        """All are told as uploaded, none as failed, and the panel goes by itself."""
        alice = self.alice
        alice.until(lambda: self.sent() == MANY, f'{MANY} documents')
        assert not alice.all('.uploads .bad') and not alice.all('.notice.bad')

    def interrupted(self):
        """80 documents, while the server is killed twice and once restarted by a change of
        groups."""
        self.ask('POST', '/folder/many')
        made = self.files(MANY)
        before = self.lines()
        self.upload('/many', made)
        for count in (4, 9, 14):
            self.reach(count)
            self.kill()
            if count == 14:
                subprocess.run([self.program, 'groups', self.room, f'{self.folder}/groups.csv'],
                               check=True,
                               stdout=subprocess.DEVNULL)
            # The page says that it waits, and that it still does.
            self.alice.says('The room doesn’t answer. The page tries again for half a minute.')
            time.sleep(1)
            self.start()
        self.pace(-1)
        self.ends_well()
        assert self.lost_answers(before), 'no answer was lost'
        self.kept('/many', made)

    def goes_by_itself(self):
        alice = self.alice
        assert alice.texts('.uploads .count') == [f'{MANY} of {MANY}']
        alice.point('h1')
        alice.until(lambda: not alice.all('.uploads'), 'the end of the panel')
        assert len(alice.names()) == MANY

    def set_back(self):
        """The room is restored from a copy meanwhile: the page says what is gone, and sends it once
        more."""
        alice = self.alice
        self.ask('POST', '/folder/back')
        self.ask('PUT', '/doc/back/Report%2001.txt', b'before')
        self.kill()
        for ending in ('', '-wal'):
            if os.path.exists(self.room + ending):
                shutil.copy(self.room + ending, f'{self.folder}/copy{ending}')
        self.start()
        made = self.files(MANY)
        self.upload('/back', made)
        alice.press('Replace it', 'dialog')
        self.reach(10)
        self.kill()
        self.pace(-1)
        for ending in ('', '-wal'):
            if os.path.exists(self.room + ending):
                os.remove(self.room + ending)
            if os.path.exists(f'{self.folder}/copy{ending}'):
                shutil.copy(f'{self.folder}/copy{ending}', self.room + ending)
        self.start()
        alice.says('The room was interrupted during the upload', 'that it had taken are gone',
                   'set back to an earlier copy', css='.notice.bad')
        alice.says('it was uploaded, but the room doesn’t have it any more', css='.uploads .bad')
        told = alice.script("return [...document.querySelectorAll('.uploads .bad .name')]"
                            ".map((one) => one.textContent)")
        assert 'Report 01.txt' in told and len(told) >= 10, told
        assert len(self.names('/back')) < MANY
        alice.press('Try the failed ones again')
        self.ends_well()
        self.kept('/back', made)

    def in_another_tab(self, place):
        driver = self.alice.driver
        driver.switch_to.new_window('tab')
        driver.get(f'{self.base}/{place}')
        return driver.current_window_handle

    def shared(self):
        """The server ends when somebody is given access: the page waits for it, and sends the
        list."""
        alice = self.alice
        alice.open('#/many?access')
        alice.write('.picker input', 'kim')
        alice.press_choice('as a person')
        alice.until(lambda: alice.all('.adding .outcome[aria-busy=false]'), 'what comes of it')
        self.kill()
        alice.press('Share', '.adding')
        alice.says('The room doesn’t answer. The page tries again for half a minute.')
        self.start()
        alice.says('kim can now read “many” and what is in it')
        assert b'A:fd:kim:rxtc\n' in self.ask('GET', '/dacl/many')

    def list_of(self, path):
        return self.ask('GET', f'/dacl{path}')

    def share_deep(self):
        """Shares a document below a folder that bars the way, and holds the second list that is
        sent."""
        alice = self.alice
        alice.open('#/deep/plan?access')
        alice.write('.picker input', 'lea')
        alice.press_choice('as a person')
        alice.until(lambda: alice.all('.adding .outcome[aria-busy=false]'), 'what comes of it')
        alice.says('Let lea pass through “All documents” and “deep” on the way here', css='.adding')
        alice.script(HOLD)
        alice.press('Share', '.adding')
        alice.until(lambda: alice.script('return window.held === true'), 'the second list')
        assert b'A::lea:x\n' in self.list_of('/')
        self.kill()
        alice.script('window.go()')
        alice.says('The room doesn’t answer. The page tries again for half a minute.')

    def shared_deep(self):
        """It ends between the lists that are sent: it goes on once the room is there, and says what
        stays if it isn't."""
        alice = self.alice
        self.ask('POST', '/folder/deep')
        self.ask('PUT', '/doc/deep/plan', b'x')
        before = [self.list_of(path) for path in ('/', '/deep', '/deep/plan')]
        self.share_deep()
        self.start()
        alice.says('lea can now read “plan”')
        assert b'A::lea:x\n' in self.list_of('/deep') and \
            b'A::lea:rxtc\n' in self.list_of('/deep/plan')
        for path, text in zip(('/', '/deep', '/deep/plan'), before):
            self.ask('PUT', f'/dacl{path}', text)
        self.share_deep()
        alice.until(lambda: any('couldn’t be taken back' in text
                                for text in alice.texts('.notice')), 'what stays', 120)
        told = alice.texts('.notice')
        self.start()
        assert any('“All documents” lets somebody pass through now, which' in text
                   for text in told), told
        assert any('The room doesn’t answer at the moment' in text for text in told), told
        alice.script("document.querySelectorAll('.notice').forEach((one) => one.remove())")
        assert [self.list_of(path) for path in ('/deep', '/deep/plan')] == before[1:]
        self.ask('PUT', '/dacl/', before[0])

    def gone_for_long(self):
        """After half a minute the page gives up, and offers another try: of an upload, of a removal
        of several, of a folder that isn't shown."""
        alice = self.alice
        driver = alice.driver
        made = dict(list(self.files(MANY).items())[:5])
        first, removing, shown = self.three_tabs(made)
        for tab, words, css in ((first, 'not sent', '.uploads .bad'),
                                (removing, '0 of 2 removed', 'dialog h2'),
                                (removing, 'The room doesn’t answer at the moment', 'dialog p'),
                                (shown, 'can’t be shown', '.empty')):
            driver.switch_to.window(tab)
            alice.until(lambda: any(words in text for text in alice.texts(css)), words,
                        60 + PATIENCE)
        self.start()
        driver.switch_to.window(shown)
        alice.press('Load again')
        alice.lists('b', 'c')
        driver.close()
        driver.switch_to.window(removing)
        alice.press('Try the failed ones again', 'dialog')
        alice.says('2 documents were removed')
        driver.close()
        driver.switch_to.window(first)
        alice.press('Try the failed ones again')
        alice.until(lambda: self.sent() == 5, 'five documents')
        self.kept('/later', made)
        assert self.names('/few') == []

    def three_tabs(self, made):
        """Without a room: one uploads files, one removes two documents, one shows a folder."""
        alice = self.alice
        driver = alice.driver
        for folder in ('few', 'later'):
            self.ask('POST', f'/folder/{folder}')
        for name in ('b', 'c'):
            self.ask('PUT', f'/doc/few/{name}', b'x')
        first = driver.current_window_handle
        removing = self.in_another_tab('#/few')
        alice.lists('b', 'c')
        alice.one('thead .pick input').click()
        # The room is asked before the question.
        alice.press('Remove', '.chosen')
        alice.button('Remove them', 'dialog')
        driver.switch_to.window(first)
        alice.open('#/later')
        self.kill()
        alice.script(CHOOSE)
        alice.one('input.files').send_keys('\n'.join(made))
        driver.switch_to.window(removing)
        alice.press('Remove them', 'dialog')
        return first, removing, self.in_another_tab('#/few')

    def full(self):
        """The front end refuses what adds, as long as the flag of a full room is there. That is
        said once, with what helps, and the rest isn't sent."""
        alice = self.alice
        flag = f'{self.folder}/run/rooms-full/office.full'
        os.makedirs(os.path.dirname(flag), exist_ok=True)
        with open(flag, 'w', encoding='utf-8'):
            pass
        alice.open('')
        alice.press('New folder')
        alice.write('dialog input', 'more')
        alice.press('Make it', 'dialog')
        alice.says('The room is full, so nothing was added. Remove what nobody needs any more',
                   'tell the administrator')
        # What makes room goes on.
        alice.act('Remove', 'back')
        alice.press('Remove it', 'dialog')
        alice.says('back was removed', patience=60 + PATIENCE)
        alice.script(CHOOSE)
        alice.one('input.files').send_keys('\n'.join(list(self.files(9))))
        alice.until(lambda: alice.texts('.uploads .count') == ['9 of 9'], 'the end of the upload')
        told = alice.texts('.uploads li .state')
        assert sum('The room is full' in text for text in told) <= 3, told
        assert told.count('not sent') >= 6, told
        os.remove(flag)
        alice.press('Try the failed ones again', '.uploads')
        alice.until(lambda: self.sent() == 9, 'nine documents')


PLAY = [
    ('an upload while the server is killed and restarted', Restarts.interrupted),
    ('the panel of an upload goes by itself', Restarts.goes_by_itself),
    ('an upload while the room is set back', Restarts.set_back),
    ('access while the server restarts', Restarts.shared),
    ('a server that ends in the middle of that', Restarts.shared_deep),
    ('a server that is gone for long', Restarts.gone_for_long),
    ('a room that is full', Restarts.full),
]


def main():
    signal.signal(signal.SIGTERM, lambda *_: sys.exit(1))
    restarts = Restarts(*sys.argv[1:])
    checks = Checks()
    restarts.alice = Browser(f'{restarts.folder}/restarts', restarts.base, 'alice', 'a')
    try:
        restarts.start()
        for name, act in PLAY:
            checks.step(name, lambda: act(restarts))
        errors = restarts.alice.errors()
        checks.holds('nothing on the console while it restarts', errors == [], str(errors))
    finally:
        restarts.alice.quit()
        if restarts.server:
            restarts.kill()
    print('end', flush=True)


main()
