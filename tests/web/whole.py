"""The play of what goes as a whole or not at all: removals, and uploads that go on meanwhile."""

import os

from selenium.webdriver.common.keys import Keys

ALL = 'rwanNxDtThHdcCoy'


class Whole:
    def put_list(self, path, *lines):
        self.ask('PUT', f'/dacl{path}', '\n'.join([*lines, '']).encode())

    def halves(self):
        """Bob may remove /half/board, and not what is in it; into /half/shut he can't see."""
        for path in ('/half', '/half/board', '/half/shut'):
            self.ask('POST', f'/folder{path}')
        for path in ('one', 'two', 'board/plan', 'shut/secret'):
            self.ask('PUT', f'/doc/half/{path}', b'x')
        manager = f'A:fd:alice:{ALL}'
        self.put_list('/half', 'list:a', manager, 'A:fd:bob:rwaxDtc')
        self.put_list('/half/board', 'list:ap', manager, 'A:fd:bob:rxtc')
        self.put_list('/half/shut', 'list:ap', manager)

    def names_of(self, path):
        return self.ask('GET', f'/folder{path}')

    def nothing_half(self):
        """What may not be removed is named before the question, and nothing is gone."""
        bob = self.bob
        self.halves()
        before = self.names_of('/half')
        bob.open('#/half')
        for name in ('one', 'board'):
            bob.click(bob.one(f'[aria-label="Select: {name}"]'))
        bob.press('Remove', '.chosen')
        bob.says('You may not remove “/half/board/plan”, so nothing was removed.',
                 'Ask alice, who can change that')
        assert not bob.all('dialog') and self.names_of('/half') == before

    def nothing_unseen(self):
        """A folder that has something in it which bob can't see keeps all else from going."""
        bob = self.bob
        before = self.names_of('/half')
        bob.open('#/half')
        for name in ('one', 'shut'):
            bob.click(bob.one(f'[aria-label="Select: {name}"]'))
        bob.press('Remove', '.chosen')
        bob.says('You may not see what is in “/half/shut”', css='dialog')
        bob.press('Remove them', 'dialog')
        bob.says('“/half/shut” isn’t empty')
        assert self.names_of('/half') == before

    def delete_ticked(self):
        """The key means what is ticked, wherever it is pressed."""
        alice = self.alice
        alice.open('#/half')
        for name in ('one', 'two'):
            alice.click(alice.one(f'[aria-label="Select: {name}"]'))
        alice.one('[data-path="/half/board"] [data-act=open]').send_keys(Keys.DELETE)
        alice.says('Remove 2 documents?', css='dialog h2')
        alice.press('Remove them', 'dialog')
        alice.says('2 documents were removed')
        alice.lists('board', 'shut')
        alice.one('[data-path="/half/board"] [data-act=open]').send_keys(Keys.DELETE)
        alice.says('Remove the folder?', css='dialog h2')
        alice.press('Cancel', 'dialog')
        alice.until(lambda: not alice.all('dialog'), 'the end of the question')
        alice.open('')
        alice.act('Remove', 'half')
        alice.press('Remove it', 'dialog')
        alice.says('half was removed')

    def slow(self, latency):
        """Each request takes so many milliseconds longer."""
        self.alice.driver.execute_cdp_cmd('Network.enable', {})
        self.alice.driver.execute_cdp_cmd('Network.emulateNetworkConditions', {
            'offline': False, 'latency': latency, 'downloadThroughput': -1, 'uploadThroughput': -1})

    def what_came_meanwhile(self):
        """What somebody puts there after the question isn't removed with the rest."""
        alice = self.alice
        self.ask('POST', '/folder/asked')
        self.ask('PUT', '/doc/asked/one', b'x')
        alice.open('')
        alice.act('Remove', 'asked')
        alice.says('1 document', css='dialog')
        self.ask('PUT', '/doc/asked/late', b'x')
        alice.press('Remove it', 'dialog')
        alice.says('Somebody else changed it meanwhile, so nothing was done')
        assert '"late"' in self.names_of('/asked') and '"one"' in self.names_of('/asked')
        alice.act('Remove', 'asked')
        alice.says('2 documents', css='dialog')
        alice.press('Remove it', 'dialog')
        alice.says('asked was removed')

    def away_and_back(self):
        """A folder that is left and shown again has all that was uploaded meanwhile; of the files
        only the one fails that is gone from the computer."""
        alice = self.alice
        self.ask('POST', '/folder/away')
        alice.open('#/away')
        paths = [self.file(f'away {number}.txt', b'x') for number in range(1, 10)]
        alice.script("document.querySelector('input[type=file]').hidden = false")
        self.slow(400)
        alice.one('input[type=file]').send_keys('\n'.join(paths))
        os.remove(paths[-1])
        alice.script("location.hash = '#/'")
        alice.until(lambda: alice.texts('h1') == ['All documents'], 'another folder')
        alice.script("location.hash = '#/away'")
        alice.until(lambda: alice.texts('h1') == ['away'], 'the folder again')
        alice.until(lambda: len(alice.names()) == 8, 'all that were sent')
        self.slow(0)
        # It was folded when another place was opened.
        alice.press('Details', '.uploads')
        alice.says('can’t be read on this computer any more', css='.uploads .bad')
        assert alice.texts('.uploads .bad .name') == ['away 9.txt']
        alice.press('Close', '.uploads')
        alice.open('')
        alice.act('Remove', 'away')
        alice.press('Remove it', 'dialog')
        alice.says('away was removed')
