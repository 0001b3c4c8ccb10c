"""The play of moves to where more people can get at something, and of links."""

import urllib.request

ALL = 'rwanNxDtThHdcCoy'


class Moving:
    def make_two(self):
        """The folder shut is alice's alone, and the folder shared is of the group staff too."""
        for name, entries in (('shut', ''), ('shared', 'D:d:EVERYONE@:Dd\nA:fdg:staff:rwaxtc\n')):
            self.ask('POST', f'/folder/{name}')
            self.ask('PUT', f'/dacl/{name}', f'list:ap\nA:fd:alice:{ALL}\n{entries}'.encode())
        for name in ('salaries', 'board'):
            self.ask('POST', f'/folder/shut/{name}')
        self.ask('PUT', '/dacl/shut/board', f'list:ap\nA:fd:alice:{ALL}\n'.encode())
        for name in ('salaries/2026', 'one', 'two', 'three'):
            self.ask('PUT', f'/doc/shut/{name}', b'secret')

    def move_to(self, name, folder):
        alice = self.alice
        alice.open('#/shut')
        alice.act('Rename or move', name)
        alice.press('The folder above', 'dialog')
        alice.until(lambda: 'the top of the room' in alice.one('dialog .where').text, 'the top')
        alice.press(folder, 'dialog .chooser')
        alice.until(lambda: folder in alice.one('dialog .where').text, 'the folder')
        alice.press('Move it', 'dialog')

    def told_of_move(self):
        """Who gains what is told before a folder goes to where more people can read; then bob reads
        it."""
        alice = self.alice
        self.make_two()
        self.move_to('salaries', 'shared')
        alice.says('More people could get at it there', 'The group staff may then read and change '
                   'salaries and what is in it, apart from what is protected.', css='dialog')
        assert alice.driver.switch_to.active_element.text == 'Cancel'
        alice.press('Cancel', 'dialog')
        alice.until(lambda: not alice.all('dialog'), 'the end of the question')
        assert '"salaries"' in self.ask('GET', '/folder/shut')
        self.move_to('salaries', 'shared')
        alice.press('Move all the same', 'dialog')
        alice.says('salaries is now “/shared/salaries”')
        assert self.ask('GET', '/doc/shared/salaries/2026', user='bob:b') == 'secret'

    def silent_move(self):
        """What is protected keeps its list, so nobody gains or loses; on the way back is said who
        loses."""
        alice = self.alice
        self.move_to('board', 'shared')
        alice.says('board is now “/shared/board”')
        alice.open('#/shared')
        alice.act('Rename or move', 'salaries')
        alice.press('The folder above', 'dialog')
        alice.until(lambda: 'the top of the room' in alice.one('dialog .where').text, 'the top')
        alice.press('shut', 'dialog .chooser')
        alice.until(lambda: 'shut' in alice.one('dialog .where').text, 'the folder')
        alice.press('Move it', 'dialog')
        alice.says('Fewer people can get at it there', 'The group staff can then no longer read or '
                   'change salaries and what is in it', css='dialog')
        alice.press('Move all the same', 'dialog')
        alice.says('salaries is now “/shut/salaries”')

    def several_told(self):
        alice = self.alice
        alice.open('#/shut')
        self.pick('one', 'two', 'three')
        alice.press('Move', '.chosen')
        alice.press('The folder above', 'dialog')
        alice.until(lambda: 'the top of the room' in alice.one('dialog .where').text, 'the top')
        alice.press('shared', 'dialog .chooser')
        alice.until(lambda: 'shared' in alice.one('dialog .where').text, 'the folder')
        alice.press('Move them here', 'dialog')
        alice.says('The group staff may then read and change one, three and two.', css='dialog')
        alice.press('Move all the same', 'dialog')
        alice.says('3 objects moved to “/shared”')

    def move_not_known(self):
        """Where a list can't be read, this is said, and nothing is made up."""
        alice = self.alice
        self.ask('POST', '/folder/shared/bin')
        self.ask('PUT', '/dacl/shared/bin', f'list:ap\nA::alice:wxaC\nA:fdi:alice:{ALL}\n'.encode())
        alice.open('#/shared')
        alice.act('Rename or move', 'one')
        alice.press('bin', 'dialog .chooser')
        alice.until(lambda: 'bin' in alice.one('dialog .where').text, 'the folder')
        alice.press('Move it', 'dialog')
        alice.says('It isn’t known who can get at it there', 'Move to “/shared/bin”: one.',
                   'It isn’t known who could do more there: '
                   'you may not read the list of “/shared/bin”.', css='dialog')
        alice.press('Cancel', 'dialog')
        self.ask('PUT', '/dacl/shared/two', f'list:p\nA::alice:rwaxDtTdC\n'.encode())
        alice.open('#/shared')
        alice.act('Rename or move', 'two')
        alice.press('The folder above', 'dialog')
        alice.until(lambda: 'the top of the room' in alice.one('dialog .where').text, 'the top')
        alice.press('shut', 'dialog .chooser')
        alice.until(lambda: 'shut' in alice.one('dialog .where').text, 'the folder')
        alice.press('Move it', 'dialog')
        alice.says('It isn’t known who could do more with two there: you may not read the list.',
                   css='dialog')
        alice.press('Cancel', 'dialog')

    def who_reads_by_link(self):
        """With the link that is copied, the page says who may read there."""
        alice = self.alice
        alice.driver.execute_cdp_cmd('Browser.grantPermissions', {
            'permissions': ['clipboardReadWrite', 'clipboardSanitizedWrite']})
        alice.open('#/shared')
        alice.act('Copy link', 'three')
        alice.says('The link was copied. It gives nobody a right. By its list, alice and the group '
                   'staff may read there.')
        alice.act('Copy link', 'two')
        alice.says('Who may read there isn’t known: you may not read its list.')

    def clear_two(self):
        for name in ('shared/bin', 'shared/board', 'shared/one', 'shared/two', 'shared/three',
                     'shared',
                     'shut/salaries/2026', 'shut/salaries', 'shut'):
            self.ask('DELETE', '/object/' + urllib.request.quote(name))
