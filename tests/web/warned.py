"""The play of lists whose author is warned before they are sent."""

ALL = 'rwanNxDtThHdcCoy'


class Warned:
    def list_of(self, path):
        return self.ask('GET', f'/dacl{path}')

    def send_text(self, place, text):
        """Types a list at the open place, and presses 'Send' in the review."""
        self.alice.open(place)
        self.alice.press('Text')
        self.type_list(text)
        self.alice.press('Review and send')
        self.alice.press('Send', 'dialog')

    def locked_out(self):
        """Three clicks would take the list away from alice."""
        alice = self.alice
        self.ask('POST', '/folder/personnel')
        before = self.list_of('/personnel')
        alice.open('#/personnel?dacl')
        alice.press('Protect')
        alice.press('Drop the grey entries')
        alice.press('Add an entry')
        alice.write('.who input', 'carol')
        alice.press('Review and send')
        alice.press('Send', 'dialog')
        alice.says('After this you may no longer change this list', 'lets anybody', css='dialog')
        assert alice.driver.switch_to.active_element.text == 'Cancel'
        alice.press('Cancel', 'dialog')
        alice.until(lambda: not alice.all('dialog'), 'the end of the question')
        assert self.list_of('/personnel') == before
        assert alice.one('.send').is_displayed(), 'the changes stay'
        alice.press('Drop changes')

    def groups_only(self):
        """Only staff may change the list. The page doesn't know who is in it: bob, not alice."""
        alice = self.alice
        before = self.list_of('/personnel')
        self.send_text('#/personnel?dacl', 'list:ap\nA:fdg:staff:rxtcC\n')
        alice.says('After this you perhaps may no longer change this list', 'the group staff',
                   'doesn’t know who is in a group', css='dialog')
        alice.press('Cancel', 'dialog')
        assert self.list_of('/personnel') == before
        alice.press('Review and send')
        alice.press('Send', 'dialog')
        alice.press('Send it all the same', 'dialog')
        alice.says('counts from now on')
        self.ask('PUT', '/dacl/personnel', f'list:ap\nA:fd:alice:{ALL}\n'.encode(), user='bob:b')

    def no_question(self):
        """Where alice surely keeps the list, no second question is asked."""
        alice = self.alice
        self.send_text('#/personnel?dacl', f'list:ap\nD:fdg:staff:w\nA:fd:alice:{ALL}\n')
        alice.says('counts from now on')
        assert not alice.all('dialog')

    def not_let_pass(self):
        """Who is added below a folder that doesn't let them pass."""
        alice = self.alice
        self.ask('POST', '/folder/personnel/2026')
        alice.open('#/personnel/2026?dacl')
        alice.press('Add an entry')
        alice.write('.who input', 'carol')
        alice.press('Review and send')
        alice.says('carol can’t get here: “/personnel” doesn’t let carol pass through (x)',
                   css='dialog .warnings .bad')
        alice.press('Cancel', 'dialog')
        alice.press('Drop changes')
        # At the top, everyone who has signed in may pass.
        self.ask('POST', '/folder/open')
        alice.open('#/open?dacl')
        alice.press('Add an entry')
        alice.write('.who input', 'carol')
        alice.press('Review and send')
        assert alice.one('dialog .difference') and not alice.all('dialog .warnings')
        alice.press('Cancel', 'dialog')
        alice.press('Drop changes')

    def not_known(self):
        """Whether carol is in the group that may pass; what a list says that can't be read."""
        alice = self.alice
        for entries, words in ((f'A:g:staff:x\nA:fd:alice:{ALL}', 'the group staff'),
                               (f'A::alice:xC\nA:fdi:alice:{ALL}', 'you may not read the list')):
            self.ask('PUT', '/dacl/personnel', f'list:ap\n{entries}\n'.encode())
            alice.open('#/personnel/2026?dacl')
            alice.press('Add an entry')
            alice.write('.who input', 'carol')
            alice.press('Review and send')
            alice.says('It isn’t known whether carol can get here', words,
                       css='dialog .warnings .unsure')
            alice.press('Cancel', 'dialog')
            alice.press('Drop changes')
        self.ask('PUT', '/dacl/personnel', f'list:ap\nA:fd:alice:{ALL}\n'.encode())
        self.ask('DELETE', '/object/personnel/2026')
        self.ask('DELETE', '/object/personnel')
        self.ask('DELETE', '/object/open')
