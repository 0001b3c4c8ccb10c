"""The play of the right to remove, rename and move away, and of what the page warns of there."""

ALL = 'rwanNxDtThHdcCoy'
REMOVE = 'Remove and rename what others made'
MAY_REMOVE = 'The group staff may then remove, rename and move away what others made in this folder'
OPENS = ('Whoever may move something away can put it into a folder of their own',
         'has to be protected (p)')


class Removers:
    def make_archive(self, *entries):
        """A folder of alice's, whose folder board is protected and whose folder loose isn't."""
        self.ask('POST', '/folder/archive')
        for name, lines in (('board', f'list:ap\nA:fd:alice:{ALL}\nD:d:EVERYONE@:Dd\n'),
                            ('loose', 'list:a\n')):
            self.ask('POST', f'/folder/archive/{name}')
            self.ask('PUT', f'/dacl/archive/{name}', lines.encode())
        self.ask('PUT', '/dacl/archive',
                 '\n'.join(['list:ap', f'A:fd:alice:{ALL}', *entries, '']).encode())

    def clear_archive(self, *more):
        self.ask('PUT', '/dacl/archive', f'list:a\nA:fd:alice:{ALL}\n'.encode())
        for name in ('board', 'loose', *more):
            self.ask('DELETE', f'/object/archive/{name}')
        self.ask('DELETE', '/object/archive')

    def add_staff(self, *boxes):
        """Adds an entry for the group staff with these boxes ticked besides 'Read', and presses
        'Review and send'."""
        alice = self.alice
        alice.open('#/archive?dacl')
        alice.press('Add an entry')
        alice.one('[data-place="1"] .who select').send_keys('Group')
        alice.write('[data-place="1"] .who input', 'staff')
        for box in boxes:
            alice.press(box, '[data-place="1"] .groups')
        letters = alice.one('[data-place="1"] .letters').text
        alice.press('Review and send')
        alice.one('dialog .difference')
        return letters

    def status_of(self, method, target, body=None):
        try:
            self.ask(method, target, body, user='bob:b')
        except OSError as fault:
            return fault.code
        return 200

    def write_alone(self):
        """'Write' gives w and a, and the box beside it D and d. A document has its own words for
        it."""
        alice = self.alice
        self.make_archive()
        assert self.add_staff('Write') == 'rwaxtc'
        alice.press('Cancel', 'dialog')
        assert alice.texts('[data-place="0"] .groups label') == ['Read', 'Write', 'Manage', REMOVE]
        alice.press(REMOVE, '[data-place="1"] .groups')
        assert alice.one('[data-place="1"] .letters').text == 'rwaxDtdc'
        alice.press('Write', '[data-place="1"] .groups')
        assert alice.one('[data-place="1"] .letters').text == 'rxDtdc'
        alice.press('Drop changes')
        # Below the line that keeps things in place, 'Write' alone removes nothing, and nothing is
        # warned of.
        self.ask('PUT', '/dacl/archive', f'list:ap\nA:fd:alice:{ALL}\nD:d:EVERYONE@:Dd\n'.encode())
        alice.open('#/archive?dacl')
        alice.press('Add an entry')
        alice.one('[data-place="2"] .who select').send_keys('Group')
        alice.write('[data-place="2"] .who input', 'staff')
        alice.press('Write', '[data-place="2"] .groups')
        alice.press('Review and send')
        assert alice.one('dialog .difference') and not alice.all('dialog .warnings')
        alice.press('Send', 'dialog')
        alice.says('counts from now on')
        assert self.status_of('PUT', '/doc/archive/new', b'x') == 200
        for path in ('/archive/board', '/archive/loose', '/archive'):
            assert self.status_of('POST', f'/move{path}', b'{"to":"/archive/mine"}') == 403, path
        self.clear_archive('new')

    def names_protected(self):
        alice = self.alice
        self.make_archive()
        self.add_staff('Write', REMOVE)
        alice.says(MAY_REMOVE, 'even what they can’t open', 'the protected folder “/archive/board”',
                   'another one in its place', css='dialog .warnings .bad')
        alice.says(*OPENS, css='dialog .warnings .unsure')
        alice.says('The group staff may then remove, rename and move away this folder itself',
                   css='dialog .warnings .unsure')
        # It is so: bob does what the page warned of.
        alice.press('Send', 'dialog')
        alice.says('counts from now on')
        assert self.status_of('GET', '/folder/archive/board') == 403
        assert self.status_of('POST', '/move/archive/board', b'{"to":"/archive/away"}') == 200
        assert self.status_of('POST', '/folder/archive/board') == 200
        self.clear_archive('away')

    def names_others(self):
        """Where no protected folder stands below, those are named who don't manage the folder."""
        alice = self.alice
        self.make_archive()
        self.ask('DELETE', '/object/archive/board')
        self.add_staff(REMOVE)
        alice.says(MAY_REMOVE, css='dialog .warnings .unsure')
        assert 'protected folder' not in alice.one('dialog .warnings').text
        alice.press('Cancel', 'dialog')
        alice.press('Manage', '[data-place="1"] .groups')
        alice.press('Review and send')
        assert alice.one('dialog .difference') and not alice.all('dialog .warnings')
        alice.press('Cancel', 'dialog')
        alice.press('Drop changes')
        self.ask('POST', '/folder/archive/board')
        self.clear_archive()

    def no_entry_says(self):
        """Then whoever may put documents there may remove; the page says which entry prevents
        it."""
        alice = self.alice
        self.make_archive()
        self.add_staff('Write')
        alice.says('The group staff may put documents here, and no entry says who may remove',
                   'D:d:EVERYONE@:Dd', css='dialog .warnings')
        alice.press('Cancel', 'dialog')
        alice.press('Drop changes')
        self.clear_archive()

    def moved_and_opened(self):
        """Bob reads what he may only move away, by moving it; what is protected stays shut."""
        self.make_archive('A:g:staff:xD')
        self.ask('POST', '/folder/mine')
        self.ask('PUT', '/dacl/mine', f'list:ap\nA:fd:alice:{ALL}\nA:fdg:staff:rwaxtc\n'.encode())
        for name, opened in (('loose', 200), ('board', 403)):
            self.ask('PUT', f'/doc/archive/{name}/letter', b'secret')
            assert self.status_of('GET', f'/doc/archive/{name}/letter') == 403
            body = f'{{"to":"/mine/{name}"}}'.encode()
            assert self.status_of('POST', f'/move/archive/{name}', body) == 200
            assert self.status_of('GET', f'/doc/mine/{name}/letter') == opened, name
            self.ask('DELETE', f'/object/mine/{name}/letter')
            self.ask('POST', f'/move/mine/{name}', f'{{"to":"/archive/{name}"}}'.encode())
        self.ask('DELETE', '/object/mine')
        self.clear_archive()
