"""The play of what the reader bob may do, and of what he is told."""

import urllib.request

from documents import DROP, HEBREW


class Readers:
    def denied(self):
        bob = self.bob
        bob.open('#/letters')
        assert bob.one('#me').text == 'bob'
        bob.says('At “/letters” you may not see what is in it', 'Ask your administrator',
                 css='.closed')
        bob.open('#/letters?rights')
        assert 'Nobody gave it to you.' in bob.one('.may-not .why').text
        bob.open('#/letters?dacl')
        assert 'you may not see its access lists' in bob.one('.empty').text
        bob.open('#/letters?access')
        bob.says('You can’t read this folder. You may not see who else has access', css='.empty')

    def give_access(self):
        alice = self.alice
        alice.open('#/letters?dacl')
        alice.press('Add an entry')
        alice.one('.who select').send_keys('Group')
        alice.write('.who input', 'staff')
        alice.press('Review and send')
        shown = alice.one('dialog .difference')
        assert 'A:fdg:staff:rxtc' in shown.text and 'allows the group staff to' in shown.text, \
            shown.text
        alice.press('Send', 'dialog')
        alice.says('counts from now on')
        assert self.ask('GET', '/dacl/letters').split('\n')[1] == 'A:fdg:staff:rxtc'

    def reads(self):
        bob = self.bob
        bob.open('#/letters')
        bob.lists('Größe 100%25.html', 'Report 2.txt', 'Report 10.txt', HEBREW)
        bob.press('Report 2.txt')
        assert bob.downloaded('Report 2.txt') == b'two'
        bob.act('Download', 'Report 10.txt')
        assert bob.downloaded('Report 10.txt') == b'ten'

    def page_as_document(self):
        """A document of HTML is kept as a file, whichever way it is asked for."""
        bob = self.bob
        name = 'Größe 100%25.html'
        bob.press(name)
        assert b'<script>' in bob.downloaded(name)
        bob.driver.get(self.base + '/doc/letters/' + urllib.request.quote(name))
        assert b'<script>' in bob.downloaded(name)
        told = bob.driver.execute_async_script(
            "fetch(arguments[0])"
            ".then((reply) => arguments[1](reply.headers.get('Content-Disposition')))",
            '/doc/letters/' + urllib.request.quote(name))
        assert told == 'attachment', told
        assert bob.driver.title == 'letters – rooms' and \
            bob.driver.current_url.endswith('#/letters')

    def may_not(self):
        bob = self.bob
        bob.act('Remove', 'Report 2.txt')
        bob.says('You may not remove “/letters/Report 2.txt”, so nothing was removed.',
                 'Ask alice, who can change that')
        assert not bob.all('dialog')
        bob.script(DROP, 'new.txt')
        bob.says('At “/letters” you may not put documents here', css='.uploads .bad')

    def deny(self):
        """An entry that denies is added, and moved above the one that allows."""
        alice = self.alice
        alice.open('#/letters?dacl')
        alice.press('Add an entry')
        alice.one('[data-place="1"] td[data-heading=Type] select').send_keys('Deny')
        alice.write('[data-place="1"] .who input', 'bob')
        for box in ('Read', 'Write', 'Remove and rename what others made'):
            alice.press(box, '[data-place="1"] .groups')
        alice.press('Move entry 2 up')
        assert alice.one('[data-place="0"] .letters').text == 'waDd'
        alice.press('Review and send')
        alice.press('Send', 'dialog')
        alice.says('counts from now on')

    def denied_by_entry(self):
        bob = self.bob
        bob.act('Rename or move', 'Report 2.txt')
        bob.write('dialog input', 'Report 3.txt')
        bob.press('Rename it', 'dialog')
        bob.until(lambda: bob.all('.notice summary'), 'a denial')
        bob.click(bob.one('.notice summary'))
        bob.says('Entry 1 of its access list denies it', 'denies the user bob', 'D:I:bob:waDd',
                 '“/letters/Report 2.txt”')
        bob.act('Remove', 'Report 2.txt')
        bob.press('Why', '.notice')
        bob.until(lambda: bob.all('.rights'), 'my rights')
        told = bob.one('.rights').text
        assert 'remove it or move it away' in told.lower(), told
        assert ('By line 1 of its list, from a folder above, '
                'which denies it to the user bob.') in told, told
        assert ('By line 2 of its list, from a folder above, '
                'which allows it to the group staff.') in told, told
        # Letters stand in the entry alone, which is told to whoever points at the line.
        titles = bob.script("return [...document.querySelectorAll('.rights [title]')]"
                            ".map((one) => one.title)")
        assert 'D:I:bob:waDd' in titles, titles
        assert not any(word in told for word in ('waDd', 'rxtc', ' (')), told
        bob.open('#/letters?dacl')
        assert 'You may look at this list' in bob.one('.sheet').text and \
            not bob.all('.entries select')
