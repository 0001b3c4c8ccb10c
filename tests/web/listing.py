"""The play of lists: the table, the text, faults, and changes that come from elsewhere."""

import os

import examples
from selenium.webdriver.common.keys import Keys

HERE = os.path.dirname(os.path.abspath(__file__))


class Lists:
    def both_tabs(self):
        alice = self.alice
        alice.open('#/letters?dacl')
        alice.press('Text')
        self.type_list('list:a\n# a remark\nA::OWNER@:rw\nD:fdn:EVERYONE@:C\n')
        alice.press('Table')
        assert [each.get_attribute('value')
                for each in alice.all('.who select')] == ['OWNER@', 'EVERYONE@']
        alice.press('Remove entry 1')
        alice.press('Manage', '.groups')
        alice.press('Text')
        assert alice.one('textarea').get_attribute('value') == 'list:a\nD:fdn:EVERYONE@:Co\n'
        alice.press('Drop changes')
        assert alice.one('textarea').get_attribute('value') == self.ask('GET', '/dacl/letters')

    def type_list(self, text):
        area = self.alice.one('textarea')
        area.send_keys(Keys.CONTROL, 'a')
        area.send_keys(text)

    def fault_in_text(self):
        """The room tells the line, and the page what is wrong there."""
        alice = self.alice
        self.type_list('list:a\n\nA::bob:r\nA::<b>x</b>:r\n')
        alice.press('Review and send')
        alice.press('Send', 'dialog')
        alice.until(lambda: not alice.all('dialog'), 'the end of the dialog')
        alice.until(lambda: self.last_status() == '422', 'a fault of the room')
        alice.says('Line 4', 'no name of a user or a group', css='p.fault')
        assert alice.one('.gutter .wrong').text == '4'
        assert not alice.script("return document.querySelector('main b')")
        alice.press('Drop changes')

    def last_status(self):
        with open(self.log, encoding='utf-8') as log:
            return [line for line in log if ' PUT ' in line][-1].split()[0]

    def fault_in_table(self):
        alice = self.alice
        alice.press('Table')
        alice.press('Add an entry')
        alice.write('[data-place="2"] .who input', '<i>x</i>')
        assert 'no name of a user' in alice.one('[data-place="2"] .who .hint').text
        alice.press('Review and send')
        assert '<i>x</i>' in alice.one('dialog .difference').text
        alice.press('Send', 'dialog')
        alice.says('Entry 3', 'no name of a user or a group', css='tr.fault')
        assert not alice.script("return document.querySelector('main i')")
        alice.press('Drop changes')

    def fault_of_validity(self):
        """A flag that may not stand there: the room tells the entry's place, not a line."""
        alice = self.alice
        alice.press('Text')
        self.type_list('list:a\n\nA::bob:r\nA:i:bob:r\n')
        alice.press('Review and send')
        alice.press('Send', 'dialog')
        alice.says('Line 4', 'something below', css='p.fault')
        alice.press('Drop changes')

    def changed_elsewhere(self):
        alice = self.alice
        alice.open('#/letters?dacl')
        alice.press('Protect')
        self.ask('PUT', '/dacl/letters', b'list:a\nA:fdg:sales:r\n')
        alice.press('Review and send')
        told = alice.one('dialog').text
        assert 'changed elsewhere' in told and 'A:fdg:sales:r' in told, told
        alice.press('Go on with mine', 'dialog')
        alice.until(lambda: 'Send these changes?' in alice.one('dialog').text, 'the changes')
        assert 'Gone' in alice.script("return document.querySelector('dialog .del').textContent")
        # Once more, while the changes are shown.
        self.ask('PUT', '/dacl/letters', b'list:a\nA:fdg:sales:w\n')
        alice.press('Send', 'dialog')
        alice.until(lambda: 'A:fdg:sales:w' in alice.one('dialog').text, 'the later change')
        alice.press('Take the list as it is', 'dialog')
        alice.until(lambda: alice.one('.letters').text == 'w', 'the list of the room')
        assert self.ask('GET', '/dacl/letters').startswith('list:a\nA:fdg:sales:w\n')
        self.ask('PUT', '/dacl/letters', b'list:a\nA:fdg:staff:rxtc\n')

    def unsent(self):
        """Changes stay while another place is looked at."""
        alice = self.alice
        alice.open('#/letters?sacl')
        alice.press('Add an entry')
        alice.write('.who input', 'bob')
        alice.script("location.hash = '#/letters?rights'")
        alice.until(lambda: alice.all('.owners'), 'the rights')
        alice.script("location.hash = '#/letters?sacl'")
        alice.until(lambda: alice.all('.who input'), 'the list')
        assert alice.one('.who input').get_attribute('value') == 'bob'
        alice.press('Review and send')
        alice.press('Send', 'dialog')
        alice.says('counts from now on')
        assert self.ask('GET', '/sacl/letters') == 'list:a\nU:fdF:bob:rx\n'

    def owners(self):
        alice = self.alice
        alice.open('#/letters?rights')
        alice.press('Change owner and group')
        alice.write('dialog .field:nth-of-type(2) input', 'no name')
        alice.press('Change them', 'dialog')
        assert 'no name of a user' in alice.one('dialog .wrong .hint').text
        alice.write('dialog .field:nth-of-type(2) input', 'clerks')
        alice.press('Change them', 'dialog')
        alice.says('clerks')
        assert '"group":"clerks"' in self.ask('GET', '/attr/letters')

    def script_tests(self, name):
        with open(f'{HERE}/{name}', encoding='utf-8') as file:
            told = self.alice.driver.execute_async_script(file.read(), examples.of_docs(self.docs))
        assert told == [], told

    def list_tests(self):
        self.script_tests('lists.js')

    def judging_tests(self):
        self.script_tests('judging.js')
