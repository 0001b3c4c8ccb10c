"""The play of the ready-made lists, which are those of docs/lists.md in the same words."""

import re


# The groups or the user of each list there, in the order of its fields.
NAMES = [['staff'], ['staff'], ['staff'], ['bob'], ['personnel'], ['editors', 'staff'],
         ['clerks', 'staff']]


class Recommended:
    def section(self, title):
        """The first paragraph below this heading, in one line, and the first list."""
        with open(f'{self.docs}/lists.md', encoding='utf-8') as file:
            _, found, rest = file.read().partition(f'\n## {title}\n')
        assert found, f'docs/lists.md has no heading {title}'
        words = ' '.join(rest.strip().split('\n\n')[0].split('\n'))
        return words, re.search(r'<<END\n(.*?)END\n', rest, re.S)[1]

    def ready_made(self):
        """Each is offered with its sentence, and draws its list."""
        alice = self.alice
        self.ask('POST', '/folder/office')
        for index, names in enumerate(NAMES):
            alice.open('#/office?dacl')
            alice.press('Ready-made lists')
            alice.until(lambda: len(alice.all('dialog [name=ready]')) == len(NAMES), 'the lists')
            alice.all('dialog [name=ready]')[index].click()
            fields = alice.all('dialog input[type=text]')
            assert len(fields) == len(names), (index, len(fields))
            for field, name in zip(fields, names):
                field.send_keys(name)
            title = alice.texts('dialog .choice .title')[index]
            told = alice.texts('dialog .choice .hint')[index]
            words, text = self.section(title)
            assert told == words.replace('from him and', f'from {names[0]} and'), (told, words)
            alice.press('Take this list', 'dialog')
            alice.press('Text')
            assert alice.one('textarea').get_attribute('value') == text, title
            alice.press('Drop changes')

    def sent_ready_made(self):
        """A name that is none is refused. Its author keeps the list, so nothing more is asked."""
        alice = self.alice
        alice.open('#/office?dacl')
        alice.press('Ready-made lists')
        alice.write('dialog input[type=text]', 'the staff')
        alice.press('Take this list', 'dialog')
        alice.says('no name of a user or a group', css='dialog .field .hint')
        alice.write('dialog input[type=text]', 'staff')
        alice.press('Take this list', 'dialog')
        alice.press('Review and send')
        alice.says('A:fdg:staff:rxtc', css='dialog .difference')
        alice.press('Send', 'dialog')
        alice.says('counts from now on')
        assert self.ask('GET', '/folder/office', user='bob:b') == '[]'
        self.ask('DELETE', '/object/office')
