"""The play of what takes long, of what fits a telephone, and of names with signs that can't be
seen."""

import os
import signal
import urllib.request

MANY = 600
BOX = 'return document.querySelector(arguments[0]).getBoundingClientRect().toJSON()'
# A name that looks like a picture's, and one that ends with a blank. The family has joiners that
# belong there.
TURNED = 'plan\u202egnp.exe'
SHOWN = 'planU+202Egnp.exe'
FAMILY = 'a \U0001f468\u200d\U0001f469\u200d\U0001f467.txt'


class Lasting:
    def count_and_stop(self):
        """A folder of many is removed with a count, and the rest stays if that is stopped."""
        alice = self.alice
        self.ask('POST', '/folder/full')
        for number in range(1, MANY + 1):
            self.ask('PUT', f'/doc/full/{number}', b'x')
        alice.open('')
        alice.act('Remove', 'full')
        alice.press('Remove it', 'dialog')
        alice.says('Remove full', css='.uploads h2')
        alice.until(lambda: alice.texts('.uploads .count')[0].split(' of ')[0] not in ('0', '1'),
                    'a count')
        assert alice.texts('.uploads .count')[0].endswith(f' of {MANY + 1}'), \
            alice.texts('.uploads .count')
        os.kill(self.server, signal.SIGSTOP)
        try:
            alice.press('Stop', '.uploads')
        finally:
            os.kill(self.server, signal.SIGCONT)
        alice.until(lambda: any('Stopped.' in one for one in alice.texts('.notice')), 'the message')
        assert not alice.all('.uploads')
        left = self.ask('GET', '/folder/full').count('"name"')
        assert 0 < left < MANY, left
        alice.says(f'Stopped. {MANY - left} of {MANY + 1} were removed. Still there: full ({left} '
                   'documents and 1 folder).')
        alice.act('Remove', 'full')
        alice.press('Remove it', 'dialog')
        alice.says('full was removed')

    def faults_first(self):
        """The head of the panel stays, with the count; what went wrong is the first line."""
        alice = self.alice
        self.ask('POST', '/folder/panel')
        alice.open('#/panel')
        paths = [self.file(f'part {number}.txt', b'x') for number in range(1, 25)]
        paths.append(self.file('too large.txt', b''))
        os.truncate(paths[-1], 104857601)
        alice.script("document.querySelector('input[type=file]').hidden = false")
        alice.one('input[type=file]').send_keys('\n'.join(paths))
        alice.until(lambda: alice.texts('.uploads .count') == ['25 of 25'], 'the count')
        tops = alice.script("""return ['.bad', '.good'].map((css) =>
            Math.min(...[...document.querySelectorAll(`.uploads ${css}`)]
            .map((one) => one.getBoundingClientRect().top)))""")
        assert tops[0] < tops[1], tops
        before = alice.script(BOX, '.uploads .head')
        alice.script("document.querySelector('#uploads').scrollTop = 100000")
        after = alice.script(BOX, '.uploads .head')
        assert alice.script("return document.querySelector('#uploads').scrollTop") > 100
        # But for the width of the panel's border.
        assert abs(before['top'] - after['top']) <= 1, (before, after)
        # At another place it folds to its head, and shows the rest again on demand.
        alice.script("location.hash = '#/'")
        alice.until(lambda: alice.texts('h1') == ['All documents'] and not alice.all('.uploads li'),
                    'the head alone')
        assert alice.texts('.uploads .count') == ['25 of 25']
        alice.press('Details', '.uploads')
        assert len(alice.all('.uploads li')) == 25
        alice.press('Close', '.uploads')
        for path in paths[:-1]:
            self.ask('DELETE', f'/object/panel/{urllib.request.quote(path.split("/")[-1])}')

    def rows_of_a_phone(self):
        """A row is a name and its menu, so that more than ten fit, and a menu stays inside the
        window."""
        alice = self.alice
        for number in range(1, 21):
            self.ask('PUT', f'/doc/panel/Minutes%20of%20the%20meeting%20{number}.txt', b'x')
        alice.resize(390, 844)
        alice.open('#/panel')
        shown = alice.script("""return [...document.querySelectorAll('tbody tr')]
            .filter((one) => one.getBoundingClientRect().bottom <= innerHeight).length""")
        assert shown > 10, shown
        assert not alice.is_wider()
        row = f'[data-path="/panel/Minutes of the meeting {shown}.txt"] [data-act=menu]'
        alice.one(row).click()
        box = alice.script(BOX, '.menu')
        assert box['top'] >= 0 and box['bottom'] <= 844 and box['left'] >= 0 and \
            box['right'] <= 390, box
        assert alice.texts('.menu > *') == [
            'Preview', 'Download', 'Replace by a file', 'Rename or move', 'Copy link', 'Earlier',
            'Access', 'Remove']
        assert alice.unnamed() == [], alice.unnamed()
        alice.one('h1').click()
        assert not alice.all('.menu')
        alice.resize(1200, 900)
        for number in range(1, 21):
            self.ask('DELETE', f'/object/panel/Minutes%20of%20the%20meeting%20{number}.txt')

    def unseen_signs(self):
        """They are shown in the list, in sentences and in the title, and the name itself stays as
        it is."""
        alice = self.alice
        for name in (TURNED, FAMILY, 'plan', 'plan '):
            self.ask('PUT', f'/doc/panel/{urllib.request.quote(name)}', b'x')
        alice.open('#/panel')
        alice.lists(FAMILY, 'plan', 'planspace', SHOWN)
        assert alice.texts('.sign') == ['space', 'U+202E']
        alice.act('Remove', 'plan[U+202E]gnp.exe')
        alice.says('plan[U+202E]gnp.exe will be gone', css='dialog')
        alice.press('Remove it', 'dialog')
        alice.says('plan[U+202E]gnp.exe was removed')
        alice.lists(FAMILY, 'plan', 'planspace')
        alice.open(f'#/panel/{urllib.request.quote("plan ")}?rights')
        alice.until(lambda: alice.texts('h1') == ['planspace'], 'the heading')
        assert alice.driver.title == 'plan[space] – rooms', alice.driver.title
        for name in (FAMILY, 'plan', 'plan '):
            self.ask('DELETE', f'/object/panel/{urllib.request.quote(name)}')
        self.ask('DELETE', '/object/panel')
