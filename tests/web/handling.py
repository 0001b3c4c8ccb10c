"""The play of a folder with many documents: messages, keys, order, selection, previews."""

import base64
import io
import zipfile

from selenium.webdriver.common.keys import Keys

# One blue pixel.
PIXEL = base64.b64decode('iVBORw0KGgoAAAANSUhEUgAAAAEAAAABCAYAAAAfFcSJAAAADUlEQVR42mNkYPj/HwAD'
                         'BwIAMCbHYQAAAABJRU5ErkJggg==')
MARKUP = '<b>bold</b> & <img src=x onerror="document.title=1"> Größe'

# What goes beyond its cell, and a table that goes beyond its sheet.
OUTSIDE = """
const right = (one) => one.getBoundingClientRect().right;
const around = (one) => one.closest(one.matches('table') ? '.sheet' : 'td');
return [...document.querySelectorAll('td :is(select, input, button, a, label), table')]
  .filter((one) => one.checkVisibility() && right(one) > right(around(one)) + 0.5)
  .map((one) => one.outerHTML.slice(0, 80));
"""


class Handling:
    def make_desk(self):
        for path in ('/desk', '/desk/old', '/desk/new', '/desk/new/deep'):
            self.ask('POST', f'/folder{path}')
        for number in range(1, 31):
            self.ask('PUT', f'/doc/desk/Note%20{number}.txt', f'note {number}'.encode())
        for name, content in (('plan.csv', b'a;b'), ('Caf%C3%A9.txt', b''), ('dot.png', PIXEL),
                              ('text.html', MARKUP.encode()), ('odd.bin', b'\xff\xfe\x00'),
                              ('paper.pdf', b'%PDF-1.4\n'),
                              ('new/in%20it.txt', b'in it')):
            self.ask('PUT', f'/doc/desk/{name}', content)

    def focus(self):
        return self.alice.script("""const one = document.activeElement;
            return [one.dataset.act, one.closest('tr')?.querySelector('.name').textContent]""")

    def messages(self):
        """A message is in sight wherever the page is scrolled to, and moves no row."""
        alice = self.alice
        self.make_desk()
        alice.open('#/desk')
        alice.script('window.scrollTo(0, document.scrollingElement.scrollHeight)')
        row = '[data-path="/desk/text.html"]'
        box_of = 'return document.querySelector(arguments[0]).getBoundingClientRect().toJSON()'
        before = alice.script(box_of, row)
        alice.script("import('/messages.js').then(({ tell }) => tell('bad', 'Mind this.'))")
        alice.until(lambda: alice.all('.notice.bad'), 'the message')
        box = alice.script(box_of, '.notice')
        inside = alice.script('return [innerWidth, innerHeight]')
        assert box['top'] >= 0 and box['bottom'] <= inside[1] and box['right'] <= inside[0], box
        after = alice.script(box_of, row)
        assert before == after, (before, after)
        alice.says('Mind this.')

    def own_address(self):
        """A document's own address shows it, and offers it and its link."""
        alice = self.alice
        alice.open('#/desk/plan.csv')
        alice.until(lambda: alice.texts('.shown-document pre') == ['a;b'], 'the document')
        alice.press('Download')
        assert alice.downloaded('plan.csv') == b'a;b'
        alice.driver.execute_cdp_cmd('Browser.grantPermissions', {
            'permissions': ['clipboardReadWrite', 'clipboardSanitizedWrite']})
        alice.press('Copy link')
        alice.says('The link was copied', 'gives nobody a right')
        copied = alice.driver.execute_async_script(
            'navigator.clipboard.readText().then(arguments[0])')
        assert copied == f'{self.base}/#/desk/plan.csv', copied
        # Without TLS, other addresses than this machine's have no clipboard.
        alice.script("Object.defineProperty(navigator, 'clipboard', { value: undefined })")
        alice.press('Copy link')
        assert alice.one('dialog input').get_attribute('value') == copied
        alice.press('Close', 'dialog')

    def rename(self):
        """The name without its extension is selected, so that typing replaces that; then the focus
        is in the row."""
        alice = self.alice
        alice.open('#/desk')
        alice.act('Rename or move', 'plan.csv')
        field = "return document.activeElement.matches('dialog input')"
        alice.until(lambda: alice.script(field), 'the field')
        alice.driver.switch_to.active_element.send_keys('budget', Keys.ENTER)
        alice.says('plan.csv is now “/desk/budget.csv”')
        alice.until(lambda: self.focus() == ['menu', 'budget.csv'], 'the focus in the row')

    def arrows(self):
        alice = self.alice
        alice.open('#/desk')
        stops = "return document.querySelectorAll('tbody [data-act]:not([tabindex=\"-1\"])').length"
        alice.script("document.querySelector('.sort[data-sort=\"kind\"]').focus()")
        alice.driver.switch_to.active_element.send_keys(Keys.TAB)
        assert self.focus() == ['open', 'new'] and alice.script(stops) == 1, self.focus()
        for key, wanted in (
                (Keys.ARROW_DOWN, ['open', 'old']), (Keys.ARROW_DOWN, ['open', 'budget.csv']),
                (Keys.ARROW_RIGHT, ['access', 'budget.csv']), (Keys.ARROW_UP, ['access', 'old']),
                (Keys.ARROW_RIGHT, ['menu', 'old']), (Keys.ARROW_LEFT, ['access', 'old']),
                (Keys.ARROW_LEFT, ['open', 'old']),
                (Keys.ARROW_LEFT, ['pick', 'old']), (Keys.END, ['pick', 'text.html']),
                (Keys.ARROW_DOWN, ['pick', 'text.html']), (Keys.HOME, ['pick', 'new'])):
            alice.driver.switch_to.active_element.send_keys(key)
            assert self.focus() == wanted, (self.focus(), wanted)
        assert alice.script(stops) == 1
        alice.driver.switch_to.active_element.send_keys(Keys.SPACE)
        alice.until(lambda: alice.texts('.count') == ['1 selected'], 'a selection by key')
        alice.driver.switch_to.active_element.send_keys(Keys.ARROW_DOWN, Keys.F2)
        alice.says('Rename or move the folder', css='dialog')
        alice.press('Cancel', 'dialog')

    def order(self):
        alice = self.alice
        alice.open('#/desk')
        names = alice.names()
        assert names[:2] == ['new', 'old'], names
        assert names.index('Note 2.txt') < names.index('Note 10.txt'), names
        alice.press('Name')
        assert alice.names()[:3] == ['old', 'new', 'text.html'], alice.names()
        assert alice.one('th[aria-sort=descending]').text == 'Name'
        alice.press('Kind')
        kinds = alice.texts('tbody .kind')
        assert kinds[:3] == ['Folder', 'Folder', 'BIN document'], kinds
        assert kinds[-1] == 'TXT document', kinds
        alice.press('Kind')
        assert alice.texts('tbody .kind')[-1] == 'Folder'

    def filter(self):
        alice = self.alice
        alice.open('#/desk')
        alice.one('.tools input').send_keys('CAFE')
        alice.lists('Café.txt')
        alice.write('.tools input', 'note 1')
        assert len(alice.names()) == 11, alice.names()
        alice.write('.tools input', 'nothing of that')
        assert 'Nothing in this folder has' in alice.one('.sheet').text

    def pick(self, *names):
        for name in names:
            self.alice.click(self.alice.one(f'[aria-label="Select: {name}"]'))

    def selection(self):
        """Several are downloaded as one file, moved, and removed after a question that counts."""
        alice = self.alice
        alice.open('#/desk')
        self.pick('new', 'Note 1.txt', 'Café.txt')
        assert alice.texts('.count') == ['3 selected']
        alice.press('Download', '.chosen')
        with zipfile.ZipFile(io.BytesIO(alice.downloaded('desk.zip'))) as zipped:
            assert zipped.testzip() is None
            assert sorted(zipped.namelist()) == [
                'desk/', 'desk/Café.txt', 'desk/Note 1.txt', 'desk/new/', 'desk/new/deep/',
                'desk/new/in it.txt'], zipped.namelist()
            assert zipped.read('desk/new/in it.txt') == b'in it'
            assert zipped.read('desk/Café.txt') == b''
        self.pick('new')
        alice.press('Move', '.chosen')
        alice.press('old', 'dialog .chooser')
        alice.until(lambda: alice.texts('dialog .where') == ['In /desk/old'], 'the folder')
        alice.press('Move them here', 'dialog')
        alice.says('2 objects moved to “/desk/old”')
        assert '"Note 1.txt"' in self.ask('GET', '/folder/desk/old')
        alice.one('thead .pick input').click()
        assert alice.texts('.count') == [f'{len(alice.names())} selected']
        alice.one('thead .pick input').click()
        self.pick('old', 'Note 2.txt')
        alice.press('Remove', '.chosen')
        alice.says('Remove 1 document and 1 folder?', 'what is in them, 2 documents,', css='dialog')
        alice.press('Remove them', 'dialog')
        alice.says('1 document and 1 folder were removed')
        alice.until(lambda: 'old' not in alice.names(), 'the listing anew')
        assert 'Note 3.txt' in alice.names()
        # What the filter hides isn't removed with the rest.
        self.pick('Note 3.txt', 'Note 4.txt')
        alice.one('.tools input').send_keys('Note 3')
        alice.until(lambda: alice.texts('.count') == ['1 selected'], 'one that is shown')

    def previews(self):
        """Text is set as text, and an image is drawn from its bytes."""
        alice = self.alice
        alice.open('#/desk')
        alice.act('Preview', 'text.html')
        assert alice.one('dialog pre').text == MARKUP
        assert not alice.script("return document.querySelector('.content :is(b, img)')")
        alice.press('Download', 'dialog')
        assert alice.downloaded('text.html') == MARKUP.encode()
        alice.press('Close', 'dialog')
        alice.act('Preview', 'dot.png')
        width = "return document.querySelector('dialog img')?.naturalWidth"
        alice.until(lambda: alice.script(width) == 1, 'the image')
        alice.press('Close', 'dialog')
        for name, words in (('odd.bin', 'no preview'),
                            ('paper.pdf', 'in a tab of their own'),
                            ('Note 5.txt', 'note 5')):
            alice.act('Preview', name)
            alice.says(words, css='dialog .content')
            alice.press('Close', 'dialog')
        alice.act('Preview', 'paper.pdf')
        self.opens_a_tab('Open in a tab', 'dialog')
        alice.press('Close', 'dialog')
        # By one press of its name, too.
        self.opens_a_tab('paper.pdf', 'table.folder')

    def opens_a_tab(self, words, within):
        driver = self.alice.driver
        before = driver.current_window_handle
        self.alice.press(words, within)
        self.alice.until(lambda: len(driver.window_handles) == 2, 'a tab')
        driver.switch_to.window(next(one for one in driver.window_handles if one != before))
        self.alice.until(lambda: driver.current_url.startswith(f'blob:{self.base}/'), 'the PDF')
        driver.close()
        driver.switch_to.window(before)

    def closed_top(self):
        """A user who may not list the top is told what is granted, and gets on by an address."""
        bob = self.bob
        with open(self.log, encoding='utf-8') as log:
            before = len(log.readlines())
        bob.open('')
        bob.says('You can’t see the list of what is in the room, only what was shared with you',
                 'Ask root, who owns it',
                 css='.closed')
        with open(self.log, encoding='utf-8') as log:
            asked = [line for line in log.readlines()[before:] if ' /can/' in line]
        assert len(asked) == 1, asked
        # What isn't granted isn't offered there.
        assert bob.texts('.bar :is(button, a)') == ['Access'], bob.texts('.bar :is(button, a)')
        bob.write('.opener input', '/letters')
        bob.press('Open', '.opener')
        bob.until(lambda: bob.texts('h1') == ['letters'], 'the folder')
        bob.open('')
        bob.write('.opener input', f'{self.base}/#/letters?rights')
        bob.press('Open', '.opener')
        bob.until(lambda: bob.all('.rights'), 'the rights')

    def table_widths(self):
        """No control leaves its cell, and no table its sheet, from 1000 to 1440 px."""
        alice = self.alice
        for which, entries in (
                ('dacl', b'D:fdg:a-rather-long-name-of-a-group:waDd\nA:fdi:bob:rxtc\n'),
                ('sacl', b'U:fdSF:a-rather-long-name-of-a-user:rxC\nL:fiF:EVERYONE@:rw\n')):
            self.ask('PUT', f'/{which}/desk', b'list:a\n' + entries)
        for place in ('#/desk?sacl', '#/desk?dacl', '#/desk'):
            alice.open(place)
            for width in (1000, 1100, 1200, 1300, 1440):
                alice.resize(width, 900)
                alice.until(lambda: alice.script('return innerWidth') == width, 'the width')
                assert not alice.is_wider(), (place, width)
                out = alice.script(OUTSIDE)
                assert out == [], (place, width, out)
        alice.resize(1200, 900)

    def clear_desk(self):
        for name in ('/dacl/desk', '/sacl/desk'):
            self.ask('PUT', name, b'list:a\n')
        alice = self.alice
        alice.open('')
        for name in ('desk', 'drops'):
            alice.act('Remove', name)
            alice.press('Remove it', 'dialog')
            alice.says(f'{name} was removed')
