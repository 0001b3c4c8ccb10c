"""The play of folders and documents, by the owner alice."""

import os
import urllib.request

from selenium.webdriver.common.keys import Keys

STRANGE = 'a b%2F?#<img src=x onerror=1>'
HEBREW = '\u05e9\u05dc\u05d5\u05dd "x".txt'
LIMIT = 104857600

DROP = """
const transfer = new DataTransfer();
transfer.items.add(new File(['dropped'], arguments[0]));
document.querySelector('.folder-view').dispatchEvent(
  new DragEvent('drop', { dataTransfer: transfer, bubbles: true, cancelable: true }));
"""


class Documents:
    def make_folder(self):
        alice = self.alice
        alice.open('')
        assert alice.one('#me').text == 'alice'
        alice.press('New folder')
        alice.press('Make it', 'dialog')
        assert 'Type a name' in alice.one('dialog .hint').text
        alice.write('dialog input', 'letters')
        alice.press('Make it', 'dialog')
        alice.says('letters', 'was made')
        alice.lists('letters')

    def upload(self):
        alice = self.alice
        alice.press('letters')
        alice.until(lambda: 'Nothing is in this folder' in alice.one('.sheet').text,
                    'an empty folder')
        paths = [self.file('Report 10.txt', b'ten'), self.file('Report 2.txt', b'two'),
                 self.file('Größe 100%25.html', b'<script>document.title = "evil"</script>')]
        alice.script("document.querySelector('input[type=file]').hidden = false")
        alice.one('input[type=file]').send_keys('\n'.join(paths))
        alice.until(lambda: len(alice.all('.uploads .good')) == 3, 'three uploads')
        alice.lists('Größe 100%25.html', 'Report 2.txt', 'Report 10.txt')

    def drop(self):
        self.alice.script(DROP, HEBREW)
        self.alice.lists('Größe 100%25.html', 'Report 2.txt', 'Report 10.txt', HEBREW)
        assert self.ask('GET', '/doc/letters/' + urllib.request.quote(HEBREW)) == 'dropped'

    def replace(self):
        alice = self.alice
        for answer, content in (('Cancel', 'dropped'), ('Replace it', 'anew')):
            alice.script(DROP.replace("'dropped'", "'anew'"), HEBREW)
            alice.says(HEBREW, css='dialog')
            alice.press(answer, 'dialog')
            alice.until(
                lambda: self.ask('GET', '/doc/letters/' + urllib.request.quote(HEBREW)) == content,
                content)

    def keep_both(self):
        """One that is there stays, and the other one gets a name beside it."""
        alice = self.alice
        self.ask('PUT', '/doc/letters/Draft.txt', b'old')
        alice.reload()
        alice.script("document.querySelector('input[type=file]').hidden = false")
        alice.one('input[type=file]').send_keys(self.file('Draft.txt', b'new'))
        alice.press('Keep both', 'dialog')
        alice.says('uploaded as Draft (2).txt', css='.uploads .good')
        assert self.ask('GET', '/doc/letters/Draft.txt') == 'old'
        assert self.ask('GET', '/doc/letters/Draft%20(2).txt') == 'new'
        for name in ('Draft.txt', 'Draft%20(2).txt'):
            self.ask('DELETE', f'/object/letters/{name}')
        alice.reload()

    def too_large(self):
        alice = self.alice
        alice.reload()
        path = self.file('large', b'')
        os.truncate(path, LIMIT + 1)
        alice.script("document.querySelector('input[type=file]').hidden = false")
        alice.one('input[type=file]').send_keys(path)
        alice.says('104,857,600', '(100 MiB)', css='.uploads .bad')
        with open(self.log, encoding='utf-8') as log:
            assert 'letters/large' not in log.read()

    def strange_name(self):
        alice = self.alice
        alice.press('New folder')
        alice.write('dialog input', STRANGE)
        alice.press('Make it', 'dialog')
        alice.says(STRANGE, 'was made')
        alice.until(lambda: STRANGE in alice.names(), STRANGE)
        alice.press(STRANGE)
        alice.until(lambda: alice.one('h1').text == STRANGE, 'its heading')
        assert STRANGE in alice.one('#path').text
        assert not alice.script("return document.querySelector('main img, #path img, .notice img')")

    def strange_list(self):
        """The name is shown in the views of access too, and in sentences of the room."""
        alice = self.alice
        alice.press('Access')
        alice.until(lambda: alice.texts('.holders .name') == ['alice'], 'who has access')
        assert alice.one('h1').text == STRANGE
        alice.press('My rights')
        alice.until(lambda: 'By line' in alice.one('.sheet').text, 'rights')
        assert alice.one('h1').text == STRANGE
        alice.press('All documents', '#path')
        alice.press('letters')
        alice.press('New folder')
        alice.write('dialog input', STRANGE)
        alice.press('Make it', 'dialog')
        # What was typed stays, to be changed.
        alice.says('There is already something of this name', css='dialog .wrong .hint')
        assert alice.one('dialog input').get_attribute('value') == STRANGE
        alice.press('Cancel', 'dialog')

    def move_taken(self):
        """Where a name is taken, the question stays, with what was chosen and why it can't be."""
        alice = self.alice
        alice.act('Rename or move', 'Report 2.txt')
        alice.write('dialog input', 'Report 10.txt')
        alice.press('Rename it', 'dialog')
        alice.says('There is already something of this name', css='dialog .wrong .hint')
        assert alice.one('dialog input').get_attribute('value') == 'Report 10.txt'
        # It is said whether only the name is another one.
        buttons = 'dialog .actions button'
        alice.press('The folder above', 'dialog')
        alice.until(lambda: alice.texts(buttons) == ['Cancel', 'Move it'], 'a move')
        alice.press('letters', 'dialog .chooser')
        alice.until(lambda: alice.texts(buttons) == ['Cancel', 'Rename it'], 'a name')
        alice.press('Cancel', 'dialog')
        assert self.ask('GET', '/doc/letters/Report%202.txt') == 'two'

    def move_strange(self):
        alice = self.alice
        alice.act('Rename or move', STRANGE)
        alice.write('dialog input', STRANGE + '2')
        alice.press('The folder above', 'dialog')
        alice.until(lambda: 'the top of the room' in alice.one('dialog .where').text, 'the top')
        alice.press('Move it', 'dialog')
        alice.says(STRANGE + '2', 'is now')
        alice.until(lambda: STRANGE not in alice.names(), 'that it is gone')
        alice.press('All documents', '#path')
        alice.lists(STRANGE + '2', 'letters')

    def remove_strange(self):
        alice = self.alice
        alice.act('Remove', f'{STRANGE}2')
        alice.press('Cancel', 'dialog')
        assert STRANGE + '2' in alice.names()
        alice.act('Remove', f'{STRANGE}2')
        alice.press('Remove it', 'dialog')
        alice.says(STRANGE + '2', 'was removed')
        alice.lists('letters')

    def full_folder(self):
        """It is removed with what is in it, after a question that counts this."""
        alice = self.alice
        alice.act('Remove', 'letters')
        alice.says('letters and what is in it, 4 documents, will be gone', css='dialog')
        alice.press('Cancel', 'dialog')
        for path in ('/full', '/full/a', '/full/a/b', '/full/c'):
            self.ask('POST', f'/folder{path}')
        for path in ('/full/one', '/full/a/b/two'):
            self.ask('PUT', f'/doc{path}', b'x')
        alice.open('')
        alice.act('Remove', 'full')
        alice.says('full and what is in it, 2 documents and 3 folders, will be gone', css='dialog')
        alice.press('Remove it', 'dialog')
        alice.says('full was removed')
        alice.lists('letters')

    def keyboard(self):
        alice = self.alice
        alice.button('New folder').send_keys(Keys.ENTER)
        alice.one('dialog input').send_keys('keys', Keys.ENTER)
        alice.says('keys', 'was made')
        alice.button('Actions: keys').send_keys(Keys.ENTER)
        for key, words in ((Keys.ARROW_UP, 'Remove'), (Keys.ARROW_DOWN, 'Download'),
                           (Keys.END, 'Remove')):
            alice.driver.switch_to.active_element.send_keys(key)
            assert alice.script('return document.activeElement.textContent') == words
        alice.driver.switch_to.active_element.send_keys(Keys.ESCAPE)
        assert alice.script('return document.activeElement.dataset.act') == 'menu' and \
            not alice.all('.menu')
        alice.driver.switch_to.active_element.send_keys(Keys.ENTER, Keys.ARROW_UP)
        alice.driver.switch_to.active_element.send_keys(Keys.ENTER)
        alice.until(lambda: alice.script('return document.activeElement.textContent') == 'Cancel',
                    'the question')
        alice.driver.switch_to.active_element.send_keys(Keys.TAB)
        alice.driver.switch_to.active_element.send_keys(Keys.ENTER)
        alice.says('keys', 'was removed')
