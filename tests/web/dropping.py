"""The play of what is dragged from the desktop and dropped on the page, and of whole folders."""

import os


class Dropping:
    def drag(self, kind, css, *paths):
        """Drags files of this machine over the middle of an element, or drops them there."""
        # A row may be drawn anew after it is found and before it is measured.
        box = self.alice.until(lambda: self.alice.one(css).rect, css)
        self.alice.driver.execute_cdp_cmd('Input.dispatchDragEvent', {
            'type': kind, 'x': box['x'] + box['width'] / 2, 'y': box['y'] + box['height'] / 2,
            'data': {'items': [], 'files': list(paths), 'dragOperationsMask': 1}})

    def drop_on(self, css, *paths):
        for kind in ('dragEnter', 'dragOver', 'drop'):
            self.drag(kind, css, *paths)

    def whole_folder(self):
        """A folder of this machine with a folder, an empty one, and four documents."""
        top = f'{self.folder}/tender'
        os.makedirs(f'{top}/offers/empty')
        for name in ('plan.txt', 'offers/one.txt', 'offers/two.txt', 'offers/Größe 3.txt'):
            self.file(f'tender/{name}', name.encode())
        return top

    def names_in(self, path):
        return self.ask('GET', f'/folder{path}')

    def drop_on_folder(self):
        """It goes into that folder, whose row shows it meanwhile."""
        alice = self.alice
        for path in ('/drops', '/drops/inbox', '/drops/outbox'):
            self.ask('POST', f'/folder{path}')
        self.ask('PUT', '/doc/drops/note.txt', b'note')
        alice.open('#/drops')
        path = self.file('secret.txt', b'secret')
        self.drag('dragEnter', '[data-path="/drops/inbox"]', path)
        self.drag('dragOver', '[data-path="/drops/inbox"]', path)
        alice.until(lambda: alice.all('[data-path="/drops/inbox"].into'), 'the marked row')
        assert not alice.all('.dropping'), 'the open folder is marked too'
        # The first one over another row only enters it.
        for _ in range(2):
            self.drag('dragOver', '[data-path="/drops/outbox"]', path)
        alice.until(lambda: alice.all('[data-path="/drops/outbox"].into'), 'the next row')
        assert not alice.all('[data-path="/drops/inbox"].into')
        self.drop_on('[data-path="/drops/inbox"]', path)
        alice.says('uploaded', css='.uploads .good')
        alice.says('Upload to “/drops/inbox”', css='.uploads')
        assert not alice.all('.into, .dropping')
        assert self.ask('GET', '/doc/drops/inbox/secret.txt') == 'secret'
        alice.lists('inbox', 'outbox', 'note.txt')

    def drop_beside(self):
        """Beside the rows, it goes into the open folder."""
        alice = self.alice
        path = self.file('open.txt', b'open')
        self.drag('dragEnter', 'h1', path)
        self.drag('dragOver', 'h1', path)
        alice.until(lambda: alice.all('.folder-view.dropping'), 'the marked folder')
        self.drop_on('h1', path)
        alice.lists('inbox', 'outbox', 'note.txt', 'open.txt')

    def drop_on_document(self):
        alice = self.alice
        row = '[data-path="/drops/note.txt"]'
        path = self.file('beside.txt', b'beside')
        for answer, there in (('Cancel', False), ('Put beside it', True)):
            self.drop_on(row, path)
            alice.says('Nothing can be put into note.txt', 'beside.txt', '“/drops”', css='dialog')
            alice.press(answer, 'dialog')
            alice.until(lambda: not alice.all('dialog'), 'the end of the question')
            alice.until(lambda: ('beside.txt' in alice.names()) == there, 'the listing')
        assert self.ask('GET', '/doc/drops/note.txt') == 'note'

    def folder_on_document(self):
        alice = self.alice
        before = self.names_in('/drops')
        paths = self.whole_folder(), self.file('more.txt', b'')
        self.drop_on('[data-path="/drops/note.txt"]', *paths)
        alice.says('A folder can’t be put into a document', 'note.txt', 'Drop it on a folder')
        assert not alice.all('dialog') and self.names_in('/drops') == before

    def drop_whole_folder(self):
        alice = self.alice
        self.drop_on('[data-path="/drops/outbox"]', f'{self.folder}/tender')
        alice.says('tender', 'uploaded, with 4 documents', css='.uploads .good')
        assert self.names_in('/drops/outbox') == '[{"kind":"folder","name":"tender"}]'
        assert '"empty"' in self.names_in('/drops/outbox/tender/offers')
        assert self.ask('GET', '/doc/drops/outbox/tender/offers/one.txt') == 'offers/one.txt'

    def whole_folder_by_field(self):
        """Once more by the button, over what is there: one document is over the limit."""
        alice = self.alice
        with open(f'{self.folder}/tender/plan.txt', 'wb') as file:
            file.truncate(104857601)
        alice.open('#/drops/outbox')
        alice.script("document.querySelector('input.whole').hidden = false")
        alice.one('input.whole').send_keys(f'{self.folder}/tender')
        alice.says('There is a document', css='dialog')
        alice.press('The same for all that are there already', 'dialog')
        alice.press('Replace it', 'dialog')
        alice.says('3 of 4 documents uploaded', 'tender/plan.txt', '104,857,600',
                   css='.uploads .bad')
        assert not alice.all('dialog')
