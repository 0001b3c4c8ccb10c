"""The play of what takes several steps, of forms, and of what the page says of itself."""

import os
import sys
import time

from selenium.webdriver.common.keys import Keys

sys.path.insert(0, os.path.join(os.path.dirname(os.path.realpath(__file__)), '..', 'services'))
import papers  # noqa: E402

ALL = 'rwanNxDtThHdcCoy'
KEEP, OWN = 'D:d:EVERYONE@:Dd', 'A:fi:OWNER@:d'

# Answers of the room to uploads in its place: each takes so long, and some are refused.
SENDING = """
const open = XMLHttpRequest.prototype.open;
const send = XMLHttpRequest.prototype.send;
Object.assign(window, { pause: arguments[0], refused: arguments[1] });
XMLHttpRequest.prototype.open = function (method, target, ...rest) {
  this.isPut = method === 'PUT';
  open.call(this, method, this.isPut && window.refused ? window.refused : target, ...rest);
};
XMLHttpRequest.prototype.send = function (body) {
  setTimeout(() => send.call(this, body), this.isPut ? window.pause : 0);
};
"""
# Whether a page that is left now would ask first.
ASKS = """const event = new Event('beforeunload', { cancelable: true });
window.dispatchEvent(event); return event.defaultPrevented;"""


class Leaving:
    def files(self, count, word):
        paths = []
        for number in range(count):
            paths.append(f'{self.folder}/{word} {number}.txt')
            with open(paths[-1], 'wb') as file:
                file.write(b'x')
        return paths

    @staticmethod
    def uploads(user, paths):
        user.script("document.querySelector('input.files').hidden = false")
        user.one('input.files').send_keys('\n'.join(paths))

    def stopped(self):
        """An upload is stopped, rows come as they are done, and the rest goes on at a press."""
        alice = self.alice
        self.ask('POST', '/folder/many')
        alice.open('#/many')
        assert not alice.script(ASKS)
        alice.script(SENDING, 1500, None)
        self.uploads(alice, self.files(12, 'part'))
        alice.until(lambda: alice.names(), 'the first rows, before the last document')
        assert alice.texts('.uploads .count')[0] != '12 of 12', alice.texts('.uploads .count')
        assert alice.script(ASKS)
        alice.press('Stop', '.uploads')
        alice.until(lambda: alice.texts('.uploads .count') == ['12 of 12'], 'the end')
        done = len(alice.texts('.uploads .good'))
        assert 0 < done < 12, done
        alice.until(lambda: not alice.script(ASKS), 'no question any more')
        alice.until(lambda: len(alice.names()) == done, 'the rows that were sent')
        said = alice.script("return document.querySelector('.uploads [role=status]').textContent")
        assert said == f'Stopped: {done} of 12 documents uploaded.', said
        assert said in alice.texts('.uploads')[0], alice.texts('.uploads')
        alice.script('window.pause = 0')
        alice.press('Try the failed ones again', '.uploads')
        alice.until(lambda: len(alice.names()) == 12, 'all of them')

    def too_much(self):
        """Where nginx takes no more, the list of what failed isn't lost by advice."""
        alice = self.alice
        alice.open('#/many')
        alice.script(SENDING, 0, 'none')
        alice.script("""window.refused = null; const real = XMLHttpRequest.prototype.open;
            XMLHttpRequest.prototype.open = function (...words) {
              real.apply(this, words);
              if (words[0] === 'PUT') Object.defineProperty(this, 'status', { get: () => 429 });
            };""")
        self.uploads(alice, self.files(1, 'much'))
        alice.says('too much was asked for at once', '“Try the failed ones again”',
                   css='.uploads .bad')
        assert 'password' not in alice.texts('.uploads')[0]

    def told_in_time(self):
        """The page tries for the half minute that it speaks of, and not for another one."""
        alice = self.alice
        self.ask('POST', '/folder/late')
        alice.open('#/late')
        alice.script("""const real = Object.getOwnPropertyDescriptor(XMLHttpRequest.prototype,
              'status');
            window.isAway = true;
            Object.defineProperty(XMLHttpRequest.prototype, 'status', {
              get() { return window.isAway ? 502 : real.get.call(this); } });""")
        self.uploads(alice, self.files(9, 'late'))
        alice.until(lambda: any('tries again for half a minute' in one
                                for one in alice.texts('.notice')), 'that it waits')
        began = time.monotonic()
        alice.until(lambda: alice.texts('.uploads .count') == ['9 of 9'], 'the end', 90)
        took = time.monotonic() - began
        assert 25 < took < 34, took
        assert not any('tries again' in one for one in alice.texts('.notice'))
        alice.script('window.isAway = false')
        alice.press('Try the failed ones again', '.uploads')
        alice.until(lambda: len(alice.names()) == 9, 'all of them')

    def one_question(self):
        """Who uploads what this browser gave out is asked once if somebody changed it meanwhile."""
        alice = self.alice
        self.ask('PUT', '/doc/many/shared.txt', b'first')
        alice.open('#/many')
        alice.press('shared.txt', 'table.folder')
        alice.downloaded('shared.txt')
        self.ask('PUT', '/doc/many/shared.txt', b'by somebody else')
        path = f'{self.folder}/shared.txt'
        with open(path, 'wb') as file:
            file.write(b'mine')
        self.uploads(alice, [path])
        alice.says('Somebody else changed it meanwhile', css='dialog')
        alice.press('Replace theirs', 'dialog')
        alice.says('uploaded', css='.uploads .good')
        assert not alice.all('dialog'), alice.texts('dialog')
        assert self.ask('GET', '/doc/many/shared.txt') == 'mine'
        # What is as it was given out is asked about as ever.
        with open(path, 'wb') as file:
            file.write(b'mine again')
        self.uploads(alice, [path])
        alice.says('There is a document shared.txt', css='dialog')
        alice.press('Replace it', 'dialog')
        alice.until(lambda: self.ask('GET', '/doc/many/shared.txt') == 'mine again', 'its bytes')

    def leaves(self):
        """Who leaves in the middle of a removal, a move or a change of lists is asked first."""
        alice = self.alice
        alice.open('#/many')
        alice.script("""window.realFetch = window.fetch;
            window.fetch = async (...words) => { if (String(words[0]).startsWith('door/remove')) {
              await new Promise((resolve) => { setTimeout(resolve, 400); }); }
              return window.realFetch(...words); };""")
        for name in ('part 1.txt', 'part 2.txt', 'part 3.txt', 'part 4.txt'):
            alice.click(alice.one(f'[aria-label="Select: {name}"]'))
        assert not alice.script(ASKS)
        alice.press('Remove', '.chosen')
        alice.press('Remove them', 'dialog')
        alice.until(lambda: alice.script(ASKS), 'a question, if it is left now')
        alice.says('4 documents were removed')
        alice.until(lambda: not alice.script(ASKS), 'none any more')
        # So it is in the middle of a move of several.
        self.ask('POST', '/folder/many/box')
        alice.open('#/many')
        alice.script("""window.realFetch = window.fetch;
            window.fetch = async (...words) => { if (String(words[0]).startsWith('door/move')) {
              await new Promise((resolve) => { setTimeout(resolve, 600); }); }
              return window.realFetch(...words); };""")
        for name in ('part 6.txt', 'part 7.txt'):
            alice.click(alice.one(f'[aria-label="Select: {name}"]'))
        alice.press('Move', '.chosen')
        alice.press('box', 'dialog .chooser')
        alice.until(lambda: '/many/box' in alice.texts('dialog .where')[0], 'the place')
        alice.press('Move them here', 'dialog .actions')
        alice.until(lambda: alice.script(ASKS), 'a question, if it is left in the middle')
        alice.says('2 objects moved to')
        alice.until(lambda: not alice.script(ASKS), 'none once it is done')

    def renames(self):
        """What isn't theirs to rename is told as that, with whom to ask."""
        carol = self.carol
        self.put_list('/many', 'list:a', f'A:fd:alice:{ALL}', KEEP, 'A:fdg:staff:rwaxtc')
        carol.open('#/many')
        carol.act('Rename or move', 'part 5.txt')
        carol.write('dialog input', 'renamed.txt')
        carol.press('Rename it', 'dialog')
        carol.says('You may not rename “/many/part 5.txt”.', 'Ask Alice Moreau')

    def by_this_list(self):
        """Where it isn't known who is in a group, nobody is said to lose all."""
        alice = self.alice
        self.people(members=False)
        self.put_list('/many', 'list:a', f'A:fd:alice:{ALL}', 'A:fdg:staff:rxtc', 'A:fd:carol:rxtc')
        self.panel('/many')
        alice.press('Remove access: Carol Weber')
        alice.until(lambda: alice.all('dialog .outcome[aria-busy=false]'), 'the question')
        said = ' '.join(alice.texts('dialog .loss'))
        assert 'Carol Weber – no access any more by this list (can read now)' in said, said
        alice.press('Cancel', 'dialog')
        self.people()

    def all_places(self):
        """More than six places are counted, and shown at a press."""
        alice = self.alice
        self.ask('POST', '/folder/tree')
        for number in range(9):
            self.ask('POST', f'/folder/tree/f{number}')
            self.put_list(f'/tree/f{number}', 'list:a', 'A:fd:zoe:rwaxtc')
        self.put_list('/tree', 'list:ap', f'A:fd:alice:{ALL}')
        self.panel('/tree')
        self.pick(alice, 'Zoe Adams', 'read')
        alice.until(lambda: any('3 more places further down change' in one
                                for one in alice.texts('.outcome .loss')), 'the count')
        alice.click(next(one for one in alice.all('.outcome summary') if one.text == 'Show all'))
        said = ' '.join(alice.texts('.outcome'))
        assert all(f'at /tree/f{number}' in said for number in range(9)), said

    def words_of_levels(self):
        """Of a document nobody is said to add and to remove."""
        alice = self.alice
        self.ask('PUT', '/doc/tree/plan.txt', b'x')
        self.panel('/tree/plan.txt')
        self.pick(alice, 'Zoe Adams', 'change')
        assert 'Can change: reads and replaces it.' in alice.texts('.adding .hint'), \
            alice.texts('.adding .hint')

    def ready_made(self):
        """Ready-made lists say the full name, and offer the names that are known."""
        alice = self.alice
        alice.open('#/tree?dacl')
        alice.press('Ready-made lists')
        assert 'Only Alice Moreau adds, changes and removes.' in ' '.join(alice.texts('dialog'))
        names = "return [...document.querySelector('dialog input[list]').list.options].map(" \
                '(one) => one.value)'
        assert alice.script(names) == ['staff'], alice.script(names)
        alice.script("""[...document.querySelectorAll('dialog .choice')].find((one) =>
            one.textContent.includes('Private to one user')).querySelector('input').click()""")
        assert 'zoe' in alice.script(names), alice.script(names)
        alice.type(Keys.ESCAPE)

    def pdf(self):
        """Who comes to a PDF by its link has it by one key."""
        alice = self.alice
        self.ask('PUT', '/doc/tree/paper.pdf', b'%PDF-1.4\n')
        alice.open('#/tree/paper.pdf?show')
        driver, before = alice.driver, alice.driver.current_window_handle
        alice.until(lambda: alice.script('return document.activeElement.innerText')
                    == 'Open in a tab', 'the button')
        alice.type(Keys.ENTER)
        alice.until(lambda: len(driver.window_handles) == 2, 'a tab')
        driver.switch_to.window(next(one for one in driver.window_handles if one != before))
        driver.close()
        driver.switch_to.window(before)

    def of_office(self):
        """Of what an office writes the text is shown, by the menu and by a link; of what is damaged
        it is said that there is none."""
        alice = self.alice
        lines = ['Dear Sirs, <b>&amp;', 'Größe']
        for name, data in (('letter.docx', papers.docx(lines)), ('letter.odt', papers.odt(lines)),
                           ('prices.xlsx', papers.xlsx(lines)), ('talk.pptx', papers.pptx(lines)),
                           ('broken.docx', papers.docx(lines)[:200]), ('bomb.docx', papers.zipped(
                               [('word/document.xml', b'<a>' + b' ' * 20_000_000 + b'</a>')]))):
            self.ask('PUT', f'/doc/tree/{name}', data)
        alice.open('#/tree')
        for name, wanted in (('letter.docx', '\n'.join(lines)), ('letter.odt', '\n'.join(lines)),
                             ('prices.xlsx', f'{lines[0]}\t7000\n{lines[1]}\t7001'),
                             ('talk.pptx', '\n\n'.join(lines))):
            alice.act('Preview', name)
            alice.until(lambda: alice.script(
                "return document.querySelector('dialog pre')?.textContent") == wanted, name)
            alice.says('Only its text is shown', css='dialog .content')
            alice.press('Close', 'dialog')
        for name in ('broken.docx', 'bomb.docx'):
            alice.act('Preview', name)
            alice.says('no preview', css='dialog .content')
            alice.press('Close', 'dialog')
        alice.open('#/tree/letter.docx?show')
        alice.says('Dear Sirs', css='.shown-document pre')
        for name in ('letter.docx', 'letter.odt', 'prices.xlsx', 'talk.pptx', 'broken.docx',
                     'bomb.docx'):
            self.ask('DELETE', f'/object/tree/{name}')

    def long_folder(self):
        """The end of a long folder is a few jumps away."""
        alice = self.alice
        self.ask('POST', '/folder/long')
        alice.open('#/long')
        alice.script("""window.fetch = ((real) => async (target, ...rest) => (
            target === 'folder/long' ? new Response(JSON.stringify(Array.from({ length: 5000 },
              (_, number) => ({ kind: 'document', name: `n${number}` })))) : real(target, ...rest))
          )(window.fetch); location.hash = '#/'""")
        alice.until(lambda: alice.texts('h1') == ['All documents'], 'another folder')
        alice.script("location.hash = '#/long'")
        alice.until(lambda: len(alice.names()) >= 200, 'the first rows')
        jumps = 0
        rows = 'return document.querySelectorAll("tbody tr").length'
        while alice.script(rows) < 5000 and jumps < 24:
            before = alice.script(rows)
            alice.script('window.scrollTo(0, document.scrollingElement.scrollHeight)')
            alice.until(lambda: alice.script(rows) > before, 'more rows')
            jumps += 1
        assert jumps <= 6, jumps

    def help(self):
        """What a clerk wants to know first is told in the page itself."""
        alice = self.alice
        alice.open('#/many')
        alice.press('Your account')
        alice.press('Help', '.menu')
        said = alice.until(lambda: ' '.join(alice.texts('dialog dl')), 'help')
        assert 'removed or replaced by mistake' in said and '“Earlier”' in said, said
        alice.press('Close', 'dialog')

    PLAY = [('an upload is stopped', stopped), ('too much at once', too_much),
            ('an upload while the room is away', told_in_time),
            ('one question', one_question), ('who leaves', leaves), ('a rename', renames),
            ('by this list', by_this_list), ('all places', all_places),
            ('levels of a document', words_of_levels), ('ready-made lists', ready_made),
            ('a PDF by its link', pdf),
            ('what an office writes', of_office), ('a long folder', long_folder), ('help', help)]
