"""How many clicks, and how many keys, what offices do most takes at most: tasks.py FOLDER FRONT

Clicks are counted from the open folder; typing isn't one. Keys are counted from the page as it
opens, names that are typed included: who uses no mouse has nothing else."""

import base64
import datetime
import signal
import sys
import urllib.request

from browser import Browser, Checks
from people import Names, day
from selenium.webdriver.common.keys import Keys

ALL = 'rwanNxDtThHdcCoy'
USERS = ['alice', 'bob', 'carol', 'dana', 'eve']
# What has the focus, in the words that a screen reader says: its label, its text, or its row.
FOCUSED = """
const at = document.activeElement;
return (at.ariaLabel ?? at.labels?.[0]?.innerText ?? at.innerText ?? '').trim();
"""
# Whether a page that is left now would ask first.
ASKS = """const event = new Event('beforeunload', { cancelable: true });
window.dispatchEvent(event); return event.defaultPrevented;"""
INSIDE = 'return document.activeElement.closest(arguments[0]) !== null'


class Counted:
    """Somebody at the page, whose clicks or keys are counted."""

    def __init__(self, user):
        self.user = user
        self.count = 0

    def press(self, words, within='body'):
        self.user.press(words, within)
        self.count += 1

    def click(self, find, what):
        def does():
            one = find()
            return one is not None and self.user.click(one)
        self.user.until(does, what)
        self.count += 1

    def type(self, *keys):
        self.user.type(*keys)
        self.count += sum(len(key) for key in keys)

    def focused(self):
        return self.user.script(FOCUSED)

    def go(self, words, key=Keys.TAB, most=60):
        """Presses a key until the focus is at what begins with these words."""
        for _ in range(most):
            if self.focused().startswith(words):
                return
            self.type(key)
        raise AssertionError(f'{words} has no focus after {most}, but “{self.focused()}”')


class Tasks:
    def __init__(self, folder, front):
        self.folder = folder
        self.base = f'http://127.0.0.1:{front}'
        self.alice = None

    def ask(self, method, target, body=None):
        word = base64.b64encode(b'alice:a').decode()
        asked = urllib.request.Request(self.base + target, body, {'Authorization': f'Basic {word}'},
                                       method=method)
        with urllib.request.urlopen(asked) as reply:
            return reply.read().decode()

    def put_list(self, path, *lines):
        self.ask('PUT', f'/dacl{path}', '\n'.join([*lines, '']).encode())

    def own_of(self, path):
        return [line for line in self.ask('GET', f'/dacl{path}').split('\n')[1:]
                if line and 'I' not in line.split(':')[1]]

    def make(self):
        """The same office for each task."""
        Names(f'{self.folder}/names').put('people.json', {
            'made': day(), 'members': True, 'users': USERS, 'groups': {'staff': ['bob', 'carol']},
            'names': {}})
        for path in ('/work', '/work/in'):
            self.ask('POST', f'/folder{path}')
        self.put_list('/work', 'list:ap', f'A:fd:alice:{ALL}', 'A:fd:dana:rxtc')
        with open(f'{self.folder}/pdfs/letter.pdf', 'rb') as paper:
            self.ask('PUT', '/doc/work/paper.pdf', paper.read())
        for name, body in (('plan.txt', b'a plan'), ('dot.png', base64.b64decode(
                'iVBORw0KGgoAAAANSUhEUgAAAAEAAAABCAYAAAAfFcSJAAAADUlEQVR4nGNgYGD4DwABBAEAX+XDSwAA'
                'AABJRU5ErkJggg==')), ('letter.odt', b'x'), ('notes.txt', b'notes')):
            self.ask('PUT', f'/doc/work/{name}', body)

    def clear(self):
        """Whatever a task has left."""
        for path in ('/work/in/plan.txt', '/work/in', *(
                f'/work/{name}' for name in ('paper.pdf', 'plan.txt', 'dot.png', 'letter.odt',
                                             'notes.txt', 'idea.txt')), '/work'):
            try:
                self.ask('DELETE', f'/object{path}')
            except urllib.error.HTTPError:
                pass

    def opened(self, place):
        self.alice.open(f'#{place}')
        self.alice.until(lambda: self.alice.names(), 'rows')
        return Counted(self.alice)

    def by_keys(self, place):
        """The first key leads to a link past the head of the page."""
        at = self.opened(place)
        at.type(Keys.TAB, Keys.ENTER)
        return at

    def access_by_keys(self, place):
        at = self.by_keys(place)
        at.go('Access')
        at.type(Keys.ENTER)
        self.holders()
        return at

    def at_row(self, place, name, act='open'):
        """The focus goes by keys to a control of a row."""
        at = self.by_keys(place)
        for _ in range(60):
            if self.alice.script(INSIDE, 'table.folder tbody'):
                break
            at.type(Keys.TAB)
        for _ in range(20):
            if self.alice.script("return document.activeElement.closest('tr').ariaLabel") == name:
                break
            at.type(Keys.ARROW_DOWN)
        for _ in range(4):
            if self.alice.script('return document.activeElement.dataset.act') == act:
                return at
            at.type(Keys.ARROW_RIGHT)
        raise AssertionError(f'{name}: no {act}')

    def menu(self, at, words):
        at.type(Keys.ENTER)
        at.go(words, Keys.ARROW_DOWN, 12)
        at.type(Keys.ENTER)

    def holders(self):
        self.alice.until(lambda: self.alice.all('.holders'), 'the panel')

    def ready(self, css='.adding'):
        self.alice.until(lambda: self.alice.script(
            f"return document.querySelector('{css} .primary')?.disabled === false"), 'ready')

    def has(self, path, *lines):
        self.alice.until(lambda: set(lines) <= set(self.own_of(path)), f'{lines} at {path}')

    # By clicks.

    def share(self):
        at = self.opened('/')
        at.press('Access: work')
        self.holders()
        for name in ('bob', 'carol'):
            self.alice.write('.picker input', name)
            at.click(lambda one=name: next((line for line in self.alice.all('[role=option]')
                                            if one in line.text), None), name)
        self.ready()
        at.press('Share', '.adding')
        self.has('/work', 'A:fd:bob:rxtc', 'A:fd:carol:rxtc')
        return at.count

    def who(self, place='/', name='work'):
        at = self.opened(place)
        at.press(f'Access: {name}')
        self.holders()
        assert 'dana' in self.alice.texts('.holders')[0]
        return at.count

    def who_of_document(self):
        return self.who('/work', 'plan.txt')

    def taken_out(self):
        at = self.opened('/')
        at.press('Access: work')
        self.holders()
        at.press('Remove access: dana')
        self.alice.until(lambda: self.alice.all('dialog .outcome[aria-busy=false]'), 'a question')
        at.press('Remove access', 'dialog .actions')
        self.alice.until(lambda: not any('dana' in one for one in self.own_of('/work')), 'it')
        # The first click led there.
        return at.count - 1

    def files(self):
        paths = []
        for number in range(30):
            paths.append(f'{self.folder}/file {number}.txt')
            with open(paths[-1], 'wb') as file:
                file.write(b'x')
        return paths

    def sent(self, folder):
        self.alice.until(lambda: self.ask('GET', f'/folder{folder}').count('file ') == 30,
                         'all of them')
        self.alice.until(lambda: not self.alice.script(ASKS), 'the end of the upload')
        for number in range(30):
            self.ask('DELETE', f'/object{folder}/file%20{number}.txt')

    def uploaded(self):
        at = self.opened('/work')
        # The browser's own choice of files is no part of the page.
        self.alice.script("""const field = document.querySelector('input.files');
            field.click = () => { window.asked = true; }; field.hidden = false;""")
        at.press('Upload', '.desk')
        assert self.alice.script('return window.asked')
        self.alice.one('input.files').send_keys('\n'.join(self.files()))
        self.sent('/work')
        return at.count

    def dropped(self):
        at = self.opened('/work')
        self.alice.script("""const row = [...document.querySelectorAll('table.folder tr')]
            .find((one) => one.ariaLabel === 'in');
            const dataTransfer = new DataTransfer();
            for (let number = 0; number < 30; number += 1) {
              dataTransfer.items.add(new File(['x'], `file ${number}.txt`));
            }
            for (const kind of ['dragenter', 'dragover', 'drop']) {
              row.dispatchEvent(new DragEvent(kind, { dataTransfer, bubbles: true,
                cancelable: true }));
            }""")
        self.sent('/work/in')
        return at.count

    def by_menu(self, at, words, name):
        at.press(f'Actions: {name}')
        at.press(words, '.menu')

    def is_there(self, path, is_it=True):
        name = path.rpartition('/')[2]
        self.alice.until(lambda: (f'"{name}"' in self.ask(
            'GET', f'/folder{path.rpartition("/")[0]}')) == is_it, path)

    def renamed(self):
        at = self.opened('/work')
        self.by_menu(at, 'Rename or move', 'plan.txt')
        self.alice.write('dialog input', 'idea.txt')
        self.alice.type(Keys.ENTER)
        self.is_there('/work/idea.txt')
        return at.count

    def moved(self):
        at = self.opened('/work')
        self.by_menu(at, 'Rename or move', 'plan.txt')
        at.press('in', 'dialog .chooser')
        self.alice.until(lambda: '/work/in' in self.alice.texts('dialog .where')[0], 'the place')
        at.press('Move it', 'dialog .actions')
        self.is_there('/work/in/plan.txt')
        return at.count

    def found(self):
        at = self.opened('/')
        at.click(lambda: self.alice.one('.tools input'), 'the field')
        self.alice.write('.tools input', 'notes')
        at.press('Find further down')
        self.alice.until(lambda: 'notes.txt' in self.alice.texts('.found .name'), 'it')
        return at.count

    def looked_at(self):
        """A PDF, a picture, a text."""
        counts = []
        at = self.opened('/work')
        driver = self.alice.driver
        at.press('paper.pdf', 'table.folder')
        self.alice.until(lambda: self.alice.all('.pages img') or len(driver.window_handles) == 2,
                         'the PDF')
        for one in driver.window_handles[1:]:
            driver.switch_to.window(one)
            driver.close()
        driver.switch_to.window(driver.window_handles[0])
        counts.append(at.count)
        for name, css in (('dot.png', 'dialog img'), ('plan.txt', 'dialog pre')):
            at = self.opened('/work')
            self.by_menu(at, 'Preview', name)
            self.alice.one(css)
            counts.append(at.count)
        return counts[0] if counts[1:] == [2, 2] else counts

    def whole_folder(self):
        at = self.opened('/')
        self.by_menu(at, 'Download', 'work')
        assert self.alice.downloaded('work.zip')
        return at.count

    def three_ticked(self):
        at = self.opened('/work')
        for name in ('plan.txt', 'notes.txt', 'dot.png'):
            at.click(lambda one=name: next(iter(self.alice.all(f'[aria-label="Select: {one}"]')),
                                           None), name)
        at.press('Download', '.chosen')
        assert self.alice.downloaded('work.zip')
        return at.count

    def deputy(self):
        at = self.opened('/')
        at.press('Access: work')
        self.holders()
        self.alice.write('.picker input', 'eve')
        at.click(lambda: next((one for one in self.alice.all('[role=option]')
                               if 'eve' in one.text), None), 'eve')
        # A menu is opened, and something chosen in it.
        self.alice.script("""const menu = document.querySelector('.picked select');
            menu.value = 'manage'; menu.dispatchEvent(new Event('change'));""")
        at.count += 2
        self.until(at)
        self.ready()
        at.press('Share', '.adding')
        self.has('/work', f'A:fd:eve:{ALL}')
        return at.count

    def until(self, at):
        last = (datetime.date.today() + datetime.timedelta(days=14)).isoformat()
        at.click(lambda: self.alice.one('.adding input[type=date]'), 'the day')
        self.alice.script("""const field = document.querySelector('.adding input[type=date]');
            field.value = arguments[0];
            for (const kind of ['input', 'change']) field.dispatchEvent(new Event(kind));""", last)

    def edited(self):
        at = self.opened('/work')
        at.press('Actions: letter.odt')
        entry = self.alice.button('Open in LibreOffice', '.menu')
        at.count += 1
        assert entry.get_attribute('href').startswith('vnd.libreoffice.command:'), entry
        return at.count

    # By keys alone.

    def keys_share(self):
        at = self.access_by_keys('/work')
        if not self.alice.script(INSIDE, '.picker'):
            at.go('Add people or groups')
        for name in ('bob', 'carol'):
            at.type(name)
            self.alice.until(lambda one=name: any(one in text for text in self.alice.texts(
                '[role=option][aria-selected=true]')), name)
            at.type(Keys.ENTER)
        self.ready()
        at.go('Share')
        at.type(Keys.ENTER)
        self.has('/work', 'A:fd:bob:rxtc', 'A:fd:carol:rxtc')
        return at.count

    def keys_who(self):
        at = self.access_by_keys('/work')
        return at.count

    def keys_taken_out(self):
        at = self.access_by_keys('/work')
        at.go('Remove access: dana')
        at.type(Keys.ENTER)
        self.alice.until(lambda: self.alice.all('dialog .outcome[aria-busy=false]'), 'a question')
        at.go('Remove access')
        at.type(Keys.ENTER)
        self.alice.until(lambda: not any('dana' in one for one in self.own_of('/work')), 'it')
        return at.count

    def keys_renamed(self):
        at = self.at_row('/work', 'plan.txt')
        at.type(Keys.F2)
        self.alice.one('dialog input')
        # (what stands before the ending is selected)
        at.type('idea', Keys.ENTER)
        self.is_there('/work/idea.txt')
        return at.count

    def keys_moved(self):
        at = self.at_row('/work', 'plan.txt')
        at.type(Keys.F2)
        self.alice.one('dialog input')
        at.go('in')
        at.type(Keys.ENTER)
        self.alice.until(lambda: '/work/in' in self.alice.texts('dialog .where')[0], 'the place')
        self.alice.until(lambda: self.alice.script(INSIDE, 'dialog .chooser'), 'the focus there')
        at.go('Move')
        at.type(Keys.ENTER)
        self.is_there('/work/in/plan.txt')
        return at.count

    def keys_found(self):
        at = self.by_keys('/')
        at.go('Filter by name')
        at.type('notes', Keys.ENTER)
        self.alice.until(lambda: 'notes.txt' in self.alice.texts('.found .name'), 'it')
        return at.count

    def keys_looked_at(self):
        at = self.at_row('/work', 'plan.txt', 'menu')
        self.menu(at, 'Preview')
        self.alice.one('dialog pre')
        return at.count

    def keys_whole_folder(self):
        at = self.at_row('/', 'work', 'menu')
        self.menu(at, 'Download')
        assert self.alice.downloaded('work.zip')
        return at.count

    def keys_deputy(self):
        at = self.access_by_keys('/work')
        if not self.alice.script(INSIDE, '.picker'):
            at.go('Add people or groups')
        # A letter is enough where no other name begins with it.
        at.type('b')
        self.alice.until(lambda: any('bob' in text for text in self.alice.texts(
            '[role=option][aria-selected=true]')), 'bob')
        at.type(Keys.ENTER)
        for _ in range(20):
            if self.alice.script("return document.activeElement.matches('.picked select')"):
                break
            at.type(Keys.TAB)
        # The last one of the menu.
        at.type(Keys.END)
        for _ in range(20):
            if self.alice.script("return document.activeElement.type === 'date'"):
                break
            at.type(Keys.TAB)
        last = datetime.date.today() + datetime.timedelta(days=14)
        # As this browser's language has it.
        at.type(last.strftime('%m%d%Y'))
        self.ready()
        at.go('Share')
        at.type(Keys.ENTER)
        self.has('/work', f'A:fd:bob:{ALL}')
        assert any(last.isoformat() in line for line in self.own_of('/work')), self.own_of('/work')
        return at.count


# The most of each, which is what the best of the usual programs takes, or what it took before.
CLICKS = [
    ('a folder shared with two people', Tasks.share, 6), ('who has access', Tasks.who, 1),
    ('the same of a document', Tasks.who_of_document, 2),
    ('somebody is taken out', Tasks.taken_out, 2), ('30 files uploaded', Tasks.uploaded, 1),
    ('30 files dropped on a row', Tasks.dropped, 0), ('a rename', Tasks.renamed, 2),
    ('a move into a folder', Tasks.moved, 4), ('a name from the top', Tasks.found, 2),
    ('a look at a PDF, a picture, a text', Tasks.looked_at, 1),
    ('a folder as a ZIP', Tasks.whole_folder, 2), ('three ticked', Tasks.three_ticked, 4),
    ('a deputy until a day', Tasks.deputy, 7), ('a document in LibreOffice', Tasks.edited, 2)]
KEYS = [
    ('a folder shared with two people', Tasks.keys_share, 48),
    ('who has access', Tasks.keys_who, 13), ('somebody is taken out', Tasks.keys_taken_out, 27),
    ('a rename', Tasks.keys_renamed, 29), ('a move into a folder', Tasks.keys_moved, 29),
    ('a name from the top', Tasks.keys_found, 14), ('a look at a text', Tasks.keys_looked_at, 22),
    ('a folder as a ZIP', Tasks.keys_whole_folder, 17),
    ('a deputy until a day', Tasks.keys_deputy, 33)]


def main():
    signal.signal(signal.SIGTERM, lambda *_: sys.exit(1))
    play, checks = Tasks(*sys.argv[1:]), Checks()
    play.alice = Browser(f'{play.folder}/tasks', play.base, 'alice', 'a')
    try:
        for tasks, unit in ((CLICKS, 'clicks'), (KEYS, 'keys')):
            for name, act, most in tasks:
                play.clear()
                play.make()
                took = []
                checks.step(f'{name}, {unit}', lambda: took.append(act(play)))
                if took:
                    checks.holds(f'{name}: {took[0]} {unit}', took[0] <= most,
                                 f'more than {most}')
        errors = play.alice.errors()
        checks.holds('nothing on the console', errors == [], str(errors))
    finally:
        play.alice.quit()
    print('end', flush=True)


if __name__ == '__main__':
    main()
