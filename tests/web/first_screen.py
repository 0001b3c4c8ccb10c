"""The first screen, in Chromium: first_screen.py FOLDER FRONT-PORT

The root lets alice do all; bob reads /papers. What the door tells of changes the play says in its
place, as docs/door.md has it, so that each answer can be tried."""

import base64
import json
import signal
import sys
import time
import urllib.request

from browser import Browser, Checks
from people import Names, day
from selenium.webdriver.common.keys import Keys

DESK, PHONE = (1200, 900), (390, 844)
PAPERS = {'Framework agreement with Mueller and Sons.odt': b'x' * 412000, 'Lease.pdf': b'y' * 988,
          'Price list.xlsx': b'', 'Terms.docx': b'z' * 25000}

# Answers in the place of the door's: status, JSON.
DOOR = """
const real = window.fetch;
window.answers = %s;
window.fetch = async (target, words) => {
  const word = /^door[/](folder|latest)[/]/.exec(target)?.[1];
  if (!word || !window.answers[word]) return real(target, words);
  const [status, told] = window.answers[word];
  return new Response(JSON.stringify(told), { status });
};
"""
# Tells so much, shows a panel with so many rows, and answers with what of these or of the buttons
# at the top is partly below something else.
HIDDEN = """
const [messages, rows, done] = arguments;
const spots = [0.05, 0.5, 0.95];
const isFree = (one) => {
  const { left, top, width, height } = one.getBoundingClientRect();
  return spots.every((x) => spots.every((y) =>
    one.contains(document.elementFromPoint(left + width * x, top + height * y))));
};
Promise.all(['messages', 'panel'].map((name) => import(`./${name}.js`)))
  .then(([{ tell }, { newPanel }]) => {
    for (let at = 0; at < messages; at += 1) tell('bad', `${'This wasn’t done. '.repeat(12)}${at}`);
    const panel = rows > 0 ? newPanel('Uploads', 'Uploads') : null;
    for (let at = 0; at < rows; at += 1) {
      panel.rows.append(document.createElement('li'));
      panel.rows.lastChild.textContent = `part ${at}`;
    }
    const all = [...document.querySelectorAll('main .phone button, #notices, #uploads')];
    done(all.filter((one) => one.checkVisibility() && !isFree(one)).map((one) =>
      one.id || one.ariaLabel));
  });
"""
ROWS = """return [...document.querySelectorAll('tbody tr')].map((row) =>
  [...row.cells].map((cell) => cell.checkVisibility() ? cell.innerText.trim() : '')
    .filter((text) => text !== ''))"""


class FirstScreen:
    def __init__(self, folder, front):
        self.folder = folder
        self.base = f'http://127.0.0.1:{front}'
        self.alice = self.bob = self.script = None

    def ask(self, method, target, body=None):
        word = base64.b64encode(b'alice:a').decode()
        asked = urllib.request.Request(self.base + target, body, {'Authorization': f'Basic {word}'},
                                       method=method)
        with urllib.request.urlopen(asked) as reply:
            return reply.read().decode()

    def make(self):
        Names(f'{self.folder}/names').put('people.json', {
            'made': day(), 'members': False, 'users': ['alice', 'bob'], 'groups': {},
            'names': {'alice': 'Alice Moreau', 'bob': 'Bob Lindqvist'}})
        for path in ('/papers', '/papers/2026', '/papers/2026/deep'):
            self.ask('POST', f'/folder{path}')
        self.ask('PUT', '/dacl/papers', b'list:a\nA:fd:bob:rxtc\n')
        for name, text in PAPERS.items():
            self.ask('PUT', f'/doc/papers/{urllib.request.quote(name)}', text)

    def answers(self, shows='who', **known):
        """What the door says of /papers: of each name what is known."""
        names = [one['name'] for one in json.loads(self.ask('GET', '/folder/papers'))]
        return {'folder': [200, {'at': '/papers', 'closed': [], 'shows': shows, 'rows': [
            {'kind': 'document', 'name': name, **known.get(name.split('.')[0].split(' ')[0], {})}
            for name in names]}]}

    def opened(self, answers, size=DESK, place='#/papers'):
        alice = self.alice
        if self.script is not None:
            alice.driver.execute_cdp_cmd('Page.removeScriptToEvaluateOnNewDocument',
                                         {'identifier': self.script})
        self.script = alice.driver.execute_cdp_cmd('Page.addScriptToEvaluateOnNewDocument', {
            'source': DOOR % json.dumps(answers)})['identifier']
        alice.resize(*size)
        alice.open(place)

    def usual(self, shows='who'):
        now = int(time.time())
        midnight = int(time.mktime((*time.localtime(now)[:3], 0, 0, 0, 0, 0, -1)))
        return self.answers(shows, **{
            'Framework': {'when': midnight + 60, 'who': 'bob', 'size': 412000},
            'Lease': {'when': midnight - 3600, 'who': 'alice', 'size': 988},
            'Price': {'before': midnight - 86400 * 3, 'size': 0},
            'Terms': {'when': 1000000000, 'who': 'zoe', 'size': 25000},
            '2026': {'when': midnight + 120, 'who': 'alice'}})

    def columns(self, *words):
        self.alice.until(lambda: self.alice.texts('thead th .sort') == [*words],
                         f'the columns {words}')

    def on_a_desk(self):
        """A row has name, when, by whom, size, a sign for access and a menu, on one line."""
        alice = self.alice
        self.opened(self.usual())
        self.columns('Name', 'Changed', 'By', 'Size')
        rows = alice.script(ROWS)
        assert rows[0][:1] == ['2026'] and rows[0][1].startswith('Today ') \
            and rows[0][2:] == ['Alice Moreau'], rows
        said = {row[0]: row[1:] for row in rows}
        assert said['Framework agreement with Mueller and Sons.odt'][1:] == [
            'Bob Lindqvist', '412 kB'], said
        assert said['Lease.pdf'][0].startswith('Yesterday ') and \
            said['Lease.pdf'][1:] == ['Alice Moreau', '988 B'], said
        assert said['Price list.xlsx'][0].startswith('Before ') and \
            said['Price list.xlsx'][1:] == ['0 B'], said
        assert said['Terms.docx'] == ['9 Sept 2001', 'zoe', '25 kB'], said
        heights = alice.script("return [...document.querySelectorAll('tbody tr')]"
                               '.map((row) => row.getBoundingClientRect().height)')
        assert max(heights) < 60, heights
        controls = alice.script("""return [...document.querySelector('tbody tr').querySelectorAll(
            '.acts :is(a, button)')].map((one) => [one.innerText.trim(), one.ariaLabel])""")
        assert controls == [['', 'Access: 2026'], ['', 'Actions: 2026']], controls

    def sorted_by(self):
        """The newest, the largest and the first name first; once more turns it, and what isn't
        known stays last."""
        alice = self.alice
        for word, first, last, order in (
                ('Changed', '2026', 'Terms.docx', 'descending'),
                ('Size', 'Framework agreement with Mueller and Sons.odt', '2026', 'descending'),
                ('By', '2026', 'Price list.xlsx', 'ascending')):
            alice.press(word, 'thead')
            assert [alice.names()[0], alice.names()[-1]] == [first, last], (word, alice.names())
            assert alice.one(f'th[aria-sort={order}]').text == word
        alice.press('Size', 'thead')
        alice.press('Size', 'thead')
        assert [alice.names()[0], alice.names()[-1]] == ['Price list.xlsx', '2026'], alice.names()
        assert alice.one('th[aria-sort=ascending]').text == 'Size'

    def fewer(self):
        """A room that tells no names has no such column; one without dates has none of them."""
        alice = self.alice
        self.opened(self.usual('when'))
        self.columns('Name', 'Changed', 'Size')
        self.opened(self.answers(None))
        self.columns('Name', 'Kind')
        assert 'What is new' not in alice.texts('main .bar :is(a, button)')
        assert alice.texts('tbody .below-name') == [], alice.texts('tbody .below-name')

    def away(self):
        """Where the door has no answer, the folder is there all the same."""
        self.opened({'folder': [503, {'why': 'busy'}]})
        self.alice.until(lambda: len(self.alice.names()) == 5, 'the rows')
        assert not self.alice.all('.notice'), self.alice.texts('.notice')

    def lies(self):
        """What isn't what it should be isn't shown, and nothing becomes markup."""
        alice = self.alice
        self.opened(self.answers('who', **{
            'Framework': {'when': 1e300, 'who': 7, 'size': -1},
            'Lease': {'when': '<img src=x onerror=1>', 'who': '<b>x</b>', 'size': 'x'},
            'Price': {'when': None, 'before': -5, 'size': 1.5}, '2026': {'size': 1, 'who': ''}}))
        self.columns('Name', 'Changed', 'By', 'Size')
        said = {row[0]: row[1:] for row in alice.script(ROWS)}
        assert said['Lease.pdf'] == ['<b>x</b>'], said
        assert said['Framework agreement with Mueller and Sons.odt'] == [], said
        assert said['Price list.xlsx'] == [], said
        assert not alice.script("return document.querySelector('tbody :is(b, img)')")

    def on_a_telephone(self):
        """The head is one line, then a '+' and one menu; a third of the screen isn't buttons."""
        alice = self.alice
        for size in (PHONE, (320, 640)):
            self.opened(self.usual(), size)
            alice.until(lambda: alice.texts('.below-name'), 'what is known')
            head = alice.one('header').size['height']
            assert head < 56, head
            bar = alice.texts('main .bar :is(a, button)')
            labels = [one.get_attribute('aria-label') for one in alice.all('main .bar button')]
            assert bar == ['', ''] and labels == ['Add', 'More'], (bar, labels)
            top = alice.script("return document.querySelector('tbody tr')"
                               '.getBoundingClientRect().top')
            assert top < size[1] / 3, top
            assert alice.script('return innerWidth') == size[0]
        assert any(one.endswith(' · Bob Lindqvist · 412 kB') and one.startswith('Today ')
                   for one in alice.texts('.below-name')), alice.texts('.below-name')

    def by_its_menus(self):
        """All that the buttons of a desk do."""
        alice = self.alice
        alice.press('Add')
        assert alice.texts('.menu > *') == ['Upload', 'Upload a folder', 'New folder']
        alice.press('New folder', '.menu')
        alice.write('dialog input', 'made by thumb')
        alice.press('Make it', 'dialog')
        alice.says('made by thumb', 'was made')
        self.ask('DELETE', '/object/papers/made%20by%20thumb')
        alice.press('More')
        assert alice.texts('.menu > *') == ['What is new', 'Earlier', 'Access'], \
            alice.texts('.menu > *')
        alice.press('Access', '.menu')
        alice.until(lambda: alice.all('.holders'), 'who has access')

    def messages(self):
        """However much is told, it leaves the '+' free, and nothing lies above it."""
        alice = self.alice
        for size in (PHONE, (320, 640), (800, 600)):
            self.opened(self.usual(), size)
            for messages, rows in ((1, 0), (3, 30)):
                hidden = alice.driver.execute_async_script(HIDDEN, messages, rows)
                assert hidden == [], (size, messages, rows, hidden)

    def deep(self):
        """However deep, the head stays one line, with the folder and the one above it."""
        alice = self.alice
        self.opened(self.usual(), (320, 640), '#/papers/2026/deep')
        assert alice.texts('.sheet .empty') == [
            'Nothing is in this folder yet.\nAdd something by “+”.'], alice.texts('.sheet .empty')
        assert alice.texts('#path li') == ['2026', 'deep'], alice.texts('#path li')
        assert alice.one('header').size['height'] < 56
        alice.click(alice.one('#home'))
        alice.until(lambda: alice.texts('h1') == ['All documents'], 'the top')

    def lacks(self):
        """Who may add nothing is told whom to ask, by a desk's button and by a telephone's menu."""
        bob = self.bob
        bob.open('#/papers')
        bob.press('Upload')
        bob.says('You may not put documents here.', 'Ask Alice Moreau')
        bob.resize(*PHONE)
        bob.press('Add')
        bob.press('New folder', '.menu')
        bob.says('You may not make folders here.', 'Ask Alice Moreau')
        bob.resize(*DESK)

    def news(self):
        """What is new, from the open folder on, with where it is."""
        alice = self.alice
        now = int(time.time())
        found = [{'path': '/papers/2026/deep/new.txt', 'when': now, 'who': 'bob', 'size': 3},
                 {'path': '/papers/Lease.pdf', 'when': now - 86400 * 40}]
        told = {'latest': [200, {'at': '/papers', 'shows': 'who', 'found': found}]}
        self.opened({**self.usual(), **told})
        alice.press('What is new', 'main .bar')
        alice.until(lambda: alice.names() == ['new.txt', 'Lease.pdf'], 'what is new')
        assert alice.texts('h1') == ['What is new in papers'], alice.texts('h1')
        assert alice.texts('tbody .what > .hint') == ['in /papers/2026/deep']
        assert alice.script(ROWS)[0][1:] == [alice.texts('time')[0], 'Bob Lindqvist', '3 B']
        alice.one('tbody [data-act=open]').send_keys(Keys.ARROW_DOWN)
        assert alice.script("return document.activeElement.closest('tr').ariaLabel") == 'Lease.pdf'
        alice.resize(320, 640)
        assert alice.script('return innerWidth') == 320
        for answer, words in (([404, {'why': 'no-dates'}], 'This room keeps no dates.'),
                              ([200, {'shows': 'when', 'found': []}], 'Nothing that you may read')):
            self.opened({**self.usual(), 'latest': answer}, DESK, '#/papers?new')
            alice.says(words, css='main .empty')
        self.opened({'latest': [503, {'why': 'busy'}]}, DESK, '#/papers')
        alice.script("location.hash = '#/papers?new'")
        alice.says('The room doesn’t answer. The page tries again for half a minute.')


PLAY = [
    ('on a desk', FirstScreen.on_a_desk), ('sorted', FirstScreen.sorted_by),
    ('a room that tells less', FirstScreen.fewer), ('no answer', FirstScreen.away),
    ('what is not so', FirstScreen.lies), ('on a telephone', FirstScreen.on_a_telephone),
    ('its menus', FirstScreen.by_its_menus), ('a deep folder', FirstScreen.deep),
    ('messages on a telephone', FirstScreen.messages),
    ('who may not', FirstScreen.lacks), ('what is new', FirstScreen.news),
]


def main():
    folder, front = sys.argv[1:]
    signal.signal(signal.SIGTERM, lambda *_: sys.exit(1))
    play, checks, made = FirstScreen(folder, front), Checks(), []
    play.make()
    try:
        for user, password in (('alice', 'a'), ('bob', 'b')):
            made.append(Browser(f'{folder}/{user}', play.base, user, password))
            setattr(play, user, made[-1])
        for name, act in PLAY:
            checks.step(name, lambda: act(play))
        for one in made:
            errors = one.errors()
            checks.holds('nothing on the console', errors == [], str(errors))
    finally:
        for one in made:
            one.quit()
    print('end', flush=True)


if __name__ == '__main__':
    main()
