"""What WCAG 2.2 asks of the page, measured in Chromium: accessible.py FOLDER FRONT-PORT

FOLDER/names has what nginx serves at /people. The root lets alice do all, and everybody with a name
pass through. Criteria are named by their numbers at https://www.w3.org/TR/WCAG22."""

import base64
import signal
import sys
import urllib.request

from browser import Browser, Checks
from people import Names, day
from selenium.webdriver.common.keys import Keys

DESK, ZOOMED, NARROW, PHONE = (1280, 900), (640, 450), (320, 640), (390, 844)
VIEWS = ['#/', '#/letters', '#/letters?access', '#/letters?rights', '#/letters?dacl',
         '#/letters?sacl', '#/letters?earlier', '#/letters/reply.txt?show',
         '#/letters/reply.txt?access', '#/none']
NAMES = {'zoe': 'Zoe Adams', 'bob': 'Bob Lindqvist', 'kim': 'Bob Lindqvist'}

# Functions for colours: what stands behind an element, and how far two colours are apart.
COLOURS = """
const parts = (colour) => { const [r, g, b, a = 1] = colour.match(/[\\d.]+/g).map(Number);
  return { r, g, b, a }; };
const over = (top, below) => ({ a: 1, ...Object.fromEntries(['r', 'g', 'b'].map((one) =>
  [one, top[one] * top.a + below[one] * (1 - top.a)])) });
function behind(one) {
  if (one === null) return parts(getComputedStyle(document.body).backgroundColor);
  const own = parts(getComputedStyle(one).backgroundColor);
  return own.a === 1 ? own : over(own, behind(one.parentElement));
}
const light = ({ r, g, b }) => [r, g, b].map((one) => one / 255)
  .map((one) => (one <= 0.04045 ? one / 12.92 : ((one + 0.055) / 1.055) ** 2.4))
  .reduce((sum, one, at) => sum + one * [0.2126, 0.7152, 0.0722][at], 0);
const contrast = (one, other) => {
  const [low, high] = [light(one), light(other)].sort((a, b) => a - b);
  return (high + 0.05) / (low + 0.05);
};
const seen = (css) => [...document.querySelectorAll(css)].filter((one) =>
  one.checkVisibility({ checkVisibilityCSS: true }));
"""

# Controls whose edge and whose own ground are both less than 3 : 1 away from what is around.
FAINT = COLOURS + """
return seen('button, .button, select, textarea, input:not([type=checkbox], [type=radio])')
  .filter((one) => !one.disabled && one.getAttribute('aria-disabled') !== 'true')
  .flatMap((one) => {
    const style = getComputedStyle(one);
    const edge = parts(style.borderTopColor);
    const around = behind(one.parentElement);
    // What has no edge is told from the rest by its text or its picture.
    if (edge.a === 0 || parseFloat(style.borderTopWidth) === 0) return [];
    const best = Math.max(contrast(over(edge, around), around), contrast(behind(one), around));
    return best < 3 ? [`${one.outerHTML.slice(0, 90)} ${best.toFixed(2)}`] : [];
  });
"""
# Pictures that are all there is of a button.
FAINT_PICTURES = COLOURS + """
return seen('button, a').filter((one) => one.textContent.trim() === '' && one.querySelector('.icon')
  && !one.disabled && one.getAttribute('aria-disabled') !== 'true').flatMap((one) => {
    const picture = one.querySelector('.icon');
    const style = getComputedStyle(picture);
    const best = contrast(parts(style.color), behind(one));
    const stroke = parseFloat(style.strokeWidth) * picture.clientWidth / 20;
    const least = picture.classList.contains('more') ? 2 : 1;
    return best < 3 || stroke < least || Number(getComputedStyle(one).opacity) < 1
      ? [`${one.outerHTML.slice(0, 90)} ${best.toFixed(2)} ${stroke}`] : [];
  });
"""
# Text less than 4.5 : 1 away from what is behind it.
FAINT_TEXT = COLOURS + """
const texts = document.createTreeWalker(document.body, NodeFilter.SHOW_TEXT);
const found = [];
while (texts.nextNode()) {
  const one = texts.currentNode.parentElement;
  if (texts.currentNode.data.trim() === '' || !one.checkVisibility({ checkVisibilityCSS: true })
    || one.closest('[aria-disabled=true], :disabled, .unseen, option, noscript, .skip')) continue;
  const best = contrast(over(parts(getComputedStyle(one).color), behind(one)), behind(one));
  if (best < 4.5) found.push(`${texts.currentNode.data.slice(0, 40)} ${best.toFixed(2)}`);
}
return found;
"""
# Text that is broken into lines of less than four letters, and what is wider than the window.
SQUEEZED = """
const texts = document.createTreeWalker(document.querySelector('main'), NodeFilter.SHOW_TEXT);
const found = [];
while (texts.nextNode()) {
  const { data, parentElement: one } = texts.currentNode;
  if (data.trim().length < 8 || !one.checkVisibility() || one.closest('.unseen, option')) continue;
  const range = document.createRange();
  range.selectNodeContents(texts.currentNode);
  const lines = new Set([...range.getClientRects()].map(({ top }) => Math.round(top))).size;
  if (lines > 1 && data.trim().length / lines < 4) found.push(`${data.slice(0, 40)} in ${lines}`);
}
// A telephone makes its window wider where the page is.
const wide = Math.max(document.scrollingElement.scrollWidth, innerWidth);
if (wide > arguments[0]) {
  found.push(`${wide} px of ${arguments[0]}`, ...[...document.querySelectorAll('body *')]
    .filter((one) => one.checkVisibility() && one.getBoundingClientRect().right > arguments[0])
    .map((one) => one.outerHTML.slice(0, 60)).slice(0, 8));
}
return found;
"""
# What can be pressed and is less high or less wide than this. A field's own label may be pressed in
# its place.
SMALL = """
const least = arguments[0];
return [...document.querySelectorAll('a, button, input, select, textarea, summary, [role=option]')]
  .filter((one) => one.checkVisibility({ checkVisibilityCSS: true })
    && !one.closest('.skip, .unseen, .folder-view > input'))
  .flatMap((one) => {
    const { width, height } = (one.closest('label') ?? one).getBoundingClientRect();
    return width + 0.5 < least || height + 0.5 < least
      ? [`${one.outerHTML.slice(0, 100)} ${width.toFixed(1)} x ${height.toFixed(1)}`] : [];
  });
"""
# Whether what has the focus is wholly covered by something else.
HIDDEN = """
const one = document.activeElement;
const { left, right, top, bottom } = one.getBoundingClientRect();
const spots = [0.05, 0.5, 0.95].flatMap((x) => [0.05, 0.5, 0.95].map((y) =>
  [left + (right - left) * x, top + (bottom - top) * y]));
return spots.every(([x, y]) => { const at = document.elementFromPoint(x, y);
  return at === null
    || !(one.contains(at) || at.contains(one) && at.closest('td, li, form') !== null);
});
"""
# Regions that are read aloud by themselves and came with their text.
WATCH = """
window.late = [];
const isLive = '[role=status], [role=alert], [aria-live]';
new MutationObserver((changes) => {
  for (const { addedNodes } of changes) for (const node of addedNodes) {
    if (!(node instanceof Element)) continue;
    for (const one of [node, ...node.querySelectorAll(isLive)]) {
      if (one.matches(isLive) && one.textContent.trim() !== '') window.late.push(one.outerHTML);
    }
  }
}).observe(document.body, { childList: true, subtree: true });
window.read = [];
for (const one of document.querySelectorAll('body > [role=status], body > [role=alert]')) {
  new MutationObserver(() => { if (one.textContent) window.read.push(one.textContent); })
    .observe(one, { childList: true });
}
"""


class Accessible:
    def __init__(self, folder, front):
        self.folder = folder
        self.base = f'http://127.0.0.1:{front}'
        self.alice = None

    def ask(self, method, target, body=None):
        word = base64.b64encode(b'alice:a').decode()
        asked = urllib.request.Request(self.base + target, body, {'Authorization': f'Basic {word}'},
                                       method=method)
        with urllib.request.urlopen(asked) as reply:
            return reply.read().decode()

    def make(self):
        Names(f'{self.folder}/names').put('people.json', {
            'made': day(), 'members': True, 'users': ['alice', 'bob', 'eve', 'kim', 'zoe'],
            'groups': {'staff': ['bob', 'zoe']}, 'names': NAMES})
        for path in ('/letters', '/letters/2026', '/letters/board'):
            self.ask('POST', f'/folder{path}')
        self.ask('PUT', '/doc/letters/reply.txt', b'Dear all')
        self.ask('PUT', '/dacl/letters/2026', b'list:a\nA:fd:eve:rxtc\n')
        for number in range(30):
            self.ask('PUT', f'/doc/letters/Reply%20to%20the%20council%20{number}.txt', b'x')
        self.ask('PUT', '/dacl/letters', b'list:ap\nA:fd:alice:rwanNxDtThHdcCoy\nA:fd:zoe:rxtc\n'
                 b'A:fdg:staff:rxtc\nA:fd:bob:rxtc\nA:fd:kim:rxtc\n')

    def views(self, size):
        for place in VIEWS:
            self.alice.resize(*size)
            self.alice.open(place)
            yield place

    def states(self):
        """What a clerk has open: a menu, a question, a name that is typed, and each dialog."""
        alice = self.alice
        alice.open('#/letters')
        yield 'a folder'
        alice.press('Actions: reply.txt')
        yield 'a menu'
        alice.press('Rename or move', '.menu')
        alice.until(lambda: alice.all('dialog .chooser button'), 'folders')
        yield 'a move'
        alice.type(Keys.ESCAPE)
        alice.act('Remove', 'reply.txt')
        alice.until(lambda: alice.all('dialog'), 'a question')
        yield 'a removal'
        alice.type(Keys.ESCAPE)
        alice.open('#/letters?access')
        alice.write('.picker input', 'e')
        alice.until(lambda: alice.all('[role=option]'), 'choices')
        yield 'choices'
        alice.press_choice('eve')
        alice.until(lambda: alice.all('.adding .outcome[aria-busy=false]'), 'what comes of it')
        yield 'what comes of it'
        alice.open('#/letters?dacl')
        alice.press('Ready-made lists')
        yield 'ready-made lists'
        alice.type(Keys.ESCAPE)

    def contrast(self, dark, size):
        """1.4.3 and 1.4.11."""
        alice = self.alice
        alice.dark(dark)
        alice.resize(*size)
        try:
            for places in (self.views(size), self.states()):
                for place in places:
                    for faint in (FAINT, FAINT_PICTURES, FAINT_TEXT):
                        found = alice.script(faint)
                        assert found == [], (place, found)
        finally:
            alice.dark(False)

    def reflow(self, size):
        """1.4.4 and 1.4.10: in a window of 320 px, and at 200 %, nothing has to be scrolled
        sideways, and no text is squeezed into a column of letters."""
        for place in self.views(size):
            found = self.alice.script(SQUEEZED, size[0])
            assert found == [], (place, size, found)

    def larger_text(self):
        """1.4.4 by a browser whose own text is twice as large."""
        large = Browser(f'{self.folder}/large', self.base, 'alice', 'a',
                        words=['--blink-settings=defaultFontSize=32'])
        try:
            large.resize(*DESK)
            for place in VIEWS:
                large.open(place)
                size = large.script('return getComputedStyle(document.documentElement).fontSize')
                found = large.script(SQUEEZED, DESK[0])
                assert size == '32px' and found == [], (place, size, found)
        finally:
            large.quit()

    def targets(self, size):
        """2.5.8: what can be pressed is at least 24 px high and wide."""
        alice = self.alice
        for place in self.views(size):
            assert alice.script(SMALL, 24) == [], (place, size, alice.script(SMALL, 24))
        for place in self.states():
            assert alice.script(SMALL, 24) == [], (place, size, alice.script(SMALL, 24))
        for place, words in (('#/letters?access', 'Exceptions further down'),
                             ('#/letters/2026?access', 'One person, here and further down')):
            alice.open(place)
            alice.unfold(words)
            alice.until(lambda: not alice.all('.looking'), 'all of it')
            assert alice.script(SMALL, 24) == [], (words, size, alice.script(SMALL, 24))
        alice.open('')
        alice.write('.tools input', 'council 1')
        alice.press('Find further down')
        alice.until(lambda: len(alice.all('.found a.hint')) == 11, 'what is found')
        assert alice.script(SMALL, 24) == [], (size, alice.script(SMALL, 24))

    def keys(self):
        """2.1.4: a single sign does something only while the rows have the focus."""
        alice = self.alice
        alice.resize(*DESK)
        alice.open('#/letters')
        focus = "return document.activeElement.type ?? document.activeElement.tagName"
        alice.one('#main').send_keys('/')
        assert alice.script(focus) != 'search', alice.script(focus)
        alice.button('New folder').send_keys('/')
        assert alice.script(focus) != 'search'
        alice.one('tbody [data-act=open]').send_keys('/')
        assert alice.script(focus) == 'search', alice.script(focus)

    def covered(self):
        """2.4.11: nothing that gets the focus is below a panel or a message."""
        alice = self.alice
        alice.resize(1280, 600)
        alice.open('#/letters')
        paths = []
        for number in range(12):
            paths.append(f'{self.folder}/part {number}.txt')
            with open(paths[-1], 'wb') as file:
                file.write(b'x')
        alice.script("document.querySelector('input.files').hidden = false")
        alice.one('input.files').send_keys('\n'.join([*paths, self.large()]))
        alice.until(lambda: alice.texts('.uploads .count') == ['13 of 13'], 'the end')
        alice.until(lambda: len(alice.names()) == 45, 'all rows')
        for width, control in ((1280, 'menu'), (1280, 'open'), (390, 'menu')):
            alice.resize(width, 600)
            alice.script('window.scrollTo(0, 0)')
            alice.script("document.querySelector(`tbody [data-act=${arguments[0]}]`).focus()",
                         control)
            for step in range(44):
                alice.type(Keys.ARROW_DOWN)
                assert not alice.script(HIDDEN), (width, control, step)
        alice.resize(1280, 600)
        alice.script('window.scrollTo(0, 0); document.querySelector("main").focus()')
        for step in range(14):
            alice.type(Keys.TAB)
            assert not alice.script(HIDDEN), (step, alice.script(
                'return document.activeElement.outerHTML.slice(0, 90)'))
        alice.press('Close', '.uploads')

    def large(self):
        path = f'{self.folder}/too large.txt'
        with open(path, 'wb') as file:
            file.truncate(104857601)
        return path

    def tree(self, css):
        """What Chromium tells a screen reader of these: [[role, name]]."""
        alice = self.alice
        alice.driver.execute_cdp_cmd('DOM.enable', {})
        top = alice.driver.execute_cdp_cmd('DOM.getDocument', {'depth': 0})['root']['nodeId']
        found = alice.driver.execute_cdp_cmd(
            'DOM.querySelectorAll', {'nodeId': top, 'selector': css})['nodeIds']
        told = []
        for node in found:
            seen = alice.driver.execute_cdp_cmd('Accessibility.getPartialAXTree', {
                'nodeId': node, 'fetchRelatives': False})['nodes'][0]
            if not seen.get('ignored'):
                told.append([seen['role']['value'], seen['name']['value']])
        return told

    def heard(self):
        """4.1.2 and 1.3.1: a row by its name, what is ticked, people by their full names, a heading
        without a button, and no label where none is allowed."""
        alice = self.alice
        alice.resize(*DESK)
        alice.open('#/letters')
        assert self.tree('tbody tr')[:2] == [['row', '2026'], ['row', 'board']], \
            self.tree('tbody tr')[:2]
        selected = "return document.querySelectorAll('tr[aria-selected=true]').length"
        assert alice.script(selected) == 0
        alice.click(alice.one('[aria-label="Select: reply.txt"]'))
        assert alice.script(selected) == 1
        assert self.tree('#me') == [['group', 'Signed in as']], self.tree('#me')
        labelled = "return document.querySelectorAll(':is(p, span, div:not([role]))[aria-label]')"
        assert alice.script(f'{labelled}.length') == 0
        alice.open('#/letters?access')
        heard = [name for _, name in self.tree('.holders :is(select, button)')]
        for name in ('What Zoe Adams can do', 'Remove access: Zoe Adams',
                     'What Bob Lindqvist (bob) can do', 'What Bob Lindqvist (kim) can do',
                     'What the group staff can do'):
            assert name in heard, (name, heard)
        alice.open('#/letters/2026?access')
        alice.open('')
        alice.until(lambda: 'Opened lately' in alice.texts('h2'), 'what was opened lately')
        assert not alice.all(':is(h1, h2, h3) :is(button, a)')
        assert ['heading', 'Opened lately'] in self.tree('h2'), self.tree('h2')

    def aloud(self):
        """4.1.3: what is told is put into a region that was there from the start."""
        alice = self.alice
        alice.open('#/letters')
        regions = alice.script("return ['status', 'alert'].map((role) => [...document."
                               "querySelectorAll(`body > [role=${role}]`)].map((one) => "
                               "one.textContent))")
        assert regions == [[''], ['']], regions
        alice.script(WATCH)
        read = "return window.read.join(' ').replace(/[\\u2068\\u2069]/g, '')"
        alice.press('New folder')
        alice.write('dialog input', 'aloud')
        alice.press('Make it', 'dialog')
        alice.until(lambda: 'The folder aloud was made.' in alice.script(read), 'that it was made')
        alice.act('Remove', 'aloud')
        alice.until(lambda: alice.all('dialog'), 'a question')
        inside = "return [...document.querySelectorAll('dialog > [role]')].map((one) => one.role)"
        assert alice.script(inside) == ['status', 'alert'], alice.script(inside)
        alice.press('Remove it', 'dialog')
        alice.until(lambda: 'aloud was removed.' in alice.script(read), 'that it was removed')
        alice.write('.tools input', 'council 1')
        alice.press('Find further down')
        alice.until(lambda: '11 names with' in alice.script(read), 'what was found')
        alice.script("location.hash = '#/none'")
        alice.until(lambda: 'There is nothing at' in alice.script(read), 'a refusal')
        alice.script("location.hash = '#/letters?access'")
        alice.until(lambda: alice.all('.picker input'), 'who has access')
        alice.write('.picker input', 'eve')
        alice.press_choice('eve')
        alice.until(lambda: alice.all('.adding .outcome[aria-busy=false]'), 'what comes of it')
        assert alice.script('return window.late') == [], alice.script('return window.late')


def main():
    folder, front = sys.argv[1:]
    signal.signal(signal.SIGTERM, lambda *_: sys.exit(1))
    play, checks = Accessible(folder, front), Checks()
    play.make()
    play.alice = Browser(f'{folder}/alice', play.base, 'alice', 'a')
    try:
        for name, act in (
                ('contrast, light', lambda: play.contrast(False, DESK)),
                ('contrast, dark', lambda: play.contrast(True, DESK)),
                ('contrast on a telephone', lambda: play.contrast(True, NARROW)),
                ('reflow at 320 px', lambda: play.reflow(NARROW)),
                ('reflow at 200 %', lambda: play.reflow(ZOOMED)),
                ('text of 200 %', play.larger_text),
                ('what is pressed on a telephone', lambda: play.targets(PHONE)),
                ('what is pressed on a desk', lambda: play.targets(DESK)),
                ('single keys', play.keys),
                ('a focus that nothing hides', play.covered),
                ('what is heard', play.heard), ('what is read aloud', play.aloud)):
            checks.step(name, act)
        errors = play.alice.errors()
        checks.holds('nothing on the console', errors == [], str(errors))
    finally:
        play.alice.quit()
    print('end', flush=True)


if __name__ == '__main__':
    main()
