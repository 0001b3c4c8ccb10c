"""The play of keys alone, of a full list, of small windows, and of what a screen reader is told."""

import os
import re

from people import NAMES, people
from selenium.webdriver.common.keys import Keys

# Texts that don't stand out from what is behind them, by WCAG's contrast: what they are, and how
# little.
FAINT = """
const context = document.createElement('canvas').getContext('2d', { willReadFrequently: true });
const partsOf = (color) => {
  context.clearRect(0, 0, 1, 1);
  context.fillStyle = color;
  context.fillRect(0, 0, 1, 1);
  return [...context.getImageData(0, 0, 1, 1).data];
};
const over = ([r, g, b, a], [x, y, z]) => [[r, x], [g, y], [b, z]]
  .map(([one, other]) => (one * a + other * (255 - a)) / 255);
const groundOf = (one) => {
  if (one === null) return partsOf('Canvas').slice(0, 3);
  const parts = partsOf(getComputedStyle(one).backgroundColor);
  return parts[3] === 255 ? parts.slice(0, 3) : over(parts, groundOf(one.parentElement));
};
const light = (parts) => {
  const [r, g, b] = parts.map((each) => each / 255)
    .map((each) => (each <= 0.04045 ? each / 12.92 : ((each + 0.055) / 1.055) ** 2.4));
  return 0.2126 * r + 0.7152 * g + 0.0722 * b;
};
const hasText = (one) => [...one.childNodes]
  .some((node) => node.nodeType === 3 && node.textContent.trim() !== '');
return [...document.querySelectorAll('main *, dialog *')].filter((one) =>
  one.checkVisibility({ checkVisibilityCSS: true })
  && (hasText(one) || one.matches('input[type=text]'))
  && !one.disabled && !one.matches('option')).flatMap((one) => {
  const ground = groundOf(one);
  const lights = [light(over(partsOf(getComputedStyle(one).color), ground)), light(ground)];
  const contrast = (Math.max(...lights) + 0.05) / (Math.min(...lights) + 0.05);
  return contrast < 4.5 ? [`${one.outerHTML.slice(0, 90)}: ${contrast.toFixed(2)}`] : [];
});
"""
HEBREW = 'נועה כהן'
HERE = os.path.dirname(os.path.abspath(__file__))


class Tree:
    def key(self, *keys):
        self.alice.type(*keys)

    def focused(self):
        return self.alice.script('return document.activeElement.ariaLabel'
                                 ' || document.activeElement.textContent')

    def tab_to(self, wanted):
        """By the Tab key alone. A field for a day has several stops."""
        for _ in range(40):
            if self.focused() == wanted:
                return
            self.key(Keys.TAB)
        raise AssertionError(f'{wanted} was never reached')

    def keyboard(self):
        """A name is typed, chosen by the arrow keys, and shared; then removed: without a pointer,
        and the focus is never lost."""
        alice = self.alice
        self.panel('/letters/2026')
        self.tab_to('Add people or groups')
        self.key('kim')
        alice.until(lambda: alice.texts('[role=option] .name') == ['kim'], 'the choice')
        active = ("return document.getElementById("
                  "document.activeElement.getAttribute('aria-activedescendant'))?.innerText")
        assert 'kim' in alice.script(active)
        # Without a letter, the arrow key opens the list, and goes round in it.
        self.key(Keys.BACKSPACE * 3)
        assert not alice.all('[role=option]')
        self.key(Keys.ARROW_DOWN)
        alice.until(lambda: len(alice.all('[role=option]')) == 8, 'the first ones')
        self.key(Keys.ARROW_UP)
        assert alice.script(active) == alice.texts('[role=option]')[-1] or \
            alice.script(active) in alice.texts('[role=option]')[-1]
        self.key('kim')
        alice.until(lambda: alice.texts('[role=option] .name') == ['kim'], 'the choice')
        self.key(Keys.ENTER)
        alice.until(lambda: alice.all('.adding .outcome[aria-busy=false]'), 'what comes of it')
        # The next name can be typed at once.
        assert self.focused() == 'Add people or groups', self.focused()
        self.tab_to('What they can do')
        self.tab_to('Share')
        self.key(Keys.ENTER)
        alice.says('can now')
        assert self.own_of('/letters/2026') == ['A:fd:kim:rxtc']
        alice.until(lambda: self.focused() == 'Add people or groups', 'the focus')
        self.key('zz')
        alice.until(lambda: alice.all('[role=option]'), 'a choice')
        self.key(Keys.ESCAPE)
        alice.until(lambda: not alice.all('[role=option]'), 'none')
        self.key(Keys.BACKSPACE * 2)
        self.removed_by_keys()

    def removed_by_keys(self):
        """The one choice of the menu that begins with r. A key alone asks nothing."""
        alice = self.alice
        self.tab_to('What kim can do')
        self.key('r')
        self.key(Keys.ENTER)
        alice.until(lambda: alice.all('dialog .outcome[aria-busy=false]'), 'the question')
        assert self.focused() == 'Remove access', self.focused()
        self.key(Keys.ESCAPE)
        alice.until(lambda: self.focused() == 'What kim can do', 'the menu again')
        self.key('r')
        self.key(Keys.ENTER)
        alice.until(lambda: alice.all('dialog .outcome[aria-busy=false]'), 'the question')
        self.key(Keys.ENTER)
        alice.until(lambda: self.own_of('/letters/2026') == [], 'the end of the line')
        alice.until(lambda: self.focused() == 'Add people or groups', 'the focus')

    def full_list(self):
        """The room takes 64 entries of an object's own: of the 65th that is said at once, and
        nothing is sent."""
        alice = self.alice
        self.ask('POST', '/folder/many')
        lines = ['A:fd:alice:rwanNxDtThHdcCoy',
                 *[f'A:fd:user{number}:rxtc' for number in range(63)]]
        self.put_list('/many', 'list:ap', *lines)
        self.panel('/many')
        assert len(self.lines()) == 64
        self.pick('kim', 'person')
        alice.says('A list may have 64 entries of its own at most', 'Put people into a group',
                   css='.adding .outcome')
        assert alice.script("return document.querySelector('.adding .primary').disabled")
        assert self.own_of('/many') == lines
        alice.press('Cancel', '.adding')
        self.set_level('user7', 'gone')
        self.confirm('Remove access')
        assert len(self.own_of('/many')) == 63
        self.ask('DELETE', '/object/many')

    def looks(self):
        """No control leaves the window, and a name from right to left turns nothing around it."""
        alice = self.alice
        self.names.put('people.json', people())
        self.put_list('/letters/2026', 'list:a', 'A:fd:noa:rxtc',
                      'A:fdg:a-rather-long-name-of-a-group-of-people:rwaxDtc')
        for width in (1200, 390):
            alice.resize(width, 844)
            assert alice.script('return innerWidth') == width
            self.panel('/letters/2026')
            assert not alice.is_wider(), width
            names = [name for name, *_ in self.lines()]
            assert HEBREW in names, names
            self.pick('dana', 'person')
            assert not alice.is_wider(), width
            out = alice.script("""
                return [...document.querySelectorAll(
                  '.sharing-view :is(select, button, input, a, p)')]
                .filter((one) => one.checkVisibility()
                  && one.getBoundingClientRect().right > innerWidth)
                .map((one) => one.outerHTML)""")
            assert out == [], out
        assert alice.script("return [...document.querySelectorAll('.name-of .name')]"
                            ".every((one) => one.tagName === 'BDI')")
        self.set_level('noa', 'gone')
        assert f'\u2068{HEBREW}\u2069 is taken off the list' in alice.script(
            "return document.querySelector('dialog p').textContent")
        assert not alice.is_wider()
        alice.press('Cancel', 'dialog')
        alice.resize(1200, 900)

    def touched(self):
        """Each way to touch a name but that button itself gives what the name gives."""
        alice = self.alice
        # Marionette has no touch here.
        if self.browser == 'firefox':
            return
        alice.resize(390, 844)
        for up, wanted in ((4, 'read'), (-12, 'change')):
            self.panel('/letters/2026')
            alice.write('.picker input', 'dana')
            alice.until(lambda: alice.all('.quick'), 'a choice')
            left, right, top = alice.script(
                "const { left, right, top } = document.querySelector('.quick')"
                '.getBoundingClientRect(); return [left, right, top]')
            alice.touch((left + right) / 2, top - up)
            got = alice.until(lambda: alice.script(
                "return document.querySelector('.picked select')?.value"), 'the name')
            assert got == wanted, (up, got)
        alice.resize(1200, 900)

    def lights(self):
        """In either light each text stands out from its ground, at the panel and in a question, as
        far as 4.5 to 1."""
        alice = self.alice
        self.names.put('people.json', people())
        self.put_list('/letters/2026', 'list:a', 'A:fd:noa:rwanNxDtThHdcCoy', 'A:fdg:staff:rxtc',
                      'A::kim:x', 'A::zoe:a')
        grounds = []
        for is_dark in (False, True):
            alice.dark(is_dark)
            self.panel('/letters/2026')
            alice.until(lambda: alice.script("return matchMedia('(prefers-color-scheme: dark)')"
                                             ".matches") == is_dark, 'this light')
            grounds.append(alice.script(
                "return getComputedStyle(document.querySelector('.sheet')).backgroundColor"))
            alice.unfold('Exceptions further down')
            alice.unfold('One person, here and further down')
            assert alice.script(FAINT) == [], alice.script(FAINT)
            self.pick('sales', 'group')
            assert alice.script(FAINT) == [], alice.script(FAINT)
            self.panel('/letters/2026')
            alice.write('.picker input', 'nobody')
            alice.until(lambda: alice.all('[role=option]'), 'a choice')
            assert alice.script(FAINT) == [], alice.script(FAINT)
            self.set_level('noa', 'gone')
            assert alice.script(FAINT) == [], alice.script(FAINT)
            alice.press('Cancel', 'dialog')
        alice.dark(False)
        assert grounds[0] == 'rgb(255, 255, 255)' and grounds[1] != grounds[0], grounds

    def tree_of(self, css):
        """The roles and names of these, as the browser itself computes them."""
        return [(one.aria_role, one.accessible_name) for one in self.alice.all(css)]

    def read_aloud(self):
        """Roles and names, by the browser's own tree."""
        alice = self.alice
        self.put_list('/letters/2026', 'list:a', 'A:fd:noa:rxtc', 'A:fdg:sales:rxtc')
        self.panel('/letters/2026')
        alice.script("document.querySelector('.picker input').focus()")
        self.key('kim')
        alice.until(lambda: alice.all('[role=option]'), 'a choice')
        told = self.tree_of('main :is(a, button, input, select, summary, h1, h2, nav, [role], '
                            'ul, li)')
        for wanted in (('combobox', 'Add people or groups'), ('listbox', 'People and groups'),
                       ('navigation', 'Access'), ('heading', 'Who has access'),
                       ('combobox', f'What {NAMES["noa"]} can do'),
                       ('checkbox', 'Only these people'),
                       ('combobox', 'What the group sales can do'), ('link', 'Who has access'),
                       ('heading', '2026')):
            assert wanted in told, (wanted, told)
        options = [name for role, name in told if role == 'option']
        assert any('kim' in name for name in options), options
        assert [role for role, name in told if role == 'list'], told
        assert alice.unnamed() == [], alice.unnamed()
        # What is picked, what comes of it, and a question.
        self.pick('carol', 'person')
        told = self.tree_of('.adding :is(select, input, button, ul, [role])')
        for wanted in (('combobox', 'What they can do'), ('button', 'Share'), ('button', 'Cancel'),
                       ('list', 'Who gains and who loses')):
            assert wanted in told, (wanted, told)
        assert any(role == 'status' for role, _ in told), told
        self.set_level('noa', 'gone')
        told = self.tree_of('dialog, dialog :is(h2, button, ul)')
        for wanted in (('dialog', 'Remove access to “2026”?'),
                       ('heading', 'Remove access to “2026”?'), ('button', 'Remove access')):
            assert wanted in [(role, name.replace('\u2068', '').replace('\u2069', ''))
                              for role, name in told], (wanted, told)
        alice.press('Cancel', 'dialog')
        self.put_list('/letters/2026', 'list:a')

    def level_tests(self):
        """As node plays them, in this browser."""
        with open(f'{HERE}/../../docs/lists.md', encoding='utf-8') as file:
            given = {'lists': file.read(), 'count': 1000}
        scripts = []
        for name in ('model.mjs', 'levels.js'):
            with open(f'{HERE}/{name}', encoding='utf-8') as file:
                scripts.append(re.sub(r'^export ', '', file.read(), flags=re.MULTILINE))
        told = self.alice.driver.execute_async_script('\n'.join(scripts), given, '')
        assert told == [], told[:3]
