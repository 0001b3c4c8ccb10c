"""A headless Chromium with one user in it, and what the plays look at."""

import os
import shutil
import time
import traceback

from selenium import webdriver
from selenium.common.exceptions import StaleElementReferenceException
from selenium.webdriver.chrome.options import Options
from selenium.webdriver.chrome.service import Service
from selenium.webdriver.common.action_chains import ActionChains
from selenium.webdriver.support.ui import WebDriverWait

PATIENCE = float(os.environ.get('PAGE_PATIENCE', '30'))


def found(*names):
    return next((path for path in map(shutil.which, names) if path), None)


def options_for(folder, rules, languages):
    options = Options()
    options.binary_location = found('chromium', 'chromium-browser', 'google-chrome')
    for word in ('--headless=new', '--no-sandbox', '--disable-gpu', '--disable-dev-shm-usage',
                 '--no-proxy-server', '--no-first-run', '--disable-background-networking',
                 '--disable-component-update', '--lang=en', f'--accept-lang={languages}',
                 '--window-size=1200,900',
                 f'--user-data-dir={folder}/profile', f'--host-resolver-rules={rules}'):
        options.add_argument(word)
    options.add_experimental_option('prefs', {'download.default_directory': f'{folder}/downloads',
                                              'intl.accept_languages': languages})
    options.set_capability('goog:loggingPrefs', {'browser': 'ALL'})
    return options


class Browser:
    def __init__(self, folder, base, user, password, rules='', languages='en', words=()):
        os.makedirs(f'{folder}/downloads')
        self.base = base
        self.downloads = f'{folder}/downloads'
        options = options_for(folder, rules, languages)
        for word in words:
            options.add_argument(word)
        self.driver = webdriver.Chrome(service=Service(found('chromedriver')), options=options)
        self.debugger = self.driver.capabilities['goog:chromeOptions']['debuggerAddress']
        self.driver.set_page_load_timeout(PATIENCE)
        self.driver.set_script_timeout(PATIENCE)
        # The browser keeps the password for this origin, as if it had been typed.
        scheme, rest = base.split('//')
        self.driver.get(f'{scheme}//{user}:{password}@{rest}/me')

    def quit(self):
        self.driver.quit()

    def open(self, place):
        """Goes there as by a link that somebody was sent, with a new page."""
        self.driver.get('about:blank')
        self.driver.get(f'{self.base}/{place}')
        self.settled()

    def reload(self):
        self.driver.refresh()
        self.settled()

    def settled(self):
        self.until(lambda: self.script(
            "return document.readyState === 'complete'"
            " && !document.body.classList.contains('waiting')"
            " && document.querySelector('main').childElementCount > 0"
            " && document.querySelector('.sheet, .empty')?.childNodes.length > 0"),
            'the page is at rest')

    def script(self, text, *words):
        return self.driver.execute_script(text, *words)

    def until(self, holds, what, patience=PATIENCE):
        """Waits until this holds, and answers what it gave."""
        def tried(_):
            try:
                return holds()
            except StaleElementReferenceException:
                return False
        return WebDriverWait(self.driver, patience, poll_frequency=0.05).until(
            tried, f'never came: {what}')

    def all(self, css):
        return self.script('return [...document.querySelectorAll(arguments[0])]'
                           '.filter((one) => one.checkVisibility())', css)

    def one(self, css):
        return self.until(lambda: next(iter(self.all(css)), None), css)

    def texts(self, css):
        """Without the marks that set a name apart in a sentence."""
        return self.script("""return [...document.querySelectorAll(arguments[0])]
            .filter((one) => one.checkVisibility())
            .map((one) => one.innerText.replace(/[\\u2068\\u2069]/g, ''))""", css)

    def button(self, words, within='body'):
        """The button or link of these words, or with this label."""
        return self.until(lambda: self.script("""
            return [...document.querySelectorAll(`${arguments[1]} :is(button, a, label)`)]
            .find((one) => one.checkVisibility() && (one.innerText.trim() === arguments[0]
              || one.getAttribute('aria-label') === arguments[0]))""",
                                              words, within), f'button {words}')

    def press(self, words, within='body'):
        # A list may be drawn anew after the button is found and before it is clicked.
        self.until(lambda: self.click(self.button(words, within)), words)

    def unfold(self, words):
        """Opens what is folded below these words."""
        self.until(lambda: next((self.click(one) for one in self.all('summary')
                                 if one.text == words), False), words)

    def press_choice(self, words):
        """The choice below a field that has these words."""
        self.until(lambda: self.script("""
            const one = [...document.querySelectorAll('[role=option]')]
            .find((each) => each.innerText.replace(/\\s+/g, ' ').includes(arguments[0]));
            one?.dispatchEvent(new Event('pointerdown', { cancelable: true }));
            return Boolean(one);""", words), f'the choice {words}')

    def act(self, words, name):
        """Does this with the object of a row, by its menu."""
        self.press(f'Actions: {name}')
        self.press(words, '.menu')

    def click(self, control):
        """Away from the head, which stays at the top of the window."""
        self.script("arguments[0].scrollIntoView({ block: 'nearest' })", control)
        control.click()
        return True

    def point(self, css):
        """Moves the pointer there."""
        ActionChains(self.driver).move_to_element(self.one(css)).perform()

    def write(self, css, text):
        field = self.one(css)
        field.clear()
        field.send_keys(text)

    def type(self, *keys):
        """Keys for whatever has the focus."""
        ActionChains(self.driver).send_keys(*keys).perform()

    def names(self):
        return self.texts('table.folder .object .name')

    def lists(self, *names):
        try:
            self.until(lambda: self.names() == list(names), 'a listing')
        except Exception:
            raise AssertionError(f'{self.names()} are listed, not {names}') from None

    def says(self, *words, css='.notice', patience=PATIENCE):
        """Waits for a message with all of these words, and puts messages aside."""
        try:
            self.until(lambda: any(all(word in text for word in words) for text in self.texts(css)),
                       'a message', patience)
        except Exception:
            raise AssertionError(f'{css} says {self.texts(css)}, not {words}') from None
        self.script("""document.querySelectorAll('.notice [aria-label="Close this message"]')"""
                    '.forEach((one) => one.click())')

    def downloaded(self, name):
        path = f'{self.downloads}/{name}'
        try:
            self.until(lambda: os.path.exists(path), 'a download')
        except Exception:
            raise AssertionError(f'{os.listdir(self.downloads)} were downloaded, '
                                 f'not {name}') from None
        with open(path, 'rb') as file:
            text = file.read()
        os.remove(path)
        return text

    def errors(self):
        """What the console told, but for replies that aren't 2xx: these are told as sentences."""
        return [entry['message'] for entry in self.driver.get_log('browser')
                if entry['level'] == 'SEVERE' and entry['source'] != 'network']

    def unnamed(self):
        """What can be reached by keyboard and has no name that a screen reader tells."""
        seen = self.script("""
            return [...document.querySelectorAll('a, button, input, select, textarea, summary')]
            .filter((each) => each.checkVisibility({ checkVisibilityCSS: true }))""")
        return [each.get_attribute('outerHTML') for each in seen
                if not each.accessible_name.strip()]

    def is_wider(self):
        return self.script('return document.scrollingElement.scrollWidth > innerWidth')

    def resize(self, width, height):
        self.driver.execute_cdp_cmd('Emulation.setDeviceMetricsOverride', {
            'width': width, 'height': height, 'deviceScaleFactor': 1, 'mobile': width < 600})

    def touch(self, x, y):
        """As a finger there, which the browser may take to what is beside it."""
        point = [{'x': x, 'y': y}]
        for kind, points in (('touchStart', point), ('touchEnd', [])):
            self.driver.execute_cdp_cmd('Input.dispatchTouchEvent',
                                        {'type': kind, 'touchPoints': points})

    def dark(self, dark=True):
        value = 'dark' if dark else 'light'
        self.driver.execute_cdp_cmd('Emulation.setEmulatedMedia', {
            'features': [{'name': 'prefers-color-scheme', 'value': value}]})

    def picture(self, path):
        # A message goes by itself, and would be in some pictures only.
        self.until(lambda: not self.all('.notice.good'), 'no message')
        self.driver.save_screenshot(path)


def place_of(fault):
    """The line of a play that failed."""
    last = traceback.extract_tb(fault.__traceback__)[-1]
    return f'{os.path.basename(last.filename)}:{last.lineno} {last.line}'


class Checks:
    """Tells each check on a line of its own, which the case counts."""

    def step(self, name, act):
        began = time.monotonic()
        try:
            act()
        except Exception as fault:  # Each check is told, whatever stopped it.
            words = ' '.join(str(getattr(fault, 'msg', None) or fault).split()) or \
                f'{type(fault).__name__} at {place_of(fault)}'
            print(f'fail\t{name}\t{words[:2400]}', flush=True)
            return
        took = time.monotonic() - began
        print(f'pass\t{name}\t{took:.1f} s', flush=True)

    def holds(self, name, fact, why=''):
        def act():
            assert fact, why
        self.step(name, act)
