"""A headless Firefox by its own protocol, Marionette, since Debian has no geckodriver. It answers
to the calls of selenium's driver and elements that the plays use."""

import base64
import json
import os
import re
import socket
import subprocess
import time

from browser import PATIENCE, Browser, found
from selenium.common.exceptions import StaleElementReferenceException

REFERENCE = 'element-6066-11e4-a52e-4f735466cecf'

PREFERENCES = {
    'browser.shell.checkDefaultBrowser': False, 'browser.startup.page': 0,
    'datareporting.policy.dataSubmissionEnabled': False, 'app.update.auto': False,
    'app.normandy.enabled': False, 'network.proxy.type': 0, 'browser.aboutwelcome.enabled': False,
    'toolkit.telemetry.reportingpolicy.firstRun': False, 'browser.download.folderList': 2,
    'signon.rememberSignons': False, 'browser.download.useDownloadDir': True,
    'browser.download.always_ask_before_handling_new_types': False,
    'browser.helperApps.neverAsk.saveToDisk': 'application/octet-stream',
    'network.auth.confirmAuth.enabled': False, 'network.http.prompt-temp-redirect': False,
    'browser.newtabpage.enabled': False, 'remote.prefs.recommended': True,
    'devtools.console.stdout.content': True,
}


SIZE = """
for (const [name, length] of [['width', arguments[0]], ['height', arguments[1]]]) {
  for (const word of [name, `min-${name}`, `max-${name}`])
    gBrowser.selectedBrowser.style.setProperty(word, `${length}px`);
}
"""

THROWN = """
return Services.console.getMessageArray().filter((one) => one instanceof Ci.nsIScriptError
  && !(one.flags & Ci.nsIScriptError.warningFlag) && one.sourceName.startsWith(arguments[0]))
  .map((one) => one.errorMessage);
"""


def has_firefox():
    return found('firefox-esr', 'firefox') is not None


class Element:
    def __init__(self, driver, number):
        self.driver, self.number = driver, number

    def ask(self, command, **words):
        return self.driver.ask(command, id=self.number, **words)

    def click(self):
        self.ask('WebDriver:ElementClick')

    def clear(self):
        self.ask('WebDriver:ElementClear')

    def send_keys(self, *keys):
        self.ask('WebDriver:ElementSendKeys', text=''.join(keys))

    def get_attribute(self, name):
        return self.driver.execute_script(
            'return arguments[0][arguments[1]] ?? arguments[0].getAttribute(arguments[1])',
            self, name)

    @property
    def text(self):
        return self.ask('WebDriver:GetElementText')

    @property
    def accessible_name(self):
        return self.ask('WebDriver:GetComputedLabel')

    @property
    def aria_role(self):
        return self.ask('WebDriver:GetComputedRole')


class Driver:
    def __init__(self, folder, port):
        os.makedirs(f'{folder}/profile')
        preferences = {**PREFERENCES, 'marionette.port': port,
                       'browser.download.dir': f'{folder}/downloads'}
        with open(f'{folder}/profile/user.js', 'w', encoding='utf-8') as file:
            file.writelines(f'user_pref({json.dumps(name)}, {json.dumps(value)});\n'
                            for name, value in preferences.items())
        with open(f'{folder}/firefox.log', 'wb') as log:
            self.process = subprocess.Popen(
                [found('firefox-esr', 'firefox'), '--headless', '--marionette',
                 '--remote-allow-system-access', '--no-remote',
                 '--profile', f'{folder}/profile'],
                stdin=subprocess.DEVNULL, stdout=log, stderr=log,
                env={**os.environ, 'HOME': folder, 'MOZ_DISABLE_CONTENT_SANDBOX': '1'})
        self.socket, self.rest, self.count = self.connected(port), b'', 0
        self.told()
        self.ask('WebDriver:NewSession',
                 capabilities={'alwaysMatch': {'pageLoadStrategy': 'normal', 'timeouts': {
            'pageLoad': int(PATIENCE * 1000), 'script': int(PATIENCE * 1000)}}})
        self.ask('WebDriver:SetWindowRect', width=1200, height=900)

    def connected(self, port):
        end = time.monotonic() + 4 * PATIENCE
        while True:
            try:
                return socket.create_connection(('127.0.0.1', port), 4 * PATIENCE)
            except OSError:
                if time.monotonic() > end or self.process.poll() is not None:
                    raise
                time.sleep(0.2)

    def told(self):
        while b':' not in self.rest:
            self.rest += self.received()
        length, _, self.rest = self.rest.partition(b':')
        while len(self.rest) < int(length):
            self.rest += self.received()
        message, self.rest = self.rest[:int(length)], self.rest[int(length):]
        return json.loads(message)

    def received(self):
        got = self.socket.recv(65536)
        if not got:
            raise EOFError('Firefox has ended')
        return got

    def ask(self, command, **words):
        self.count += 1
        message = json.dumps([0, self.count, command, words]).encode()
        self.socket.sendall(str(len(message)).encode() + b':' + message)
        _, _, fault, result = self.told()
        if fault and fault['error'] in ('stale element reference', 'no such element'):
            raise StaleElementReferenceException(fault['message'])
        if fault:
            raise RuntimeError(f"{fault['error']}: {fault['message']}")
        return self.taken(result.get('value') if isinstance(result, dict) else result)

    def taken(self, value):
        if isinstance(value, list):
            return [self.taken(one) for one in value]
        if isinstance(value, dict) and REFERENCE in value:
            return Element(self, value[REFERENCE])
        return value

    def execute_script(self, text, *words):
        return self.ask('WebDriver:ExecuteScript', script=text,
                        args=[self.given(one) for one in words])

    def execute_async_script(self, text, *words):
        return self.ask('WebDriver:ExecuteAsyncScript', script=text,
                        args=[self.given(one) for one in words])

    def in_browser(self, text, *words):
        """A script of the browser itself, beside any page."""
        self.ask('Marionette:SetContext', value='chrome')
        try:
            return self.execute_script(text, *words)
        finally:
            self.ask('Marionette:SetContext', value='content')

    def given(self, word):
        return {REFERENCE: word.number} if isinstance(word, Element) else word

    def get(self, address):
        self.ask('WebDriver:Navigate', url=address)

    def refresh(self):
        self.ask('WebDriver:Refresh')

    @property
    def switch_to(self):
        return self

    @property
    def active_element(self):
        return self.ask('WebDriver:GetActiveElement')

    def quit(self):
        try:
            self.ask('Marionette:Quit', flags=['eForceQuit'])
        except (OSError, EOFError, RuntimeError):
            pass
        self.socket.close()
        try:
            self.process.wait(10)
        except subprocess.TimeoutExpired:
            self.process.kill()
            self.process.wait()


class Firefox(Browser):
    """What the plays do with a browser, but for what only Chromium's debugger can."""

    def __init__(self, folder, base, user, password, port):
        os.makedirs(f'{folder}/downloads')
        self.base = base
        self.downloads = f'{folder}/downloads'
        self.log = f'{folder}/firefox.log'
        self.driver = Driver(folder, port)
        scheme, rest = base.split('//')
        self.driver.get(f'{scheme}//{user}:{password}@{rest}/me')

    def type(self, *keys):
        presses = [{'type': word, 'value': key} for key in ''.join(keys)
                   for word in ('keyDown', 'keyUp')]
        self.driver.ask('WebDriver:PerformActions',
                        actions=[{'type': 'key', 'id': 'keys', 'actions': presses}])

    def resize(self, width, height):
        """The part of the window that has the page, since a whole window isn't as narrow as a
        telephone."""
        self.driver.in_browser(SIZE, width, height)
        self.until(lambda: self.script('return innerWidth') == width, f'{width} px')

    def downloaded(self, name):
        """It makes an empty file first, and writes into another one beside it."""
        path = f'{self.downloads}/{name}'
        self.until(lambda: os.path.exists(path) and os.path.getsize(path) > 0
                   and not os.path.exists(f'{path}.part'),
                   'a download')
        return super().downloaded(name)

    def dark(self, dark=True):
        self.driver.in_browser(
            "Services.prefs.setIntPref("
            "'layout.css.prefers-color-scheme.content-override', arguments[0])",
                               0 if dark else 1)

    def picture(self, path):
        self.until(lambda: not self.all('.notice.good'), 'no message')
        with open(path, 'wb') as file:
            file.write(base64.b64decode(self.driver.ask('WebDriver:TakeScreenshot', full=False)))

    def errors(self):
        """Exceptions that nothing caught, and what a page wrote as an error."""
        with open(self.log, encoding='utf-8', errors='replace') as log:
            # What is the browser's own has a word before it.
            written = [line for line in log if re.match(r'console\.error: [("\[{]', line)]
        return self.driver.in_browser(THROWN, self.base) + written
