#!/usr/bin/env python3
"""Another site in the browser of a user who is signed in: it may not act in the user's name.

    foreign.py FOLDER FRONT-PORT ACCESS-LOG
"""

import http.server
import signal
import sys
import threading
import time

from browser import Browser, Checks

ROOM = 'rooms.example'
FOREIGN = 'elsewhere.example'

# What a page can make a browser send. 'no-cors' needs no leave of the other side.
ATTACKS = [
    ('fetch', 'POST', '/folder/evil', "{method: 'POST', mode: 'no-cors', credentials: 'include'}"),
    ('fetch', 'POST', '/move/letters',
     "{method: 'POST', mode: 'no-cors', credentials: 'include', body: '{\"to\":\"/x\"}'}"),
    ('fetch', 'POST', '/doc/letters/reply',
     "{method: 'POST', mode: 'no-cors', credentials: 'include', body: 'evil'}"),
    ('fetch', 'PUT', '/doc/letters/reply', "{method: 'PUT', credentials: 'include', body: 'evil'}"),
    ('fetch', 'PUT', '/dacl/letters', "{method: 'PUT', credentials: 'include', body: 'list:a'}"),
    ('fetch', 'DELETE', '/object/letters/reply', "{method: 'DELETE', credentials: 'include'}"),
]

FORM = """
const form = document.createElement('form');
form.method = 'POST';
form.enctype = 'text/plain';
form.action = arguments[0];
const input = document.createElement('input');
input.name = '{"x":"';
input.value = '","to":"/evil"}';
form.append(input);
document.body.append(form);
form.submit();
"""


class Page(http.server.BaseHTTPRequestHandler):
    def do_GET(self):
        self.send_response(200)
        self.send_header('Content-Type', 'text/html')
        self.end_headers()
        self.wfile.write(b'<!doctype html><link rel=icon href="data:,"><title>elsewhere</title>')

    def log_message(self, *words):
        pass


def lines(log):
    with open(log, encoding='utf-8') as file:
        return [line.split() for line in file]


def refused(browser, log, before, path):
    """The lines for this path since then. Each has to be a 403; a preflight counts for what it
    asks."""
    def seen():
        return [line for line in lines(log)[before:] if line[2] == path]
    told = browser.until(seen, f'a request for {path}')
    assert all(line[0] == '403' for line in told), f'{told}'
    return told


def attack(browser, base, log, path, how):
    before = len(lines(log))
    browser.driver.execute_async_script(
        f"const done = arguments[1]; fetch(arguments[0], {how}).then(() => done(), () => done());",
        base + path)
    refused(browser, log, before, path)


def submit(browser, base, log, path, there):
    before = len(lines(log))
    browser.script(FORM, base + path)
    told = refused(browser, log, before, path)
    assert told[0][3] == 'alice', f'sent without her password: {told}'
    browser.driver.get(there)


def sends_password(browser, base, log, status):
    """Else the checks would show little. Where a browser doesn't say which site asks, reading goes
    through in the user's name, and can't be looked at."""
    before = len(lines(log))
    seen = browser.driver.execute_async_script(
        "const done = arguments[1]; fetch(arguments[0], {mode: 'no-cors', credentials: 'include'})"
        ".then((reply) => done(reply.type), (fault) => done(String(fault)));",
        f'{base}/folder/letters')
    # What is for its own site alone isn't handed on at all.
    assert seen == 'opaque' or 'Failed to fetch' in seen, seen
    told = [line[:4] for line in lines(log)[before:] if line[2] == '/folder/letters']
    assert told == [[status, 'GET', '/folder/letters', 'alice']], f'{told}'


def shown(browser, base, log):
    """A picture, of which no script hears what came."""
    before = len(lines(log))
    browser.script("document.body.append(Object.assign(new Image(), {src: arguments[0]}))",
                   f'{base}/doc/letters/reply')
    refused(browser, log, before, '/doc/letters/reply')


def followed(browser, base, log, there):
    """A link, as in a mail, leads to the page."""
    before = len(lines(log))
    browser.script("location.href = arguments[0]", f'{base}/#/letters')
    told = browser.until(lambda: [line for line in lines(log)[before:] if line[2] == '/'],
                         'the page')
    assert told[0][0] == '200', told
    browser.driver.get(there)


def steered(browser, base, log, there):
    """A window with the page, that it opened by a press, isn't its own any more: else it would lead
    the page on and on, each time with a request in the user's name."""
    driver = browser.driver
    before = len(lines(log))
    browser.script("""
const press = document.createElement('button');
press.textContent = 'open';
press.onclick = () => { window.opened = open(`${arguments[0]}/#/letters`); };
document.body.append(press);
""", base)
    driver.find_element('css selector', 'button').click()

    def asked(place):
        return [line for line in lines(log)[before:] if place in line[2]]
    browser.until(lambda: asked('/folder/letters'), 'the page')
    browser.script("opened.location = arguments[0]", f'{base}/#/steered')
    time.sleep(2)
    told = asked('steered')
    for window in driver.window_handles[1:]:
        driver.switch_to.window(window)
        driver.close()
    driver.switch_to.window(driver.window_handles[0])
    driver.get(there)
    assert told == [], told


def framed(browser, base):
    browser.script("const frame = document.createElement('iframe'); frame.src = arguments[0]; "
                   "document.body.append(frame);", base)
    # A frame that was refused is of another origin, so its content can't be read.
    browser.until(lambda: any('frame-ancestors' in entry['message']
                              for entry in browser.driver.get_log('browser')),
                  'a refused frame')


def play(browser, checks, base, there, log, is_near):
    says_site = '127.0.0.1' in base
    browser.driver.get(there)
    name = f'{there.split("//")[1].split(":")[0]} asks {base.split("//")[1].split(":")[0]}:'
    # This browser keeps the passwords of fetch apart for each site. Others don't.
    if is_near:
        checks.step(f'{name} the password is sent', lambda: sends_password(
            browser, base, log, '403' if says_site else '200'))
    if says_site:
        checks.step(f'{name} a picture', lambda: shown(browser, base, log))
    checks.step(f'{name} a link', lambda: followed(browser, base, log, there))
    if says_site:
        checks.step(f'{name} a window', lambda: steered(browser, base, log, there))
    for kind, method, path, how in ATTACKS:
        checks.step(f'{name} {kind} {method} {path}', lambda: attack(browser, base, log, path, how))
    for path in ('/move/letters', '/folder/evil'):
        checks.step(f'{name} a form, {path}', lambda: submit(browser, base, log, path, there))
    checks.step(f'{name} a frame', lambda: framed(browser, base))


def main():
    folder, front, log = sys.argv[1:4]
    signal.signal(signal.SIGTERM, lambda *_: sys.exit(1))
    server = http.server.ThreadingHTTPServer(('127.0.0.1', 0), Page)
    threading.Thread(target=server.serve_forever, daemon=True).start()
    # A browser says 'Sec-Fetch-Site' to 127.0.0.1 and to TLS; to a plain name it says 'Origin'
    # alone.
    named, plain = f'http://{ROOM}:{front}', f'http://127.0.0.1:{front}'
    plays = [(named, FOREIGN, False), (named, f'other.{ROOM}', True), (plain, FOREIGN, False),
             (plain, '127.0.0.1', True)]
    rules = ','.join(f'MAP {host} 127.0.0.1' for host in (ROOM, f'*.{ROOM}', FOREIGN))
    checks = Checks()
    browser = Browser(f'{folder}/foreign', named, 'alice', 'a', rules)
    try:
        browser.driver.get(plain.replace('//', '//alice:a@') + '/me')
        for base, host, is_near in plays:
            play(browser, checks, base, f'http://{host}:{server.server_port}/', log, is_near)
    finally:
        browser.quit()
    print('end', flush=True)


main()
