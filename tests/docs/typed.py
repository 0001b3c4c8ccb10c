"""Types texts into a shell on a terminal, line by line as a terminal without bracketed paste passes
them on.

    typed.py LOG SECONDS FILE .. -- COMMAND ..

COMMAND starts a shell that shows PROMPT. Before it runs a command line it appends to LOG a line
'>', the line as its history has it, with its number, and a line '~'; and after it the same with
'=STATUS' instead of '>'. Each FILE is sent at once, and the next one when the shell waits again. So
what a command takes from its standard input is missing among the shell's own. A question for a
password gets the answer 'typed'.

Printed is what the terminal shows. For each command line that doesn't end with status 0, and for
each line that the shell didn't get as it was sent, there is a line in LOG.faults. The status is 0
if there are none.
"""

import os
import pty
import re
import select
import sys
import time

PROMPT = b'[typed]$ '
QUIET = 0.4
PASSWORD = re.compile(rb'assword[^\n]*: ?$')


class Terminal:
    def __init__(self, command, patience):
        self.shown = b''
        self.patience = patience
        self.shell, self.end = pty.fork()
        if self.shell == 0:
            os.execvp(command[0], command)
        os.set_blocking(self.end, False)

    def step(self, rest):
        """Writes what the terminal takes of the rest, and reads what it shows; whether anything
        happened, and the new rest."""
        ready, writable, _ = select.select([self.end], [self.end] if rest else [], [], QUIET)
        if writable:
            rest = rest[os.write(self.end, rest[:512]):]
        if ready:
            try:
                shown = os.read(self.end, 65536)
            except OSError:
                return False, rest
            self.shown += shown
            sys.stdout.buffer.write(shown)
            sys.stdout.buffer.flush()
        return bool(ready or writable), rest

    def waits(self):
        """Whether the shell has shown its prompt, and nothing after it."""
        return self.shown.endswith(PROMPT)

    def send(self, text):
        """Sends the text, and returns when the shell waits again."""
        rest = text
        deadline = time.monotonic() + self.patience
        while rest or not self.waits():
            if time.monotonic() > deadline:
                raise TimeoutError
            busy, rest = self.step(rest)
            if not busy and not rest and PASSWORD.search(self.shown):
                self.shown = b''
                rest = b'typed\n'
        # What was typed ahead is echoed after the prompt.
        while self.step(b'')[0]:
            pass
        if not self.waits():
            self.send(b'')


def commands(log):
    """The command lines in a log, in order, and those that ended with another status than 0, as a
    text."""
    begun = []
    failed = []
    with open(log, encoding='utf-8', errors='replace') as file:
        for entry in file.read().split('\n~\n')[:-1]:
            sign, _, command = entry.partition('\n')
            text = re.sub(r'^ *[0-9]+ [ *]', '', command)
            if sign == '>':
                begun.append(text)
            elif sign != '=0' and text:
                failed.append(f'status {sign[1:]}: {text.splitlines()[0]}')
    return begun, failed


def squashed(text):
    """A text without blanks, ends of lines and signs that join lines, which a history has in
    another way."""
    return re.sub(r'\s', '', re.sub(r'\\\n', '', text))


def lost(sent, begun):
    """What was sent and isn't among the command lines of the shell."""
    had = squashed('\n'.join(begun))
    if squashed(sent) == had:
        return []
    lines = [line for line in sent.splitlines() if squashed(line + '\n') not in had]
    return [f'not a command of the shell: {line}' for line in lines or ['something else']]


def main():
    at = sys.argv.index('--')
    log, patience, *files = sys.argv[1:at]
    terminal = Terminal(sys.argv[at + 1:], float(patience))
    faults = []
    sent = b''
    try:
        terminal.send(b'')
        for name in files:
            with open(name, 'rb') as file:
                text = file.read()
            sent += text
            terminal.send(text)
    except TimeoutError:
        faults.append('the shell does not wait for a command any more')
    os.close(terminal.end)
    os.waitpid(terminal.shell, 0)
    begun, failed = commands(log)
    faults += failed + lost(sent.decode(), begun)
    with open(log + '.faults', 'w', encoding='utf-8') as file:
        file.writelines(line + '\n' for line in faults)
    return 1 if faults else 0


if __name__ == '__main__':
    sys.exit(main())
