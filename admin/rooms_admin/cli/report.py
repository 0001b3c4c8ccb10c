"""What is printed, and how a verb ends."""
import getpass
import json
import os
import signal
import sys
import types
from collections.abc import Iterator, Mapping, Sequence
from contextlib import contextmanager
from typing import Any

from .signs import is_seen

prog = "rooms-admin"
# What whoever asks for a verb has typed, for who has to type it elsewhere.
typed = "rooms-admin"


class Stop(Exception):
    """The verb ends with this status, and prints the text."""
    status = 1


class Refused(Stop):
    """Nothing was begun."""
    status = 2


class Interrupted(Stop):
    """A signal came."""


def plain(text: str) -> str:
    """What others wrote, so that all of it is seen. Ends of lines stay."""
    if is_seen(text):
        return text
    return "".join(one if is_seen(one) or one in "\n\t" else ascii(one)[1:-1] for one in text)


def line(text: str) -> str:
    """The same as one line."""
    return plain(text).replace("\n", "\\n")


def say(text: str) -> None:
    end_progress()
    print(f"{prog}: {plain(text)}", file=sys.stderr, flush=True)


# What a verb that says so has changed by now; nothing is known of another one.
_did: list[str] | None = None


def nothing_yet() -> None:
    """From here on whoever interrupts the verb is told what was done before."""
    global _did
    _did = []


def did(what: str) -> None:
    if _did is not None:
        _did.append(what)


def interrupted() -> Interrupted:
    if _did is None:
        return Interrupted("interrupted")
    return Interrupted("interrupted: " + (f"this alone was done: {'; '.join(_did)}" if _did else
                                          "nothing was changed"))


def secret(prompt: str) -> str:
    """What somebody types at a terminal and doesn't see; its end (Ctrl-D) is as an interruption."""
    try:
        return getpass.getpass(prompt)
    except EOFError:
        print(file=sys.stderr)
        raise interrupted() from None


def _interrupt(_number: int, _frame: types.FrameType | None) -> None:
    raise interrupted()


_ENDING = (signal.SIGTERM, signal.SIGINT, signal.SIGHUP)


def catch_signals(how: Any = _interrupt) -> None:
    """Those that end a verb."""
    for one in _ENDING:
        signal.signal(one, how)


def ignore_signals() -> None:
    for one in _ENDING:
        signal.signal(one, signal.SIG_IGN)


@contextmanager
def signals_wait(how: int = signal.SIG_BLOCK) -> Iterator[None]:
    """Until this is done; within it SIG_UNBLOCK lets them through for a while."""
    before = signal.pthread_sigmask(signal.SIG_BLOCK, ())
    try:
        signal.pthread_sigmask(how, _ENDING)
        yield
    finally:
        signal.pthread_sigmask(signal.SIG_SETMASK, before)


def put_rows(rows: Sequence[Mapping[str, object]]) -> None:
    """For a program, by --json: a list of objects, whatever the verb."""
    print(json.dumps(rows, indent=1), flush=True)


_shown = False


def progress(text: str) -> None:
    """A line that is written over, on a terminal alone."""
    global _shown
    if not os.isatty(2):
        return
    _shown = True
    print(f"\r\033[K{line(text)}", end="", file=sys.stderr, flush=True)


def end_progress() -> None:
    global _shown
    if _shown:
        print(file=sys.stderr)
    _shown = False
