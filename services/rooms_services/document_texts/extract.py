"""One document from standard input, its text to standard output, for rooms-extract.socket. A
process reads one document alone and has nothing else, since whoever wrote that may have the process
do what they want.

After a first line (feed) the next one says what came of it (sink), and the text follows. What a
document is says its beginning, and never its name."""
import os
import re
import sys
import zipfile
from collections.abc import Callable
from xml.parsers import expat

from rooms_admin.host import commands, processes

from .feed import READY
from .mails import is_mail, is_wide, mail, plain_text, rich_text, web_page
from .packages import package
from .sink import Closed, Full, Sink, State

# Of what it says: with another version all documents are read anew in the next night.
VERSION = 2
# How many bytes a document may have, and of how many a plain text is taken.
LARGEST, PLAIN = 33_554_432, 4_194_304
# Mails in mails.
DEEP = 2
_OLD_OFFICE = bytes.fromhex("d0cf11e0a1b11ae1")
# JPEG, PNG, TIFF.
PICTURES = (b"\xff\xd8\xff", b"\x89PNG\r\n", b"II*\0", b"MM\0*")
_PDF = ["pdftotext", "-q", "-enc", "UTF-8", "-nopgbrk", "-", "-"]
# What modules of Python's raise at what somebody has made up.
_FAULTS = (ValueError, zipfile.BadZipFile, expat.ExpatError, EOFError, NotImplementedError,
           ArithmeticError, LookupError, OSError, RecursionError, AttributeError, TypeError)


def _pdf(data: bytes, sink: Sink) -> State:
    """The program has this process's limits, and ends with it. It reads all before it writes."""
    try:
        child = commands.started(_PDF, processes.end_with_parent)
    except FileNotFoundError:
        return State.LACKS
    assert child.stdin and child.stdout
    try:
        child.stdin.write(data)
        child.stdin.close()
    except OSError:
        pass  # It has seen enough.
    is_empty = True
    while part := os.read(child.stdout.fileno(), 65_536):
        is_empty = is_empty and not part.strip()
        sink.add_bytes(part)
    status = child.wait()
    child.stdout.close()
    if status == 3 or (status == 1 and b"/Encrypt" in data):
        raise Closed
    if status < 0:
        return State.LATE
    return (State.NONE if status == 0 else State.BROKEN) if is_empty else State.WHOLE


def _read(data: bytes, sink: Sink, deep: int = DEEP, kind: str = "") -> State:
    if b"%PDF-" in data[:1024]:
        return _pdf(data, sink)
    if data.startswith(b"PK\x03\x04"):
        return package(data, sink)
    if data.startswith(b"{\\rtf"):
        return rich_text(data, sink)
    if data.startswith((_OLD_OFFICE, *PICTURES)) or b"\0" in data[:65_536] and not is_wide(data):
        return State.NONE
    if kind == "text/html" or re.match(rb"<!doctype html|<html", data[:1024].lstrip().lower()):
        return web_page(data, sink)
    if is_mail(data):
        return mail(data, sink, lambda inside, kind: _attached(inside, sink, deep, kind))
    return plain_text(data[:PLAIN], sink)


def _attached(data: bytes, sink: Sink, deep: int, kind: str) -> None:
    """One that can't be read leaves the mail as it is."""
    if deep:
        try:
            _read(data, sink, deep - 1, kind)
        except (Closed, *_FAULTS):
            pass


def read(data: bytes) -> tuple[State, str]:
    sink = Sink()
    try:
        state = _read(data, sink)
    except Full:
        state = State.CUT
    except Closed:
        state = State.CLOSED
    except MemoryError:
        state = State.LATE
    except _FAULTS:
        state = State.BROKEN
    return state, sink.text()


def answer(read_one: Callable[[bytes], tuple[State, str]], too_large: State) -> int:
    """Reads the document on standard input, and writes its state and its text."""
    sys.stdout.buffer.write(READY)
    sys.stdout.buffer.flush()
    data = sys.stdin.buffer.read(LARGEST + 1)
    state, text = read_one(data) if len(data) <= LARGEST else (too_large, "")
    sys.stdout.buffer.write(f"{state.value}\n{text}".encode("utf-8", "replace"))
    sys.stdout.buffer.flush()
    # What it has started goes with its unit.
    os._exit(0)


def run() -> int:
    return answer(read, State.LARGE)
