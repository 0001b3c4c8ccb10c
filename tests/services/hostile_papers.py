#!/usr/bin/env python3
"""Documents that were made to harm whoever reads them, each as long as a room takes one:

  hostile_papers.py SERVICE           each is read by SERVICE, under the limits of rooms-extract@
  hostile_papers.py SERVICE SOCKET    each is read by who listens there, as rooms-extract.socket

It prints what came of each, and its status is 1 if that isn't among what may come of it, took
longer than it may, or says something of this machine."""
import resource
import socket
import subprocess
import sys
import threading
import time
import zlib
from collections.abc import Callable

import papers
from rooms_services.document_texts import feed
from rooms_services.document_texts.sink import MOST_TEXT, State

LARGEST = 1 << 20
W, C, N, B, L = State.WHOLE, State.CUT, State.NONE, State.BROKEN, State.LATE
# Where nothing reads PDF.
P = State.LACKS
_HEAD = '<?xml version="1.0"?>'
_WORD = "word/document.xml"


def xml(text: str | bytes) -> bytes:
    return papers.zipped([(_WORD, text)])


def entities() -> str:
    inner = "".join(f'<!ENTITY {chr(98 + at)} "{f"&{chr(97 + at)};" * 10}">' for at in range(9))
    return f'{_HEAD}<!DOCTYPE l [<!ENTITY a "haha">{inner}]><w:t>&j;</w:t>'


def pages(kids: bytes, count: int, stream: bytes, more: bytes = b"") -> bytes:
    return (b"%%PDF-1.4\n1 0 obj<</Type/Catalog/Pages 2 0 R>>endobj\n2 0 obj<</Type/Pages/Count %d"
            b"/Kids[%b]>>endobj\n3 0 obj<</Type/Page/Parent 2 0 R/MediaBox[0 0 99 99]/Contents 4 0 "
            b"R/Resources<</Font<</F 5 0 R>>>>>>endobj\n4 0 obj<</Length %d%b>>stream\n%b\n"
            b"endstream endobj\n5 0 obj<</Type/Font/Subtype/Type1/BaseFont/Helvetica>>endobj\n"
            b"trailer<</Root 1 0 R>>\n" % (count, kids, len(stream), more, stream))


def large_stream() -> bytes:
    whole = b"BT /F 12 Tf 10 50 Td " + b"(geheim) Tj " * 30_000_000 + b" ET"
    return pages(b"3 0 R", 1, zlib.compress(whole, 9)[:900_000], b"/Filter/FlateDecode")


_MAIL = b"From: a\r\nTo: b\r\nSubject: c\r\nMIME-Version: 1.0\r\nContent-Type: "
DOCUMENTS: dict[str, tuple[Callable[[], bytes], set[State]]] = {
    "a ZIP of 1 GiB of blanks": (lambda: xml(b" " * (1 << 30)), {C, L}),
    "200 MiB of text": (lambda: xml((f'{_HEAD}<w:document xmlns:w="w"><w:p><w:t>').encode()
                                    + b"geheim " * (30 << 20) + b"</w:t></w:p></w:document>"), {C}),
    "5,000 parts": (lambda: papers.zipped(
        [(f"word/header{at}.xml", b"<a/>") for at in range(5000)] + [(_WORD, b"<a/>")]), {B}),
    "entities in one another": (lambda: xml(entities()), {B}),
    "a file of the system": (lambda: xml(
        f'{_HEAD}<!DOCTYPE l [<!ENTITY x SYSTEM "file:///etc/passwd">]><w:t>&x;</w:t>'), {B}),
    "a file of the system, by a parameter": (lambda: xml(
        f'{_HEAD}<!DOCTYPE l SYSTEM "file:///etc/passwd" [<!ENTITY % x SYSTEM "file:///etc/passwd">'
        " %x;]><w:t>a</w:t>"), {B, W}),
    "a million levels of XML": (lambda: xml(b"<a>" * 1_000_000), {B}),
    "one attribute of 20 MiB": (lambda: xml(b'<a x="' + b"y" * (20 << 20) + b'"/>'), {B, L, W}),
    "a package that is cut off": (lambda: papers.docx(["geheim"] * 50)[:-200], {B}),
    "a package in a package": (lambda: papers.zipped([(_WORD, papers.docx(["geheim"] * 9))]), {B}),
    "100,000 times the same page": (lambda: pages(b"3 0 R " * 100_000, 100_000, b""), {B, N, L, P}),
    "pages in a circle": (lambda: pages(b"2 0 R " * 9, 9, b""), {B, N, L, P}),
    "a stream of 330 MB": (large_stream, {B, C, L, W, P}),
    "a PDF that is cut off": (lambda: papers.pdf(["geheim"] * 50)[:700], {B, N, W, P}),
    "noise": (lambda: b"%PDF-1.7\n" + b"\x8b\x03\xfe" * 300_000, {B, N, P}),
    "no blank": (lambda: b"a" * LARGEST, {W}),
    "letters that become eighteen": (lambda: ("\ufdfa" * 349_000).encode(), {W}),
    "marks alone": (lambda: ("a" + "\u0301" * 524_000).encode(), {W}),
    "parted at each end of a line": (lambda: b"a-\n" * 349_525, {W}),
    "10,000 parts of a mail": (lambda: _MAIL + b"multipart/mixed; boundary=x\r\n\r\n"
                               + b"--x\r\n\r\ngeheim\r\n" * 10_000, {C, L, B}),
    "2,000 mails in one another": (
        lambda: (_MAIL + b"message/rfc822\r\n\r\n") * 2000, {B, C, L, W}),
    "a head without end": (lambda: b"A: b\r\n \r\n" * 110_000, {W, C}),
    "an address without end": (lambda: _MAIL.replace(b"From: a", b"From: " + b"(" * 300_000)
                               + b"text/plain\r\n\r\nx", {W, B, L, C}),
    "200,000 tags": (lambda: b"<!doctype html>" + b"<div>" * 200_000, {W, L}),
    "declarations without end": (lambda: b"<!doctype html>" + b"<![" * 340_000, {W, B, L}),
    "RTF in one another": (lambda: b"{\\rtf1" + b"{\\fonttbl{" * 100_000, {B}),
    "RTF of words": (lambda: b"{\\rtf1 " + b"\\u8364?\\'fc\\b " * 60_000, {W}),
    "nothing": (lambda: b"", {W}),
}


def _limits() -> None:
    """Of deploy/systemd/rooms-extract@.service."""
    for what, most in ((resource.RLIMIT_AS, 512 << 20), (resource.RLIMIT_CPU, 8),
                       (resource.RLIMIT_FSIZE, 4 << 20), (resource.RLIMIT_CORE, 0),
                       (resource.RLIMIT_NOFILE, 64)):
        resource.setrlimit(what, (most, most))


class Starting:
    """In the place of the socket: a process for each connection, which ends after its time."""

    def __init__(self, service: str, place: str) -> None:
        self._service = service
        self._at = socket.socket(socket.AF_UNIX)
        self._at.bind(place)
        self._at.listen(8)
        threading.Thread(target=self._serve, daemon=True).start()

    def _serve(self) -> None:
        while True:
            connection, _ = self._at.accept()
            with connection:
                number = connection.fileno()
                child = subprocess.Popen([self._service, "extract"], stdin=number, stdout=number,
                                         stderr=subprocess.DEVNULL, preexec_fn=_limits)
            threading.Timer(15.0, child.kill).start()


def main() -> int:
    service, *more = sys.argv[1:]
    place = more[0] if more else "extract.socket"
    if not more:
        Starting(service, place)
    wrong = 0
    with open("/etc/passwd", encoding="utf-8") as source:
        first = source.readline().strip()
    for name, (make, may) in DOCUMENTS.items():
        data = make()[:LARGEST]
        began = time.monotonic()
        state, text = feed.text_of(data, place)
        took = time.monotonic() - began
        right = state in may and took < 20 and len(text.encode()) <= MOST_TEXT and first not in text
        wrong += not right
        print(f"{'' if right else 'WRONG: '}{name}: {state.value}, {len(text)} letters, "
              f"{took:.1f} s", flush=True)
    return int(wrong > 0)


if __name__ == "__main__":
    sys.exit(main())
