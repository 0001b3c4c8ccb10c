"""The picture of one page of one PDF, by the programs of poppler-utils. systemd starts this for
each page at its socket, as an account that is made for it (see `apart`). What takes more than the
unit allows is ended, and has no picture."""
import re

from rooms_admin.host import commands

from . import apart

# How many bytes a document may have.
DOCUMENT = 33_554_432
# Of the longer side: a page of A4 has then 170 dots an inch.
SIDE = 2000
# Noise of that size has 4.5 MB.
MOST = 8_388_608
# Which one the door may ask for.
PAGES = 1000
_SAID = 65_536
_COUNT = re.compile(rb"^Pages: +([0-9]{1,9})$", re.MULTILINE)


class Fault(Exception):
    """The word for it, and what else is told."""

    def __init__(self, why: str, **more: object) -> None:
        super().__init__(why)
        self.told: dict[str, object] = {"why": why, **more}


def _said(words: list[str], document: int, most: int, faults: int) -> tuple[int, bytes]:
    try:
        return commands.bounded([*words, f"/proc/self/fd/{document}"], most, faults, (document,))
    except FileNotFoundError:
        raise Fault("no-pictures") from None


def _count(document: int) -> int:
    status, said = _said(["pdfinfo"], document, _SAID, commands.TOGETHER)
    found = _COUNT.search(said)
    if status < 0:
        raise Fault("too-much")
    if status or not found:
        raise Fault("locked" if b"Incorrect password" in said else "broken")
    return int(found[1])


def picture(number: int, document: int) -> tuple[int, bytes]:
    """How many pages there are, and that of this one as a JPEG."""
    pages = _count(document)
    if number > pages:
        raise Fault("no-page", pages=pages)
    page = str(number)
    status, said = _said(["pdftoppm", "-q", "-f", page, "-l", page, "-scale-to", str(SIDE),
                          "-jpeg", "-jpegopt", "quality=88,optimize=y"], document, MOST,
                         commands.NOTHING)
    if status or not said:
        raise Fault("too-much" if status < 0 else "broken", pages=pages)
    return pages, said


def run() -> int:
    with apart.given(DOCUMENT) as (words, number):
        try:
            pages, made = picture(int(words), number)
            apart.answer({"pages": pages}, made)
        except Fault as fault:
            apart.answer(fault.told)
    return 0
