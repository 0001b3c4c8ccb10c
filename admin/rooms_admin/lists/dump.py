"""lists.txt of a backup, which is what `rooms dump` prints: objects with their lists, and members.
No path and no name has a line end in it."""
import heapq
import mmap
import os
import re
from collections.abc import Iterable, Iterator
from dataclasses import dataclass, field
from typing import IO

from ..host import safe
from ..room import names
from ..cli.report import Stop, line as as_line
from ..cli.signs import is_seen

Pair = tuple[str, str]
LISTS = ("dacl", "sacl")
# What an entry has before a date, and the line that an object begins with. (Each begins with signs
# that are looked for as they are, which is many times as fast as line by line.)
_DATES = (re.compile(rb":until\.[0-9]"), re.compile(rb":ended\.[0-9]"))
# So many signs at most are before that, a type and flags.
_FLAGS = 80
_BEGINS = re.compile(rb"\n(?:folder|document|member) ")


@dataclass
class Object:
    """Its line, and its lists with the line of flags before their entries."""
    kind: str
    owner: str
    group: str
    path: bytes
    size: str = ""
    dacl: list[bytes] = field(default_factory=list)
    sacl: list[bytes] = field(default_factory=list)

    def list_of(self, which: str) -> list[bytes]:
        return self.dacl if which == "dacl" else self.sacl

    def line(self) -> str:
        """As the program prints it, but for a path with signs that aren't seen."""
        path = self.path.decode("utf-8", "surrogateescape")
        words = [self.kind, self.owner, self.group, self.size,
                 path if is_seen(path) else names.shown(self.path)]
        return " ".join(word for word in words if word)


def as_text(said: bytes) -> str:
    """A part of a line, as a terminal shows it and doesn't obey it."""
    return as_line(said.decode("utf-8", "surrogateescape"))


def _name(said: bytes) -> str:
    return names.user_in(said.decode("ascii", "backslashreplace"), "no lists")


def _object(line: bytes) -> Object:
    """folder OWNER GROUP PATH, document OWNER GROUP SIZE PATH."""
    is_folder = line.startswith(b"folder ")
    words = line.split(b" ", 3 if is_folder else 4)
    if len(words) != (4 if is_folder else 5):
        raise Stop(f"no lists: '{as_text(line)}' is no line of what rooms dump prints")
    size = "" if is_folder else words[3].decode("ascii", "backslashreplace")
    if not is_folder and not size.isdecimal():
        raise Stop(f"no lists: '{as_text(line)}' is no line of what rooms dump prints")
    path = names.path_in(words[-1].decode("utf-8", "surrogateescape"), "no lists")
    return Object(words[0].decode(), _name(words[1]), _name(words[2]),
                  path.encode("utf-8", "surrogateescape"), size)


def rows(lines: Iterable[bytes]) -> Iterator[Object | Pair]:
    """Objects, each after its folder, and then members, a group and a user."""
    at: Object | None = None
    into: list[bytes] = []
    for line in lines:
        line = line.rstrip(b"\n")
        # Most lines are entries.
        if line[1:2] == b":":
            into.append(line)
        elif line in (b"dacl", b"sacl"):
            into = [] if at is None else at.list_of(line.decode())
        elif line.startswith((b"folder ", b"document ", b"member ")):
            if at:
                yield at
            at, into = None, []
            if line.startswith(b"member "):
                words = line.split(b" ")
                if len(words) == 3:
                    yield _name(words[1]), _name(words[2])
            else:
                at = _object(line)
        elif line:
            into.append(line)
    if at:
        yield at


def parsed(lines: Iterable[bytes]) -> Iterator[Object]:
    return (one for one in rows(lines) if isinstance(one, Object))


def dated(source: IO[bytes]) -> Iterator[Object]:
    """The objects of a whole text with an entry of their own that has a date: a room may have a
    hundred million lines, of which nearly none has one, and most of which nobody reads for it."""
    if os.fstat(source.fileno()).st_size == 0:
        return
    with mmap.mmap(source.fileno(), 0, access=mmap.ACCESS_READ) as text:
        at = 0
        for hit in heapq.merge(*(_own(one, text) for one in _DATES)):
            if hit < at:
                continue
            begins = max(text.rfind(b"\nfolder ", max(0, at - 1), hit),
                         text.rfind(b"\ndocument ", max(0, at - 1), hit)) + 1
            ends = _BEGINS.search(text, hit)
            at = ends.start() + 1 if ends else len(text)
            yield from parsed(text[begins:at].splitlines())


def _own(date: re.Pattern[bytes], text: mmap.mmap) -> Iterator[int]:
    """Where one is in an entry that didn't come from the folder above."""
    for found in date.finditer(text):
        before = text[max(0, found.start() - _FLAGS):found.start()].rpartition(b"\n")[2]
        if b"I" not in before:
            yield found.start()


def users(found: Iterable[Object | Pair]) -> set[str]:
    """Who owns something or is in a group."""
    return {one.owner if isinstance(one, Object) else one[1] for one in found}


def members(lines: Iterable[bytes]) -> set[Pair]:
    return {one for one in rows(line for line in lines if line.startswith(b"member "))
            if isinstance(one, tuple)}


def has(path: str, wanted: bytes) -> bool:
    """Whether an object was there. Most lines are of others, and aren't read for it."""
    end = b" " + wanted + b"\n"
    with safe.own_file(path) as source:
        return any(line.endswith(end) and line.startswith((b"folder ", b"document "))
                   and _object(line.rstrip(b"\n")).path == wanted for line in source)


def whole(lines: Iterable[bytes], what: str) -> Iterator[Object | Pair]:
    """The rows of a text that may have been damaged: it begins with the root, it has both lists of
    each object, and its last line has an end."""
    def ended() -> Iterator[bytes]:
        for line in lines:
            if not line.endswith(b"\n"):
                raise Stop(f"no lists: {what} was cut off")
            yield line
    before: Object | Pair | None = None
    for one in rows(ended()):
        if before is None and not (isinstance(one, Object) and one.path == b"/"):
            break
        if isinstance(one, Object) and not all(
                b"".join(one.list_of(which)[:1]).startswith(b"list:") for which in LISTS):
            raise Stop(f"no lists: {what} hasn't both lists of {names.shown(one.path)}")
        before = one
        yield one
    if before is None:
        raise Stop(f"no lists: {what} doesn't begin as what rooms dump prints")
