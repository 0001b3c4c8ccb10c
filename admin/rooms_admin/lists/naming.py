"""What in a room names a user: the groups that they are in, what they own, what is called as they
are, and entries of lists, dates too; or a group: who is in it, what belongs to it, and entries.
What a list inherits goes with the list of the folder above, so it is left out; what it keeps,
though it follows no folder any more, isn't."""
import re
from collections.abc import Iterable, Iterator
from dataclasses import dataclass, field

from ..room import in_parts
from . import end_dates
from .dump import LISTS, Object, Pair, as_text
from .entries import entry, is_inherited


def above(path: bytes) -> bytes:
    """The folder that has it, and that of the root is the root."""
    return path.rpartition(b"/")[0] or b"/"


class Links:
    """Which lists follow that of the folder above, of objects that come after their folders: the
    root comes first."""

    def __init__(self) -> None:
        self._passing: dict[bytes, tuple[str, ...]] = {}

    def passed(self, path: bytes) -> tuple[str, ...]:
        """Which lists the folder above passes down."""
        return self._passing.get(above(path), ())

    def of(self, one: Object) -> tuple[str, ...]:
        passing = self.passed(one.path)
        flags = {which: one.list_of(which)[:1] or [b""] for which in LISTS}
        if one.kind == "folder":
            self._passing[one.path] = tuple(it for it in LISTS if b"a" in flags[it][0][5:])
        return tuple(it for it in passing if b"p" not in flags[it][0][5:])


@dataclass
class Found:
    """An object or a pair, and the entries of its lists that do it."""
    what: Object | Pair
    dacl: list[bytes] = field(default_factory=list)
    sacl: list[bytes] = field(default_factory=list)

    def lines(self) -> list[str]:
        if not isinstance(self.what, Object):
            return [as_text(" ".join(("member", *self.what)).encode())]
        return [self.what.line(), *map(as_text, [*self.dacl, *self.sacl])]


class _User:
    is_group = False

    def __init__(self, name: str) -> None:
        self.name = name
        forms = {name, end_dates.in_name(name), end_dates.in_domain(name)}
        self.forms = re.compile("|".join(map(re.escape, sorted(forms))).encode())
        self.word = re.compile(rf"(?<!\w){re.escape(name)}(?!\w)")

    def is_in(self, pair: Pair) -> bool:
        return pair[1] == self.name

    def has(self, one: Object) -> bool:
        last = one.path.rpartition(b"/")[2].decode("utf-8", "replace")
        return one.owner == self.name or self.word.search(last) is not None

    def asked_for(self, date: end_dates.Ending) -> bool:
        return date.asker == self.name

    def entries(self, lines: list[bytes]) -> list[bytes]:
        """Most lists have none."""
        return ([line for line in lines if self.stands_in(line)]
                if self.forms.search(b"\n".join(lines)) else [])

    def stands_in(self, line: bytes) -> bool:
        if not self.forms.search(line):
            return False
        text = line.decode("ascii", "replace")
        found = entry(text)
        if found is None or found.of(self.name, self.is_group):
            return found is not None
        date = end_dates.ending(text)
        return date is not None and (self.asked_for(date) or (
            date.who == self.name and date.group == self.is_group))


class _Group(_User):
    is_group = True

    def is_in(self, pair: Pair) -> bool:
        return pair[0] == self.name

    def has(self, one: Object) -> bool:
        return one.group == self.name

    def asked_for(self, date: end_dates.Ending) -> bool:
        return False


def of_user(rows: Iterable[Object | Pair], name: str) -> Iterator[Found]:
    return _of(rows, _User(name))


def of_group(rows: Iterable[Object | Pair], name: str) -> Iterator[Found]:
    return _of(rows, _Group(name))


def _of(rows: Iterable[Object | Pair], named: _User) -> Iterator[Found]:
    links = Links()
    for one in rows:
        if not isinstance(one, Object):
            if named.is_in(one):
                yield Found(one)
            continue
        linked = links.of(one)
        entries = {which: [line for line in named.entries(one.list_of(which)[1:])
                           if not (which in linked and is_inherited(line))] for which in LISTS}
        if named.has(one) or any(entries.values()):
            yield Found(one, **entries)


def _whole_of(path: bytes) -> bytes:
    """The document whose part this would be by its name, if that has the form of a part's."""
    folder, _, name = path.rpartition(b"/")
    whole = in_parts.whole_of(name.decode("utf-8", "surrogateescape"))
    return folder + b"/" + whole.encode("utf-8", "surrogateescape") if whole else b""


def without_parts(found: Iterable[Found]) -> list[Found]:
    """A large document stands for its parts, which are named as it is, as far as they are."""
    rows = list(found)
    there = {one.what.path: one for one in rows if isinstance(one.what, Object)}

    def is_told(one: Found) -> bool:
        if not isinstance(one.what, Object):
            return False
        whole = there.get(_whole_of(one.what.path))
        return whole is not None and isinstance(whole.what, Object) and (
            (whole.what.owner, whole.what.group, whole.dacl, whole.sacl)
            == (one.what.owner, one.what.group, one.dacl, one.sacl))
    return [one for one in rows if not is_told(one)]
