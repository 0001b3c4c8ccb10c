"""Who could do more, or less, by a change: a question made of a night's lists, and the answer of
`rooms would` (docs/would.md), which decides."""
import io
import re
from collections.abc import Iterable, Iterator, Sequence
from dataclasses import dataclass
from typing import NamedTuple

from ..backup import texts
from ..cli import report
from ..cli.report import Refused, Stop
from ..room import names, program
from ..room.settings import Room
from . import entries, naming
from .callers import CALLED, decoded, encoded
from .dump import Object, Pair
from .review import is_caller

_HEADER = "path,kind,user,rights,remove,then,then_remove"
_BAD = "the answer can't be read"
_REFUSED = re.compile(r"refused: line ([0-9]+): (.+)\n")
# What a question has for a line of a list. Others have the fault of one of these two, A1 or A5.
_OF_A_LIST = re.compile(rb"list:|.:", re.DOTALL)
_BAD_TYPE, _NOT_FOUR = b":::", b"A:"
_WIDEST = 60


class Outcome(NamedTuple):
    """What a caller may do at an object, and then."""
    path: str
    kind: str
    user: str
    rights: str
    remove: bool
    then: str
    then_remove: bool

    @property
    def is_same(self) -> bool:
        return (self.rights, self.remove) == (self.then, self.then_remove)


@dataclass(frozen=True)
class Question:
    """What there is, and the change, by their lines. A document stands for those beside it of the
    same owner and group whose lists say nothing of their own, as its own does: `alike` has them by
    its path. All are where they are then."""
    there: list[bytes]
    change: list[bytes]
    alike: dict[str, list[str]]

    def text(self) -> bytes:
        return b"".join(line + b"\n" for line in self.there + self.change)

    def refused(self, line: int, why: str) -> Stop:
        """A line of a change is told as one of the list that it sets."""
        if line <= len(self.there):
            return Stop(f"no answer: refused: line {line}: {why}")
        within = line - len(self.there) - 1
        return Refused(f"refused: line {within}: {why}" if within and why[0] == "A"
                       else f"refused: {why}")


def set_list(path: bytes, text: bytes) -> list[bytes]:
    """Each line keeps its number."""
    lines = (line.removesuffix(b"\r") for line in text.removesuffix(b"\n").split(b"\n"))
    return [b"set " + path, *map(_line_of_list, lines)]


def _line_of_list(line: bytes) -> bytes:
    if not line.strip(b" \t") or line.startswith(b"#"):
        return b"#:"
    if _OF_A_LIST.match(line):
        return line
    return _BAD_TYPE if line.count(b":") == 3 else _NOT_FOUR


def moved(path: bytes, to: bytes) -> list[bytes]:
    return [b"move " + path, b"to " + to]


class _Objects:
    """Of those that a change is about: the object, what is below it, and what is on the way to it,
    and to where it is moved."""

    def __init__(self, path: bytes, to: bytes) -> None:
        self._path, self._to = path, to
        self._ways = {*_way(path), *_way(to)}
        self._base = path.rstrip(b"/") + b"/"
        self._links = naming.Links()
        self._stands: dict[tuple[bytes, str, str], list[str]] = {}
        self.lines: list[bytes] = []
        self.alike: dict[str, list[str]] = {}
        self.is_there = False

    def add(self, one: Object) -> None:
        follows = "dacl" in self._links.of(one) and all(
            map(entries.is_inherited, one.dacl[1:]))
        is_below = one.path.startswith(self._base)
        if not is_below and one.path not in self._ways:
            return
        self.is_there = self.is_there or one.path == self._path
        is_document = one.kind == "document"
        if follows and is_document and one.path not in self._ways:
            place = decoded(self._to + one.path[len(self._path):])
            key = (naming.above(one.path), one.owner, one.group)
            if (others := self._stands.get(key)) is not None:
                others.append(place)
                return
            self._stands[key] = self.alike[place] = []
        is_short = follows and (is_document or b"a" in one.dacl[0][5:])
        self.lines += [f"{one.kind} {one.owner} {one.group} ".encode() + one.path,
                       *([b"follows"] if is_short else one.dacl)]


def question(rows: Iterable[Object | Pair], path: bytes, to: bytes, change: list[bytes]
             ) -> Question | None:
    """None without the object."""
    members: list[bytes] = []
    objects = _Objects(path, to)
    for one in rows:
        if isinstance(one, Object):
            objects.add(one)
        else:
            members.append(f"member {one[0]} {one[1]}".encode())
    return Question(members + objects.lines, change, objects.alike) if objects.is_there else None


def _way(path: bytes) -> Iterator[bytes]:
    yield path
    while path != b"/":
        path = naming.above(path)
        yield path


def answered(room: Room, asked: Question) -> list[Outcome]:
    """The first is of the first object. Nothing of the room is needed."""
    status, out, said = program.on_text(room, "would", asked.text())
    text = out.decode("utf-8", "surrogateescape")
    if status == 2 and (found := _REFUSED.fullmatch(text)):
        raise asked.refused(int(found[1]), found[2])
    if status != 0:
        raise Stop(f"no answer: {said or text.strip()[:300] or f'status {status}'}")
    return outcomes_of(asked, text)


def outcomes_of(asked: Question, text: str) -> list[Outcome]:
    """Those of an answer, in order of name, also of what wasn't asked since it is alike."""
    found = list(_outcomes(io.StringIO(text, newline="")))
    found += [one._replace(path=place) for one in found for place in asked.alike.get(one.path, ())]
    return sorted(found, key=lambda one: encoded(one.path).rstrip(b"/").split(b"/"))


def _outcomes(lines: Iterable[str]) -> Iterator[Outcome]:
    for path, kind, user, rights, remove, then, then_remove in texts.fields(
            lines, _HEADER, "the answer"):
        if kind not in ("folder", "document") or not {remove, then_remove} <= {"yes", "no"} \
                or not set(rights + then) <= names.RIGHTS or not is_caller(user):
            raise Stop(f"{_BAD}: {[kind, user, rights, remove, then, then_remove]!a}")
        yield Outcome(names.path_in(path, _BAD), kind, user, rights, remove == "yes", then,
                      then_remove == "yes")


def table(outcomes: Sequence[Outcome]) -> list[str]:
    """At the first object those for whom something changes. Further down all of them: each says
    something else than the one above it."""
    cells = [(names.shown(encoded(one.path)), CALLED.get(one.user, report.line(one.user)),
              _may(one.rights, one.remove),
              "the same" if one.is_same else _may(one.then, one.then_remove))
             for one in outcomes if not (one.is_same and one.path == outcomes[0].path)]
    if not cells:
        return ["nobody gains or loses anything"]
    cells.insert(0, ("path", "who", "before", "then"))
    widths = [min(_WIDEST, max(map(len, column))) for column in list(zip(*cells))[:3]]
    return ["  ".join([*(cell.ljust(width) for cell, width in zip(row, widths)), row[3]])
            for row in cells]


def _may(rights: str, remove: bool) -> str:
    return ", ".join([*([rights] if rights else []), *(["remove"] if remove else [])]) or "nothing"
