"""The records of a backup, read, and those that are asked for."""
from collections.abc import Iterable, Iterator
from dataclasses import dataclass

from ..cli import report
from ..room import names, published
from ..backup import texts
from ..cli.report import Stop

_HEADER = "at,user,path,bits,granted,entry,kind"
_BAD = "the records can't be read"


@dataclass
class Record:
    at: int
    user: str
    path: str
    bits: str
    granted: bool
    entry: int
    kind: str

    def text(self) -> str:
        try:
            when = published.moment(self.at)
        except (OverflowError, ValueError, OSError):
            # Of a clock that was never so.
            when = str(self.at)
        user = report.line(self.user) or "no name"
        path = names.shown(self.path.encode("utf-8", "surrogateescape"))
        answer = "granted" if self.granted else "denied"
        return (f"{when}  {user}  {report.line(self.bits)}  {answer}  {path}  {self.kind} by "
                f"entry {self.entry}")


def records(lines: Iterable[str]) -> Iterator[Record]:
    for at, user, path, bits, granted, entry, kind in texts.fields(lines, _HEADER, "the records"):
        try:
            if (granted not in ("yes", "no") or kind not in ("audit", "alarm")
                    or not set(bits) <= names.RIGHTS):
                raise ValueError(f"{granted[:80]!a}, {kind[:80]!a} and {bits[:80]!a}")
            if user:
                names.user_in(user, _BAD)
            yield Record(int(at), user, names.path_in(path, _BAD), bits, granted == "yes",
                         int(entry), kind)
        except ValueError as fault:
            raise Stop(f"the records can't be read: one says {fault}") from fault


def wanted(found: Iterable[Record], user: str, path: str) -> Iterator[Record]:
    base = path.rstrip("/") + "/"
    for one in found:
        if (not user or one.user == user) and (
                not path or one.path == path or one.path.startswith(base)):
            yield one
