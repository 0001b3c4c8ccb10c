"""Who could do what at a place, and by which entries: the lines of who."""
from collections.abc import Iterable, Iterator
from dataclasses import dataclass

from ..cli import report
from ..room import names
from . import reasons, review
from .dump import Object, Pair
from .reasons import Reason
from .review import ANONYMOUS, OTHERS, Place, Row

CALLED = {OTHERS: "every other name", ANONYMOUS: "a caller without a name"}


@dataclass
class Line:
    """What a caller could do at an object, and why."""
    row: Row
    reasons: list[Reason]

    def text(self, with_path: bool) -> str:
        row, here = self.row, encoded(self.row.path)
        by = [it.entry + ("" if it.path == here else f" of {names.shown(it.path)}")
              for it in self.reasons]
        parts = [names.shown(here)] if with_path else []
        parts += [CALLED.get(row.user, report.line(row.user)), report.line(row.rights)]
        parts += ["remove"] if row.remove else [] if row.rights else ["nothing"]
        return "  ".join(one for one in [*parts, f"by {', '.join(by)}" if by else ""] if one)

    def groups(self) -> list[str]:
        return sorted({it.group for it in self.reasons if it.group})

    def fields(self) -> dict[str, object]:
        row = self.row
        return {"path": row.path, "kind": row.kind, "user": row.user, "rights": row.rights,
                "remove": row.remove, "by": [{"path": decoded(it.path), "entry": it.entry}
                                             for it in self.reasons],
                "groups": self.groups()}


def encoded(path: str) -> bytes:
    return path.encode("utf-8", "surrogateescape")


def decoded(path: bytes) -> str:
    return path.decode("utf-8", "surrogateescape")


def at(place: Place, path: str, distinct: bool) -> Iterator[Row]:
    """Whoever could do as much as every other name gets no line, where lines are to differ."""
    rows = place.at[-1]
    others = rows.get(OTHERS)
    for row in rows.values():
        if not (distinct and others and row.user not in CALLED
                and (row.rights, row.remove) == (others.rights, others.remove)):
            yield row._replace(path=path)


def changing(place: Place, path: str) -> Iterator[Row]:
    for one, found in zip(review.way_to(path), place.at):
        for row in found.values():
            letters = "".join(it for it in row.rights if it in "Co")
            if letters or row.remove:
                yield row._replace(path=one, rights=letters)


def of_user(place: Place, path: str, user: str) -> list[Row]:
    """Whom the review names has a row at the root."""
    caller = user if user in place.at[0] else OTHERS
    here = [row._replace(path=path) for row in place.at[-1].values() if row.user == caller]
    return here + [row for row in place.below if row.user == caller]


def known_of(rows: Iterable[Object | Pair], wanted: set[bytes]) -> reasons.Reasons:
    """Those objects, and all groups."""
    objects: dict[bytes, Object] = {}
    groups: dict[str, set[str]] = {}
    for one in rows:
        if not isinstance(one, Object):
            groups.setdefault(one[0], set()).add(one[1])
        elif one.path in wanted:
            objects[one.path] = one
    return reasons.Reasons(objects, groups)
