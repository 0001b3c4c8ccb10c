"""Every case of three rules, one after the other: who may remove what, which entries are passed
down and count, and what comes of lists and moves in any order."""
from __future__ import annotations

from collections.abc import Iterator
from itertools import chain, combinations, permutations, product

from acl import DACL, DOCUMENT, FLAGS, FOLDER, MASK, SACL, Entries, Entry, fault
from messages import Path, Request
from room import MOST, Room
from steps import Ask, Members, Reset, Step

ALL = frozenset(MASK)
ROOT = Entry("A", frozenset("fd"), "root", ALL)
PASS = Entry("A", frozenset(), "EVERYONE@", frozenset("x"))


def lists(path: Path, which: str, flags: str, *entries: Entry) -> Request:
    return Request("SetList", path, which=which, flags=frozenset(flags), entries=entries)


def by_root(*requests: Request) -> Iterator[Step]:
    return (Ask("root", one) for one in requests)


def prepared() -> Iterator[Step]:
    yield Members(frozenset({("staff", "alice"), ("g", "bob")}))
    yield Reset(lists((), DACL, "a", PASS, ROOT))


RULED = {"allowed": "A", "denied": "D", "silent": ""}


def ruled(word: str, who: Entry, right: str) -> Entries:
    """An entry that has such a ruling come out for the right, and none where it is silent."""
    kind = RULED[word]
    return (Entry(kind, who.flags, who.who, frozenset(right)),) if kind else ()


def deletions(_: Room) -> Iterator[Step]:
    """Each ruling of d of the object, of D and w of its folder, for a document and a folder; by
    the owner, by somebody named, by a group and by nobody; with each form of records."""
    yield from prepared()
    callers = [("alice", Entry("A", frozenset(), "OWNER@", frozenset())),
               ("carol", Entry("A", frozenset(), "carol", frozenset())),
               ("bob", Entry("A", frozenset("g"), "g", frozenset())),
               (None, Entry("A", frozenset(), "ANONYMOUS@", frozenset()))]
    cases = product(product(RULED, repeat=3), (DOCUMENT, FOLDER), callers, ("", "S", "F", "SF"))
    for number, (rulings, kind, (user, who), records) in enumerate(cases):
        folder: Path = (f"d{number}",)
        target = (*folder, "t")
        of_target, of_folder, adding = (
            ruled(word, who, right) for word, right in zip(rulings, "dDw"))
        record = Entry("U", frozenset(records), "EVERYONE@", ALL)
        alarm = Entry("L", who.flags | set(records), who.who, frozenset("dDwx"))
        yield from by_root(
            Request("MakeFolder", folder),
            Request("MakeFolder" if kind == FOLDER else "Put", target),
            Request("SetOwners", target, owner="alice", group="staff"),
            Request("SetOwners", folder, owner="alice", group="staff"),
            lists(target, SACL, "p", alarm, record),
            lists(target, DACL, "p", *of_target),
            lists(folder, SACL, "p", record, alarm),
            lists(folder, DACL, "p", *of_folder, *adding, PASS))
        yield Ask(user, Request("Remove", target))


def inheritance(_: Room) -> Iterator[Step]:
    """An entry with each set of flags, above folders and documents three deep, in both lists."""
    yield from prepared()
    sets = chain.from_iterable(combinations(FLAGS, size) for size in range(len(FLAGS) + 1))
    for number, flags in enumerate(sets):
        top: Path = (f"f{number}",)
        below: list[Path] = [(*top, "f"), (*top, "d"), (*top, "f", "f"), (*top, "f", "d")]
        for which, kind in ((DACL, "D"), (SACL, "L")):
            entry = Entry(kind, frozenset(flags), "EVERYONE@", frozenset("rd"))
            above = [ROOT, Entry("A", frozenset("fd"), "EVERYONE@", frozenset("x"))]
            yield from by_root(Request("MakeFolder", top),
                               lists(top, which, "a", *above[:2 * (which == DACL)], entry))
            if fault(entry, which, FOLDER):
                continue
            yield from by_root(
                Request("MakeFolder", below[0]), Request("Put", below[1]),
                Request("MakeFolder", below[2]), Request("Put", below[3]))
            for path in (top, *below):
                word = "List" if path[-1] == "f" or path == top else "Read"
                yield from by_root(Request("ReadList", path, which=which), Request(word, path))
                yield Ask("bob", Request("Can", path, rights="rdw"))
                yield Ask("bob", Request("Remove", path))


def linking(_: Room) -> Iterator[Step]:
    """From each state of four flags, four changes in each order: the list of the folder and that
    of what is in it, the list of another folder, and a move there."""
    yield from prepared()
    for number, state in enumerate(product((False, True), repeat=4)):
        for turn, order in enumerate(permutations(range(4))):
            one: Path = (f"l{number}-{turn}",)
            other: Path = (f"m{number}-{turn}",)
            yield from by_root(
                Request("MakeFolder", one), Request("MakeFolder", other),
                Request("MakeFolder", (*one, "c")), Request("MakeFolder", (*one, "c", "g")),
                Request("Put", (*one, "c", "g", "d")))
            sets = [(one, "a"), ((*one, "c"), "p"), (other, "a"), ((*one, "c", "g"), "p")]
            for (path, flag), is_set in zip(sets, state):
                yield from by_root(listed(path, flag, is_set, "before"))
            at: Path = (*one, "c")
            for change in order:
                if change == 3:
                    at = (*other, "n")
                    yield from by_root(Request("Move", (*one, "c"), to=at))
                else:
                    path, flag = [sets[0], (at, "p"), sets[2]][change]
                    yield from by_root(listed(path, flag, not state[change], "after"))
                for path in (at, (*at, "g"), (*at, "g", "d")):
                    yield from by_root(Request("ReadList", path, which=DACL))


def listed(path: Path, flag: str, is_set: bool, user: str) -> Request:
    """A list with the flag or without it, that passes on what names the path and the moment."""
    flags = {"p": "ap" if is_set else "a", "a": "a" if is_set else ""}[flag]
    passes = Entry("A", frozenset("fd"), f"{user}.{path[-1]}", frozenset("r"))
    return lists(path, DACL, flags, ROOT, passes,
                 Entry("A", frozenset("fdI"), f"{user}.kept", frozenset("r")))


def largest(_: Room) -> Iterator[Step]:
    """A document grows to the most bytes that it may have, and not by one more."""
    yield from prepared()
    path: Path = ("big",)
    yield from by_root(
        Request("Put", path, "x" * MOST), Request("Append", path), Request("Append", path, "x"),
        Request("Put", path, "x"), Request("Append", path, "y" * MOST),
        Request("Append", path, "y" * (MOST - 1)), Request("Read", path))


EVERY = {"deletions": deletions, "inheritance": inheritance, "linking": linking,
         "largest": largest}
