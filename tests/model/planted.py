"""Ten mistakes, each made in the room of this folder for a while. The program then differs from it,
which has to be seen: so a program with such a mistake would be seen as well."""
from __future__ import annotations

from collections.abc import Callable, Iterator
from contextlib import contextmanager
from dataclasses import dataclass
from typing import Any
from unittest import mock

import acl
import room
from acl import DOCUMENT, Entries, Entry
from messages import Reply


@dataclass(frozen=True)
class Mistake:
    owner: Any
    name: str
    made: Callable[..., Any]


def right(owner: Any, name: str) -> Callable[..., Any]:
    found: Callable[..., Any] = getattr(owner, name)
    return found


PASSED_ONE = right(acl, "passed_one")
RULING = right(acl, "ruling")
EVENTS = right(acl, "events")
FAULT = right(acl, "fault")
MATCHES = right(Entry, "matches")
MAKE = right(room.Asking, "make")
MAY_REMOVE = right(room.Asking, "may_remove")
MOVE = right(room.Asking, "move")
SET_LIST = right(room.Room, "set_list")
INHERITED = right(room.Node, "inherited")


def passes_n_on(kind: str, entry: Entry) -> Entry | None:
    found: Entry | None = PASSED_ONE(kind, entry.with_flags(entry.flags - {"n"}))
    return found


def counts_what_is_only_passed_on(entries: Entries, *rest: Any) -> Any:
    return RULING(tuple(one.with_flags(one.flags - {"i"}) for one in entries), *rest)


def records_what_is_granted_only(*given: Any) -> Any:
    return EVENTS(*given) if given[-1] else []


def takes_i_alone(entry: Entry, which: str, kind: str) -> Any:
    found = FAULT(entry, which, kind)
    return None if found == "A11" else found


def group_of_nobody(entry: Entry, caller: acl.Caller, owners: acl.Owners) -> bool:
    return MATCHES(entry, caller, owners) and entry.who != "GROUP@"


def makes_for_the_folders_owner(asking: room.Asking, kind: str, folder: room.Node, name: str
                                ) -> Any:
    node = MAKE(asking, kind, folder, name)
    node.owners = folder.owners
    return node


def removes_by_the_folder_first(asking: room.Asking, target: room.Node, folder: room.Node) -> None:
    by = acl.ruling(folder.full(acl.DACL), asking.caller, folder.owners, "D")
    if by.word == "denied":
        raise room.denied(folder, acl.Denial(frozenset("D"), by.place))
    MAY_REMOVE(asking, target, folder)


def moves_without_what_was_kept(asking: room.Asking, path: Any, to: Any) -> Reply:
    reply: Reply = MOVE(asking, path, to)
    node = asking.room.at(to)
    for which in (acl.DACL, acl.SACL):
        if node is not None:
            node.lists[which].kept = ()
    return reply


def forgets_what_followed(asked: room.Room, node: room.Node, request: Any) -> None:
    SET_LIST(asked, node, request)
    for one in node.children:
        if "p" not in one.lists[request.which].flags:
            one.lists[request.which].kept = ()


def follows_for_documents_alone(node: room.Node, which: str) -> Entries:
    found: Entries = INHERITED(node, which)
    deeper = node.parent is not None and node.parent.parent is not None
    return () if deeper and node.kind == DOCUMENT else found


MISTAKES = {
    "n passes on": Mistake(acl, "passed_one", passes_n_on),
    "i counts": Mistake(acl, "ruling", counts_what_is_only_passed_on),
    "no record of a denial": Mistake(acl, "events", records_what_is_granted_only),
    "i alone is taken": Mistake(acl, "fault", takes_i_alone),
    "GROUP@ is nobody": Mistake(Entry, "matches", group_of_nobody),
    "a new object is the folder's owner's": Mistake(
        room.Asking, "make", makes_for_the_folders_owner),
    "D of the folder before d": Mistake(room.Asking, "may_remove", removes_by_the_folder_first),
    "a move drops what was kept": Mistake(room.Asking, "move", moves_without_what_was_kept),
    "a list drops what followed": Mistake(room.Room, "set_list", forgets_what_followed),
    "documents below don't follow": Mistake(room.Node, "inherited", follows_for_documents_alone),
}


@contextmanager
def made(mistake: Mistake) -> Iterator[None]:
    with mock.patch.object(mistake.owner, mistake.name, mistake.made):
        yield
