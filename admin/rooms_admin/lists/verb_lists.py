"""Prints the list of the object PATH as it was last night, in the form that `rooms reset` reads:
its dacl, or with --sacl the list that asks for records. With --below it prints that list of each
object at PATH and below, behind the object's line, if it isn't only what the folder above passes
down.

With --user it prints what names a user: groups, what belongs to them, objects called as they are,
and the entries of lists, each below its object. With --group it prints the same of a group: who is
in it, what belongs to it, and entries. What a list inherits goes with the list of the folder above,
and isn't printed, nor are the parts of a large document that are as it is. With --longest it prints
how many entries the longest list has, and its object.

With --json it is a list of objects with the names 'kind', 'path', 'owner', 'group', and 'dacl' or
'sacl' with the lines of that list. A user in a group is one of the kind 'member', with 'group' and
'user'."""
import argparse
from collections.abc import Iterable, Iterator

from ..cli import report, words
from ..backup import texts
from . import asked, dump, entries, naming
from ..cli.report import Refused, say
from .dump import LISTS, Object, Pair, as_text

Rows = Iterable[Object | Pair]


def at(rows: Rows, path: bytes, below: str) -> Iterator[Object]:
    """The object; with the name of a list also those below it that have one of their own."""
    base, links = path.rstrip(b"/") + b"/", naming.Links()
    for one in rows:
        if not isinstance(one, Object):
            break
        linked = below in links.of(one)
        if one.path == path:
            yield one
            if not below:
                break
        elif below and one.path.startswith(base) and not (
                linked and all(map(entries.is_inherited, one.list_of(below)[1:]))):
            yield one


def longest(rows: Rows) -> tuple[Object, str]:
    """The first one that has the most entries."""
    most, found = -1, (Object("", "", "", b""), LISTS[0])
    for one in rows:
        for which in LISTS if isinstance(one, Object) else ():
            if isinstance(one, Object) and len(one.list_of(which)) > most:
                most, found = len(one.list_of(which)), (one, which)
    return found


def _fields(one: Object | Pair, **lists: list[bytes]) -> dict[str, object]:
    if not isinstance(one, Object):
        return {"kind": "member", "group": one[0], "user": one[1]}
    return {"kind": one.kind, "path": one.path.decode("utf-8", "surrogateescape"),
            "owner": one.owner, "group": one.group,
            **{which: list(map(as_text, lines)) for which, lines in lists.items()}}


def _of_path(given: argparse.Namespace, rows: Rows, folder: str) -> None:
    path, which = asked.path(given.path), LISTS[given.sacl]
    found = at(rows, path, which if given.below else "")
    first = next(found, None)
    if first is None:
        raise asked.none_at(path, folder)
    if given.json:
        report.put_rows([_fields(one, **{which: one.list_of(which)}) for one in [first, *found]])
    elif not given.below:
        print("\n".join(map(as_text, first.list_of(which))))
    else:
        for one in (first, *found):
            print("\n".join([one.line(), which, *map(as_text, one.list_of(which))]))


def _of_name(given: argparse.Namespace, rows: Rows, folder: str) -> None:
    found = list(naming.of_user(rows, given.user) if given.user
                 else naming.of_group(rows, given.group))
    if not found:
        whose = given.user or f"the group {given.group}"
        say(f"nothing of {whose} is in the backup {folder}")
    if given.json:
        report.put_rows([_fields(one.what, dacl=one.dacl, sacl=one.sacl) for one in found])
        return
    for one in naming.without_parts(found):
        print("\n".join(one.lines()))


def _of_longest(given: argparse.Namespace, rows: Rows) -> None:
    one, which = longest(rows)
    if given.json:
        report.put_rows([_fields(one, **{which: one.list_of(which)})])
    else:
        print(f"{len(one.list_of(which)) - 1} entries in the {which} of {one.line()}")


def arguments(parser: words.Parser) -> None:
    parser.forms = [f"{form} [--backup BACKUP] [--room ROOM] [--json]"
                    for form in ("PATH [--sacl] [--below]", "--user NAME", "--group NAME",
                                 "--longest")]
    words.word(parser, "path", "[PATH]", asked.PATH)
    words.flag(parser, "--sacl", "the list that asks for records")
    words.flag(parser, "--below", "the lists of what is below too, where they are its own")
    words.option(parser, "--user", "NAME", "what names this user")
    words.option(parser, "--group", "NAME", "what names this group")
    words.flag(parser, "--longest", "which list has the most entries")
    asked.arguments(parser)


def _look_at(given: argparse.Namespace) -> None:
    if list(map(bool, (given.path, given.user, given.group, given.longest))).count(True) != 1:
        raise Refused("bad arguments: PATH, --user NAME, --group NAME or --longest, and one of "
                      "them")
    if not given.path and (given.sacl or given.below):
        raise Refused("bad arguments: --sacl and --below are of PATH")
    if given.user:
        asked.name(given.user)
    elif given.group:
        asked.name(given.group, "group")
    elif given.path:
        asked.path(given.path)


def run(given: argparse.Namespace) -> int:
    _look_at(given)
    room, folder = asked.backup(given)
    with texts.beside(room, folder, texts.LISTS) as source:
        rows = dump.whole(source, texts.LISTS)
        if given.path:
            _of_path(given, rows, folder)
        elif given.longest:
            _of_longest(given, rows)
        else:
            _of_name(given, rows, folder)
    return 0
