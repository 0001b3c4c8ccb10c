"""Prints who could do what with the object PATH last night: a line for each caller, with the
letters of their rights, 'remove' where they could remove it or move it away, and the entries that
say so. Who is in the groups that these name comes last. Whoever has no line could do as much as
'every other name'. With --below each caller has one, and others follow where somebody could do
something else further down, but for the parts of a large document that are as it is.

With --user it is all that one user could do at PATH and below: a line for the first, and for each
object where it is something else than in its folder. A name that nothing of the room names could do
as much as 'every other name'.

With --change it is who could change any of that: set a list (C) or an owner (o), or remove or move
something, at PATH or at a folder above. Nobody else could, alone or together.

With --json it is a list of objects with the names 'path', 'kind', 'user', 'rights', 'remove', 'by'
and 'groups'. 'user' is '*' for every other name and 'ANONYMOUS@' for a caller without one; 'by' has
objects with the names 'path' and 'entry'."""
import argparse
from collections.abc import Iterable

from ..cli import alike, report, words
from ..passwords import passwords
from ..backup import texts
from . import asked, callers, dump, review
from ..cli.report import Refused, say
from ..room.settings import Room
from .review import Place, Row


def arguments(parser: words.Parser) -> None:
    parser.forms = ["[--below | --change] [--backup BACKUP] [--room ROOM] [--json] PATH",
                    "--user NAME [--backup BACKUP] [--room ROOM] [--json] [PATH]"]
    words.word(parser, "path", "[PATH]", f"{asked.PATH}; with --user all of it without PATH")
    how = parser.add_mutually_exclusive_group()
    words.flag(how, "--below", "say it of what is below too")
    words.flag(how, "--change", "say who could change what others may do there")
    words.option(how, "--user", "NAME", "say all that this user could do there and below")
    asked.arguments(parser)


def _tell_unknown(room: Room, place: Place, name: str) -> None:
    """One that nobody has is most often another one, mistyped. Users whom a directory or sessions
    let in are known there alone."""
    has = (set(place.at[0]) - set(callers.CALLED)).union(
        *map(passwords.users, passwords.password_files(room.name)))
    if room.has_passwords and name not in has:
        say(f"nobody is called {name}{alike.meant(name, has)}")


def _rows(given: argparse.Namespace, room: Room, lines: Iterable[str], path: str) -> list[Row]:
    place = review.seen_at(review.rows(lines), path, given.below or bool(given.user))
    if given.user:
        _tell_unknown(room, place, given.user)
        return callers.of_user(place, path, given.user)
    if given.change:
        return list(callers.changing(place, path))
    return [*callers.at(place, path, not (given.below or given.json)), *place.below]


def run(given: argparse.Namespace) -> int:
    if not given.path and not given.user:
        raise Refused("bad arguments: PATH is missing, or --user NAME")
    here = asked.path(given.path or "/")
    if given.user:
        asked.name(given.user)
    room, folder = asked.backup(given)
    with texts.beside(room, folder, texts.REVIEW) as source:
        rows = _rows(given, room, texts.of_csv(source), callers.decoded(here))
    if not given.json:
        rows = review.without_parts(rows)
    wanted = {callers.encoded(it) for row in rows for it in (row.path, review.above(row.path))}
    with texts.beside(room, folder, texts.LISTS) as source:
        known = callers.known_of(dump.whole(source, texts.LISTS), {here, *wanted})
    if here not in known.objects:
        raise asked.none_at(here, folder)
    lines = (callers.Line(row._replace(kind=known.kind(callers.encoded(row.path))), known.of(
        callers.encoded(row.path), row.user, row.rights, row.remove)) for row in rows)
    if given.json:
        report.put_rows([line.fields() for line in lines])
        return 0
    named: set[str] = set()
    for line in lines:
        print(line.text(given.below or given.change or bool(given.user)))
        named.update(line.groups())
    for group in sorted(named):
        members = map(report.line, sorted(known.groups.get(group, ())))
        print(f"group {report.line(group)}: {', '.join(members)}")
    return 0
