"""One list of a room, as it is now and as root sets it: no right is asked for, as by 'rooms reset',
and no record says that it was set.

set reads the text of the list from standard input, tries it on a private copy, and prints each line
that comes (+) or goes (-). Only then the server stops, for a moment; if somebody has changed the
list meanwhile, it stays as they set it. What a list inherits comes with the list of the folder
above, and isn't set here. Names in new lines that nobody has, which are most often mistyped, are
said."""
import argparse
import difflib
import os
from dataclasses import dataclass

from ..cli import report, words
from ..room import in_parts, names, private_server, program, server, settings
from . import dump, naming, strangers
from ..people import joining, look
from . import asked
from ..cli.report import Refused, Stop, say
from ..room.settings import Room
from .entries import is_inherited


def arguments(parser: words.Parser) -> None:
    words.room(parser)
    shown, set_ = parser.has_parts("what", {"show": "the list of an object, as it is now",
                                            "set": "the list of an object, by standard input"})
    for part in (shown, set_):
        words.word(part, "path", "PATH", asked.PATH)
        words.flag(part, "--sacl", "the list of what is recorded, and not that of rights")
        words.room(part)
    words.dry_run(set_, "which lines would come and go")


@dataclass(frozen=True)
class _List:
    """That of an object; its lines that don't come from the folder above; whether that folder
    passes its list down, and whether that gets here."""
    lines: list[str]
    own: list[str]
    is_passed: bool
    is_linked: bool

    def sent(self, text: bytes) -> tuple[list[str], list[str]]:
        """What would be the own lines, and how those that the room ignores, since they come from
        above, differ from what does."""
        lines = [one for one in text.split(b"\n") if one.strip(b" \t") and not one.startswith(b"#")]
        if not self.is_passed or not lines or b"p" in lines[0].removeprefix(b"list:"):
            return [*map(dump.as_text, lines)], []
        own = [dump.as_text(one) for one in lines if not is_inherited(one)]
        ignored = [dump.as_text(one) for one in lines if is_inherited(one)]
        if not ignored or not self.is_linked:
            return own, []
        there = [one for one in self.lines if one not in self.own]
        return own, [*(f"+ {one}" for one in ignored if one not in there),
                     *(f"- {one}" for one in there if one not in ignored)]


def _whole(lists: look.Lists, path: bytes, which: str) -> _List:
    links = naming.Links()
    for one in lists.objects():
        passed = links.passed(one.path)
        linked = links.of(one)
        if one.path == path:
            found = one.list_of(which)
            # What it inherits comes anew.
            own = [line for line in found if not (which in linked and is_inherited(line))]
            return _List([*map(dump.as_text, found)], [*map(dump.as_text, own)], which in passed,
                         which in linked)
    raise Refused(f"no object: {names.shown(path)} isn't in the room")


def _refuse_parts(lists: look.Lists, path: bytes) -> None:
    """Whoever could read a document in parts could read the rest of it by these."""
    above, _, name = path.rpartition(b"/")
    beside = [os.fsdecode(one.path[len(above) + 1:]) for one in lists.objects()
              if one.kind == "document" and one.path.rpartition(b"/")[0] == above]
    if os.fsdecode(name) in in_parts.hidden(beside).values():
        raise Refused(f"not set: {names.shown(path)} is kept in parts: who manages it sets the list"
                      " of all of them, in the web interface")


def _one(lists: look.Lists, path: bytes, which: str) -> _List:
    _refuse_parts(lists, path)
    return _whole(lists, path, which)


def _look(room: Room, path: bytes, which: str, text: bytes, lists: look.Lists, is_dry: bool
          ) -> _List:
    """The list before, once the other one was tried; and all of them in `lists`."""
    if server.settled(room) != "active" or server.was_left(room):
        look.got(look.tried(room, "dump", lists=lists, may_stop=not is_dry)[0])
        return _one(lists, path, which)
    with look.copied(room) as copy:
        look.on(room, copy, lists, "dump")
        before = _one(lists, path, which)
        if fault := private_server.set_list(room, copy, path, text, which):
            raise Refused(f"not set: {fault}")
        return before


def _now(room: Room, path: bytes, which: str) -> _List:
    """While no server runs."""
    with look.no_lists() as lists:
        look.at_rest(room, lists, "dump")
        return _one(lists, path, which)


def _set(room: Room, path: bytes, which: str, text: bytes, is_dry: bool) -> int:
    with look.no_lists() as lists:
        found = _look(room, path, which, text, lists, is_dry)
        before = found.own
        after, ignored = found.sent(text)
        new = set(after) - set(before)
        strange = list(strangers.told(room, lists.rows, new)) if new else []
    if ignored:
        say(f"not set: {', '.join(ignored)}: what has the flag I comes with the list of the folder "
            "above; list:ap closes this one to it")
    if before == after:
        print("nothing to change")
        return 1 if ignored else 0
    for line in list(difflib.unified_diff(before, after, lineterm="", n=0))[2:]:
        if line[0] != "@":
            print(f"{line[0]} {line[1:]}", flush=True)
    for said in strange:
        say(said)
    if is_dry:
        return 1 if ignored else 0
    with server.at_rest(room):
        if _now(room, path, which).own != before:
            raise Refused(f"changed meanwhile: somebody has set the list of {names.shown(path)}, "
                          "which stays")
        with report.signals_wait():
            status, out, said = program.run(room, ["reset", room.file, path, which], text)
            if status != 0:
                raise Stop(f"not set: {said or out.decode(errors='replace').strip()}")
            report.did("the list is set")
    print("done")
    return 1 if ignored else 0


def run(given: argparse.Namespace) -> int:
    path = asked.path(given.path)
    which = "sacl" if given.sacl else "dacl"
    text = b""
    if given.what == "set":
        report.nothing_yet()
        text = asked.list_text()
    os.umask(0o077)
    os.chdir("/")
    room = settings.room(given.room)
    with joining.locked(room):
        if given.what == "set":
            return _set(room, path, which, text, given.dry_run)
        with look.lists_of(room, may_stop=False) as lists:
            found = _whole(lists, path, which)
    print("".join(f"{line}\n" for line in found.lines), end="")
    return 0
