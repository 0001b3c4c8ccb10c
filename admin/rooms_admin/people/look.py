"""What a room has at this moment, also while its server runs: then the program reads a private
copy, for which requests wait a moment, and nobody is refused."""
import os
import tempfile
from collections.abc import Callable, Iterator
from contextlib import contextmanager
from functools import partial

from ..host import tempdirs
from ..room import private_server, program, server
from ..backup import copying
from ..lists import dump
from ..lists.dump import Object, Pair
from . import members
from ..cli.report import Interrupted, Stop, say
from ..room.held import NotHeld
from ..room.settings import Room


class Lists:
    """What `rooms dump` prints, in a file without a name: no more of it is in memory than is read
    at once, however much a room has."""

    def __init__(self) -> None:
        self.file = tempfile.TemporaryFile(dir=tempdirs.place())

    @property
    def number(self) -> int:
        return self.file.fileno()

    def rows(self) -> Iterator[Object | Pair]:
        """All of them, one time after the other."""
        self.file.seek(0)
        return dump.rows(self.file)

    def objects(self) -> Iterator[Object]:
        return (one for one in self.rows() if isinstance(one, Object))


@contextmanager
def no_lists() -> Iterator[Lists]:
    """Yet."""
    found = Lists()
    with found.file:
        yield found


@contextmanager
def copied(room: Room) -> Iterator[str]:
    """The room as it is, in a folder of this run's own."""
    with private_server.own_folder(room) as made:
        copying.keep(room, copying.copy(room, made), made)
        private_server.give(room, made)
        yield os.path.join(made, room.base)


def _into(word: str, lists: Lists | None) -> int | None:
    """Where what a subcommand prints goes, if it isn't returned."""
    return lists.number if lists and word == "dump" else None


def on(room: Room, copy: str, lists: Lists | None, word: str) -> bytes:
    """What a subcommand prints of that copy; nothing of a dump, which is in `lists`."""
    return members.done(word, *program.on_copy(room, copy, [word], program.enough(room, copy),
                                               _into(word, lists)))


def at_rest(room: Room, lists: Lists | None, word: str) -> bytes:
    """The same of the room, while no server runs."""
    return members.printed(room, word, 0, _into(word, lists))


def _tried(read: Callable[[], bytes]) -> bytes | Stop:
    try:
        return read()
    except Interrupted:
        raise
    except Stop as fault:
        return fault


def _rested(room: Room, words: tuple[str, ...], lists: Lists | None) -> list[bytes | Stop]:
    with server.at_rest(room):
        return [_tried(partial(at_rest, room, lists, word)) for word in words]


def tried(room: Room, *words: str, lists: Lists | None = None, may_stop: bool = True
          ) -> list[bytes | Stop]:
    """What each of these subcommands prints of it, or why one doesn't, which keeps no other from
    it; for whoever has the room's lock. A server that can't be held, since it hangs or its room is
    too large, is stopped, if it may be."""
    if server.settled(room) != "active" or server.was_left(room):
        return _rested(room, words, lists)
    try:
        with copied(room) as copy:
            return [_tried(partial(on, room, copy, lists, word)) for word in words]
    except NotHeld as why:
        if not may_stop:
            raise Stop(f"no look: {why}") from why
        say(f"stopped for a look: {why}")
        return _rested(room, words, lists)


def got(found: bytes | Stop) -> bytes:
    if isinstance(found, Stop):
        raise found
    return found


def at(room: Room, *words: str, may_stop: bool = True) -> list[bytes]:
    """The same where each of them is needed."""
    return [got(one) for one in tried(room, *words, may_stop=may_stop)]


@contextmanager
def lists_of(room: Room, may_stop: bool = True) -> Iterator[Lists]:
    with no_lists() as found:
        got(tried(room, "dump", lists=found, may_stop=may_stop)[0])
        yield found
