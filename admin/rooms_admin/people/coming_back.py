"""What a backup brings back of rights, once it is in a room's place: who is in groups, which is
told, and accesses that are over, which are taken out of the private copy before anybody gets in."""
import tempfile
from collections.abc import Iterable, Iterator

from ..backup import restoring
from ..cli.report import Interrupted, Stop, say
from ..host import tempdirs, waiting
from ..lists import dump
from ..lists.dump import Pair
from ..room import private_server, program
from ..room.settings import Room
from . import ended, joining, known

_STAYS = "groups, and accesses with a last day, are those of the backup"


class _OfCopy(ended.Run):
    def __init__(self, room: Room, dry: bool, copied: str) -> None:
        super().__init__(room, dry, ended.last_day(room))
        self.copied = copied

    def reset(self, path: bytes, text: bytes) -> str:
        return private_server.set_list(self.room, self.copied, path, text)

    def take_all(self, found: list[ended.Due]) -> None:
        """Of a room that nobody asks."""
        if self.dry:
            super().take_all(found)
        else:
            self.set_all(found)


class ComingBack:
    def __init__(self, room: Room, dry: bool) -> None:
        self.room = room
        self.dry = dry
        # What is there by now is asked for before another file is in its place.
        self.last = known.kept(room)
        self.lines: list[str] = []

    def look(self, taken: restoring.Taken) -> None:
        """At what was verified. What hinders this hinders no restore, and is told."""
        try:
            with tempfile.TemporaryFile(dir=tempdirs.place()) as lists:
                status, _, why = program.on_copy(
                    self.room, taken.copied, ["dump"], program.enough(self.room, taken.copied),
                    lists.fileno())
                if status != 0:
                    raise Stop(f"dump of the copy failed, status {status}: {why}")
                lists.seek(0)
                self._look_at(lists, taken)
        except Interrupted:
            raise
        except (OSError, Stop, waiting.Hangs) as fault:
            say(f"{fault}: {_STAYS}")

    def _look_at(self, lists: Iterable[bytes], taken: restoring.Taken) -> None:
        members: set[Pair] = set()

        def objects() -> Iterator[dump.Object]:
            for one in dump.rows(lists):
                if isinstance(one, dump.Object):
                    yield one
                else:
                    members.add(one)
        task = _OfCopy(self.room, self.dry, taken.copied)
        task.all(objects())
        self.lines += task.done
        task.say()
        if self.last:
            change = joining.asked(self.last.members, members, self.last.members - members)
            if not change.is_none:
                would = "would: " if self.dry else ""
                self.lines += [f"{would}groups are those of the backup:", *change.lines()]

    def tell(self) -> None:
        """Of the room that is there by now."""
        for line in self.lines:
            print(line)
