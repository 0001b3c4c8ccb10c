"""What a private copy of a room has, for the door beside it (services/rooms_services/door/changes,
nights): python3 -IB objects_of_copy.py COPY MOMENT [-]

It runs as the user of copies, by nobody else, since the file may be anything. It prints the moment,
and that at which it looks; a line [number, number of the folder, name, length, sum] for each object
below the root, a folder before what is in it; and how many there are. A folder has neither length
nor sum; the sum is the first bytes of the SHA-256. Levels are gone through one by one: what moved
may have a smaller number than its folder.

With - there is on standard input what dates_of_door.py printed. If that knows when an object of the
same length changed, no later than the moment, its line has that too."""
import contextlib
import hashlib
import json
import signal
import sqlite3
import sys
import time
from collections.abc import Iterable, Iterator

# Bytes of a sum; and seconds, after which a file that was made to take long ends.
SUM, SECONDS = 8, 1800


def objects(room: sqlite3.Connection) -> Iterator[tuple[int, int, str, bool]]:
    """Number, number of the folder, name, and whether it is a folder."""
    roots = [row[0] for row in room.execute("SELECT id FROM nodes WHERE parent IS NULL")]
    level = [(one, 0) for one in roots[:1]]
    while level:
        below = []
        for folder, shown in level:
            for number, name, is_folder in room.execute(
                    "SELECT id, name, kind FROM nodes WHERE parent = ?", (folder,)).fetchall():
                if is_folder:
                    below.append((number, number))
                yield number, shown, name, bool(is_folder)
        level = below


def body(room: sqlite3.Connection, number: int) -> bytes:
    row = room.execute("SELECT bytes FROM bodies WHERE node = ?", (number,)).fetchone()
    return bytes(row[0]) if row else b""


def _measured(room: sqlite3.Connection, number: int) -> tuple[int, str]:
    data = body(room, number)
    return len(data), hashlib.sha256(data).hexdigest()[:2 * SUM]


def _known(lines: Iterable[str], until: int) -> dict[str, tuple[int, int | None]]:
    """By path, when it changed, and its length then. A line that isn't one says nothing."""
    found = {}
    for line in lines:
        with contextlib.suppress(ValueError, TypeError, RecursionError):
            path, at, length = json.loads(line)
            if isinstance(path, str) and isinstance(at, int) and 0 < at <= until:
                found[path] = at, length
    return found


def main() -> None:
    signal.alarm(SECONDS)
    count, places = 0, {0: ""}
    known = _known(sys.stdin, int(sys.argv[2])) if sys.argv[3:] else {}
    with contextlib.closing(sqlite3.connect(sys.argv[1])) as room:
        # What the file says of its own tables runs no function of SQLite's.
        room.execute("PRAGMA trusted_schema = OFF")
        print(int(sys.argv[2]), int(time.time() * 1000))
        for number, folder, name, is_folder in objects(room):
            count += 1
            measured = (None, None) if is_folder else _measured(room, number)
            place = f"{places[folder]}/{name}"
            if is_folder:
                places[number] = place
            at, length = known.get(place[1:], (None, None))
            more = () if at is None or length != measured[0] else (at,)
            print(json.dumps((number, folder, name, *measured, *more)))
    print(count)


if __name__ == "__main__":
    main()
