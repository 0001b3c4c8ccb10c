"""When what is in a room changed, as the door beside it knows that, for its backup: python3 -IB
dates_of_door.py DATES

It runs as the door's user, by nobody else. It prints a line [path, moment, length] for each object
of which a change is known, a folder without length, and without the names of those who made it; and
how many there were."""
import contextlib
import json
import signal
import sqlite3
import sys
from urllib.parse import quote

# Seconds, after which a file that was made to take long ends.
SECONDS = 600
# Paths are made from the top down. In a file that somebody changed, one may lie below itself.
_DEEPEST = 4096
_ROWS = f"""
WITH RECURSIVE below(id, path, deep) AS (
  SELECT id, name, 1 FROM node WHERE up = 0 UNION ALL
  SELECT node.id, below.path || '/' || node.name, deep + 1 FROM node JOIN below
    ON node.up = below.id WHERE deep < {_DEEPEST})
SELECT path, at, size FROM below JOIN node USING(id) WHERE at IS NOT NULL
"""


def _opened(file: str) -> sqlite3.Connection:
    """Beside a door that writes it. One that rests has left nothing beside it."""
    fault: sqlite3.Error | None = None
    for how in ("mode=ro", "mode=ro&immutable=1"):
        try:
            known = sqlite3.connect(f"file:{quote(file)}?{how}", uri=True)
            known.execute("PRAGMA trusted_schema = OFF")
            known.execute("SELECT count(*) FROM node").fetchone()
            return known
        except sqlite3.Error as why:
            fault = why
    raise SystemExit(f"{file} can't be read: {fault}")


def main() -> None:
    signal.alarm(SECONDS)
    count = 0
    with contextlib.closing(_opened(sys.argv[1])) as known:
        for row in known.execute(_ROWS):
            count += 1
            print(json.dumps(row))
    print(count)


if __name__ == "__main__":
    main()
