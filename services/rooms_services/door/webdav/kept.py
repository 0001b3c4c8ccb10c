"""What the door keeps in a file of its own, by SQLite: locks, and what it is in the middle
of. It outlasts a door that is killed, and no restart of the machine."""
import os
import sqlite3
import threading
from collections.abc import Iterator
from contextlib import contextmanager

from ..changes.tables import need_own

_TABLES = """
create table if not exists lock (token text primary key, user text, path text, deep integer,
  shared integer, owner text, seconds integer, until real, pending integer, refused integer,
  passing integer);
create index if not exists lock_path on lock (path);
create index if not exists lock_user on lock (user);
create index if not exists lock_until on lock (until);
create table if not exists task (number integer primary key, user text, told text, since real);
delete from lock where passing;
"""
Row = tuple[object, ...]


class NotKept(Exception):
    """It can't be kept, or there is too much of it: nothing was changed."""


class Kept:
    """Without a file, for as long as this process goes on."""

    def __init__(self, file: str = "") -> None:
        self._mutex = threading.RLock()
        try:
            self._base = _opened(file)
        except (sqlite3.Error, OSError):
            # Whoever had a lock is told so at the next save.
            self._base = _anew(file)

    @contextmanager
    def alone(self) -> Iterator[None]:
        with self._mutex:
            yield

    def rows(self, what: str, given: Row = ()) -> list[Row]:
        """Each change is kept as a whole, or not at all."""
        with self._mutex:
            try:
                return self._base.execute(what, given).fetchall()
            except sqlite3.Error as fault:
                raise NotKept(str(fault)) from None

    def count(self, what: str, given: Row = ()) -> int:
        found = self.rows(f"select count(*) from {what}", given)[0][0]
        assert isinstance(found, int)
        return found


def _anew(file: str) -> sqlite3.Connection:
    """In memory alone where no file can be."""
    try:
        os.unlink(file)
        return _opened(file)
    except (sqlite3.Error, OSError):
        return _opened("")


def _opened(file: str) -> sqlite3.Connection:
    if file:
        # Tokens are nobody else's.
        os.close(os.open(file, os.O_RDWR | os.O_CREAT | os.O_NOFOLLOW, 0o600))
    base = sqlite3.connect(file or ":memory:", isolation_level=None, check_same_thread=False)
    try:
        # (a power cut takes the whole file, which is in memory)
        base.execute("pragma synchronous = off")
        base.executescript(_TABLES)
        need_own(base, _TABLES)
    except BaseException:
        base.close()
        raise
    return base
