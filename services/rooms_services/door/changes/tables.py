"""Whether a file of the door's has its tables and nothing else. Whoever had the door in their hands
may have left a trigger there, which would act in what the next door does."""
import sqlite3
from contextlib import closing

_ALL = "SELECT type, name, tbl_name, sql FROM sqlite_schema ORDER BY type, name"


def need_own(base: sqlite3.Connection, made: str) -> None:
    """`made` is the text that makes them."""
    with closing(sqlite3.connect(":memory:")) as wanted:
        wanted.executescript(made)
        if base.execute(_ALL).fetchall() != wanted.execute(_ALL).fetchall():
            raise sqlite3.DatabaseError("it has tables of somebody else")
