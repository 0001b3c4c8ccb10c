"""Names in entries that nobody has, which are most often mistyped: what such an entry denies, its
user may do."""
from collections.abc import Callable, Iterable, Iterator

from ..cli import alike
from ..passwords import passwords
from ..room.settings import Room
from . import dump
from .dump import Object, Pair
from .entries import entry

Rows = Callable[[], Iterable[Object | Pair]]


def told(room: Room, rows: Rows, lines: Iterable[str]) -> Iterator[str]:
    """What is to be said of these lines, each name once. Users whom a directory or sessions let in
    are known there alone. An entry without a mask is a date."""
    groups = {one[0] for one in rows() if isinstance(one, tuple)}
    users = dump.users(rows()).union(*map(passwords.users, passwords.password_files(room.name)))
    entries = [one for one in map(entry, lines) if one and one.mask]
    for name in sorted({one.user for one in entries if one.user}):
        if room.has_passwords and name not in users:
            yield f"nobody is called {name}{alike.meant(name, users)}"
    for name in sorted({one.group for one in entries if one.group} - groups):
        yield f"nobody is in {name}{alike.meant(name, groups)}"
