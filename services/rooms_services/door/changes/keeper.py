"""Takes what the journal has into the store, in order, each line once, whenever this process or the
machine ends. Whatever fails here, a request is answered: without dates."""
import errno
import os
import secrets
import sqlite3
import sys
import threading
import time
import traceback
from collections.abc import Callable, Iterator
from contextlib import contextmanager, suppress
from typing import TypeVar

from rooms_admin.host import locks

from ...room.paths import Names
from ...room.room import Ask
from . import lines, nights
from .changing import Changing
from .journal import Journal
from .nights import Night, NoList
from .store import Inside, Known, Newest, Store

# Between two looks at the journal; and how long somebody who asks waits for what isn't taken yet.
TICK, PATIENCE = 2.0, 0.5
# Between two looks for names that are too old; and a day, in milliseconds.
HOUR, _DAY = 3600.0, 86_400_000
_FILE, _LOCK, STOPPED = "dates.db", "lock", "stopped"
# What SQLite puts beside a file.
_ENDS = ("", "-wal", "-shm")
_Found = TypeVar("_Found")


# By name, the number of a document and what stands for a look at it that isn't done.
Looks = dict[str, tuple[int, object]]
# Of so many documents it is remembered what was seen.
MOST_SEEN = 50_000


class Unknown(Exception):
    """Nothing can be said of dates now."""


class _Mark:
    """A look that isn't done."""


def now() -> int:
    """In milliseconds, as moments of changes are."""
    return int(time.time() * 1000)


def _looked(store: Store, folder: Names, names: list[str], since: int
            ) -> tuple[dict[str, object], Looks]:
    found: dict[str, object] = {}
    looks: Looks = {}
    for name in names:
        one = store.find((*folder, name))
        if one is None or store.has_moved(one, since):
            continue
        seen = store.seen.get(one)
        if seen is None or isinstance(seen, _Mark):
            looks[name] = one, store.seen.setdefault(one, _Mark())
        else:
            found[name] = seen
    return found, looks


class Keeper:
    """Of one room. `shows` is 'when', 'who' or nothing; `told` is the beginning of the files in
    which root tells something (nights), and names are kept for so many days."""

    def __init__(self, folder: str, shows: str, told: str = "", days: int = 0,
                 mark: str = "") -> None:
        self.shows = shows
        # A file that is there since this machine has started, once a door was here.
        self._mark = mark
        self._folder = folder
        self._told = told
        self._days = days
        self._words = ""
        self._night: Night | None = None
        self._mutex = threading.RLock()
        self._journal = Journal(folder)
        self._store: Store | None = None
        self._lock = -1
        # What the files were when all of them was taken.
        self._done: list[tuple[int, int]] | None = None
        self._failed = ""
        # What its lines have; and whether all is taken that was there before the first of them.
        self._name = secrets.token_hex(4)
        self._is_begun = False
        # There is one as long as a change may have left no line.
        self._doubt: object = None
        try:
            self._ready()
        except BlockingIOError:
            raise
        except (OSError, sqlite3.Error) as fault:
            self._give_up(fault)

    def close(self) -> None:
        if self._night:
            self._night.close()
            self._night = None
        if self._store:
            self._store.close()
            self._store = None
        if self._lock >= 0:
            os.close(self._lock)
            self._lock = -1

    def _at(self, name: str) -> str:
        return os.path.join(self._folder, name)

    def _tell(self, text: str) -> None:
        """Once, and not at each change."""
        if text != self._failed:
            self._failed = text
            print(text, file=sys.stderr, flush=True)

    # Its files

    def _hold(self) -> None:
        """Two of them would change the journal for a new one under each other's hands. It is let go
        when this process ends, however that is."""
        if self._lock < 0:
            file = os.open(self._at(_LOCK), os.O_CREAT | os.O_RDWR, 0o600)
            try:
                if not locks.taken(file, 0):
                    raise BlockingIOError(errno.EAGAIN, "another door keeps them")
            except BaseException:
                os.close(file)
                raise
            self._lock = file

    def _ready(self) -> Store:
        self._hold()
        if self._journal.is_made():
            self._doubt = object()
        if self._store is None:
            self._store = self._opened()
            self._look_at_start(self._store)
            known = {ino for ino, _ in self._journal.sizes()}
            for ino in self._store.taken().keys() - known:
                self._store.untake(ino)
        return self._store

    def _look_at_start(self, store: Store) -> None:
        """Where the machine ended without a word, the disk may lack lines that nginx wrote."""
        if self._mark and not os.path.lexists(self._mark):
            if not store.told(STOPPED):
                store.note_gap(now())
            os.close(os.open(self._mark, os.O_CREAT | os.O_WRONLY, 0o600))
        store.keep_told(STOPPED, "")

    def stop(self) -> None:
        """As when the machine is shut down."""
        with suppress(Unknown), self._alone():
            store = self._ready()
            store.keep_told(STOPPED, "yes")
            store.settle()

    def _opened(self) -> Store:
        """What is damaged begins anew, with nothing. nginx's group passes through the folder, so it
        is closed to it."""
        place = self._at(_FILE)
        os.close(os.open(place, os.O_CREAT | os.O_RDWR, 0o600))
        try:
            return Store(place, self.shows == "who")
        except sqlite3.OperationalError:
            # Such as a full disk.
            raise
        except sqlite3.DatabaseError as fault:
            print(f"dates begin anew: {fault}", file=sys.stderr, flush=True)
            # (lines of what changed since the night may have gone)
            self._doubt = object()
            for end in _ENDS:
                with suppress(FileNotFoundError):
                    os.unlink(place + end)
            os.close(os.open(place, os.O_CREAT | os.O_RDWR, 0o600))
            return Store(place, self.shows == "who")

    # The door's own changes

    def note(self, user: str, ask: Ask, status: int | None) -> None:
        """The change is made, whatever fails here."""
        try:
            self._journal.add(lines.written(time.time(), user, ask, status, self._name))
        except (OSError, ValueError) as fault:
            self._doubt = object()
            self._tell(f"a change wasn't noted: {fault}")

    # The journal

    def catch_up(self, seconds: float = 0.0) -> bool:
        """Whether all of it is taken."""
        until = time.monotonic() + (seconds or PATIENCE)
        while time.monotonic() < until:
            try:
                with self._alone():
                    if not self._take():
                        self._failed = ""
                        return True
            except Unknown:
                return False
        return False

    @contextmanager
    def _alone(self) -> Iterator[None]:
        """Nobody waits for long for who takes much."""
        if not self._mutex.acquire(timeout=PATIENCE):
            raise Unknown
        try:
            yield
        except (OSError, sqlite3.Error, ArithmeticError, ValueError, RecursionError) as fault:
            # (what has no place in a row was written by somebody who took nginx over, or the room)
            self._give_up(fault)
            raise Unknown from None
        finally:
            self._mutex.release()

    def _give_up(self, fault: Exception) -> None:
        self._done = None
        self._end_night()
        with suppress(sqlite3.Error):
            if self._store:
                self._store.give_up()
        if isinstance(fault, sqlite3.DatabaseError) and not isinstance(
                fault, sqlite3.OperationalError) and self._store:
            # It is damaged, which is seen when it is opened.
            with suppress(sqlite3.Error):
                self._store.close()
            self._store = None
        self._tell(f"dates aren't known: {fault}")

    def _take(self) -> bool:
        """Whether something may be left."""
        if self._journal.may_have_lost():
            self._doubt = object()
            raise OSError(errno.ENOSPC, "the disk is full")
        words = nights.mark_of(f"{self._told}.told") if self._told else ""
        if self._done == self._journal.sizes() and not self._doubt \
                and not self._journal.is_old() and self._words == words:
            return False
        store, seen = self._ready(), self._journal.sizes()
        if self._words != words:
            self._take_words(store, words)
        for part in self._journal.parts(store.taken()):
            if part:
                self._apply(store, part.lines, (part.ino, part.upto))
                return True
            self._doubt = object()
        if self._doubt or not self._is_begun:
            self._apply(store, [], None)
            self._is_begun = True
        if self._journal.is_old():
            self._change_file(store)
        else:
            self._done = seen
        return False

    def _apply(self, store: Store, some: list[bytes], upto: tuple[int, int] | None) -> None:
        """What is in doubt is what was before these lines. Without any, all are taken."""
        changing, doubt = Changing(store), self._doubt
        store.begin()
        if doubt:
            self._note_gap(store)
        for line in some:
            if lines.is_torn(line):
                self._note_gap(store)
            changing.take(line)
        if upto:
            store.take(*upto)
        else:
            changing.end(self._name)
        changing.keep()
        store.commit()
        if self._doubt is doubt:
            self._doubt = None

    def _note_gap(self, store: Store) -> None:
        at = now()
        store.doubt(at)
        store.note_gap(at)

    def _change_file(self, store: Store) -> None:
        """What was taken is on the disk before the lines go."""
        store.settle()
        if old := self._journal.old():
            ino, size = old
            if store.taken().get(ino, 0) != size:
                # Its last line has no end.
                self._doubt = object()
            self._journal.remove_old()
            store.untake(ino)
        elif self._journal.has_old():
            # (this process ended between two names of one file)
            self._journal.remove_old()
        else:
            store.untake(self._journal.make_new())
            self._journal.change()

    # What root tells

    def _take_words(self, store: Store, words: str) -> None:
        """Before lines: a restore says from when on they count."""
        store.begin()
        nights.take_words(f"{self._told}.told", store)
        store.commit()
        # What was forgotten is in no file any more.
        store.settle()
        self._words = words

    def take_night(self) -> bool:
        """The list of the last night, if it isn't taken yet, part by part. Whether one was."""
        with suppress(Unknown):
            before = self._last_night()
            while self._told and self._take_night_part():
                pass
            return self._last_night() != before
        return False

    def _last_night(self) -> str:
        with self._alone():
            return self._ready().told(nights.NIGHT)

    def _take_night_part(self) -> bool:
        """Whether something is left."""
        with self._alone():
            store = self._ready()
            try:
                self._night = self._night or nights.night_of(f"{self._told}.night", store)
                if self._night is None:
                    return False
                store.begin()
                is_left = self._night.take(store)
                store.commit()
            except NoList as fault:
                self._refuse_night(store, str(fault))
                return False
            if not is_left:
                self._end_night()
            return is_left

    def _end_night(self) -> None:
        if self._night:
            self._night.close()
            self._night = None

    def _refuse_night(self, store: Store, why: str) -> None:
        """It isn't looked at again; the next night brings another one."""
        store.give_up()
        store.keep_told(nights.NIGHT, nights.mark_of(f"{self._told}.night"))
        self._end_night()
        print(f"the list of the night isn't taken: {why}", file=sys.stderr, flush=True)

    def tidy(self) -> None:
        """Names that are older than they may be go."""
        with suppress(Unknown), self._alone():
            store = self._ready()
            store.begin()
            if self._days:
                store.forget_old(now() - self._days * _DAY)
            store.forget_unused()
            store.commit()
            store.settle()

    def run(self) -> None:
        """Whatever goes wrong once, it goes on."""
        tidied = -HOUR
        while True:
            try:
                self.catch_up(60.0)
                self.take_night()
                if time.monotonic() - tidied > HOUR:
                    tidied = time.monotonic()
                    self.tidy()
            except Exception:
                traceback.print_exc()
            time.sleep(TICK)

    # What is asked

    def _ask(self, what: Callable[[Store], _Found]) -> _Found:
        with self._alone():
            if self._store:
                return what(self._store)
        raise Unknown

    def children(self, names: Names, since: int) -> dict[str, Known]:
        """Of what hasn't moved since that moment, in milliseconds; nothing while it isn't known
        what changed last."""
        try:
            return self._ask(lambda store: store.children(names, since)) if self.catch_up() else {}
        except Unknown:
            return {}

    def moments(self, folder: Names, since: int) -> dict[str, int]:
        """When these documents in a folder changed, in seconds, as far as that is known."""
        return {name: known.at // 1000 for name, known in self.children(folder, since).items()
                if known.at is not None and not known.is_folder}

    def vouched(self) -> int | None:
        """The moment of the last night's copy, if all changes since then are known."""
        return self._ask(lambda store: store.vouched())

    def in_copy(self, folder: Names, since: int) -> dict[str, int]:
        """The numbers that documents in a folder have in that copy, if they are as it has them, and
        stood there at this moment, in milliseconds."""
        return self._ask(lambda store: store.in_copy(folder, since) if store.vouched() else {})

    def seen(self, folder: Names, names: list[str], since: int
             ) -> tuple[dict[str, object], Looks]:
        """What was seen of the bytes of these documents, as far as each change since is known; and
        for the others, with what is seen now may be kept. Of what moved since the moment before
        the caller's rights were asked for it is nothing: these were of something else."""
        if not self.catch_up():
            return {}, {}
        try:
            return self._ask(lambda store: _looked(store, folder, names, since))
        except Unknown:
            return {}, {}

    def keep_seen(self, looks: Looks, found: dict[str, object], since: int) -> None:
        """Of those that didn't change, nor move, between the look and now."""
        def keep(store: Store) -> None:
            if len(store.seen) > MOST_SEEN:
                store.seen.clear()
            for name, (one, mark) in looks.items():
                if store.seen.get(one) is mark:
                    if name in found and not store.has_moved(one, since):
                        store.seen[one] = found[name]
                    else:
                        del store.seen[one]
        with suppress(Unknown):
            if self.catch_up():
                self._ask(keep)

    def find(self, names: Names) -> int | None:
        return self._ask(lambda store: store.find(names))

    def stood(self, names: Names, one: int, since: int) -> bool:
        """Whether it is what is known at this path, and stood there at that moment."""
        return self.catch_up() and self._ask(
            lambda store: store.find(names) == one and not store.has_moved(one, since))

    def folders(self, above: int, after: str, most: int) -> list[Inside]:
        return self._ask(lambda store: store.folders(above, after, most))

    def named(self, folder: int, begin: str, most: int) -> list[tuple[str, int | None]]:
        return self._ask(lambda store: store.named(folder, begin, most))

    def newest(self, folder: int, after: tuple[int, int] | None, most: int) -> list[Newest]:
        return self._ask(lambda store: store.newest(folder, after, most))


def begun(folder: str, shows: str, told: str = "", days: int = 0,
          mark: str = "", is_searched: bool = False) -> Keeper | None:
    """What was kept goes where nothing is kept any more, for dates or for searches."""
    if not folder:
        return None
    if shows or is_searched:
        return Keeper(folder, shows, told, days, mark)
    with suppress(OSError):
        for name in os.listdir(folder):
            with suppress(OSError):
                os.unlink(os.path.join(folder, name))
    return None
