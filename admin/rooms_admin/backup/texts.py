"""The three texts of a backup, which are what the program prints of it: the nightly run writes them
beside it, and where one is missing, as beside an hourly copy, it is made anew."""
import csv
import io
import os
import tempfile
import time
from collections.abc import Iterable, Iterator
from contextlib import ExitStack, contextmanager
from typing import IO

from ..host import taken, tempdirs
from ..room import private_server, program
from . import backups
from ..cli.report import Stop, say
from ..room.settings import Room

LISTS, REVIEW, RECORDS = "lists.txt", "review.csv", "records.csv"
# By which words the program prints each.
PRINTED: dict[str, tuple[str, ...]] = {RECORDS: ("audit",), LISTS: ("dump",),
                                       REVIEW: ("review", "/")}
# Bytes of a review: it has a row of each name in lists at each folder with a list of its own, so
# whoever manages a folder could have each night write, and read, more than there is space for.
_MOST_OF_REVIEW = 32 << 20
# After moves a path may be longer than any request can name.
csv.field_size_limit(1 << 24)


@contextmanager
def beside(room: Room, folder: str, name: str) -> Iterator[IO[bytes]]:
    """A text of the backup in a folder, which nobody but root has written, as a file of this run's
    own: who reads it waits for no disk of backups. Its time is the text's, or the backup's."""
    place = os.path.join(folder, name)
    with ExitStack() as owned:
        source: IO[bytes]
        try:
            source = owned.enter_context(taken.file(place))
        except FileNotFoundError:
            say(f"{place} isn't there, so it is made now")
            source = owned.enter_context(_made(room, folder, name))
        yield source


@contextmanager
def of_last(room: Room, name: str) -> Iterator[IO[bytes]]:
    """That of the newest backup, whoever asks what was there last night."""
    with beside(room, backups.find(room, "latest"), name) as source:
        yield source


def most_of(name: str) -> int:
    """How many bytes the program may write of a text; 0 is as many as of any."""
    return _MOST_OF_REVIEW if name == REVIEW else 0


@contextmanager
def _made(room: Room, folder: str, name: str) -> Iterator[IO[bytes]]:
    """In a file without a name, so a kill leaves none."""
    with private_server.private_copy(room, folder) as copied, \
            tempfile.TemporaryFile(dir=tempdirs.place()) as made:
        words = PRINTED[name]
        status, _, text = program.on_copy(room, copied, [*words], program.enough(room, copied),
                                          made.fileno(), most=most_of(name))
        made.seek(0)
        at = min(backups.moments(os.path.basename(folder)), default=time.time())
        os.utime(made.fileno(), (at, at))
        if status != 0:
            raise Stop(f"{words[0]} of the copy failed, status {status}: "
                       f"{text or made.read(300).decode(errors='replace').strip()}")
        yield made


def of_csv(source: IO[bytes]) -> io.TextIOWrapper:
    return io.TextIOWrapper(source, encoding="utf-8", newline="")


def fields(lines: Iterable[str], header: str, what: str) -> Iterator[list[str]]:
    """The rows of a text in CSV below its header. `what` is said of it where it isn't one."""
    try:
        rows = csv.reader(lines, strict=True)
        names = header.split(",")
        if next(rows, None) != names:
            raise ValueError(f"it doesn't begin with {header}")
        for row in rows:
            if len(row) != len(names):
                raise ValueError(f"line {rows.line_num} hasn't {len(names)} fields")
            yield row
    except (ValueError, csv.Error) as fault:
        raise Stop(f"{what} can't be read: {fault}") from fault
