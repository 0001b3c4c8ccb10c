"""Folders of a run's own for copies of whole rooms."""
import glob
import os
import re
import tempfile
from collections.abc import Iterator
from contextlib import contextmanager

from ..cli.report import Stop
from . import processes, safe


def place() -> str:
    """Not /tmp, which may be memory."""
    return os.environ.get("TMPDIR", "/var/tmp")


@contextmanager
def folder(name: str, *users: int) -> Iterator[str]:
    """Those of runs that were killed go first; `users` are whose they may be by then."""
    if where := safe.of_others(place()):
        raise Stop(f"not root's: others can change {where}, on the way to {place()}, of TMPDIR")
    _remove_left(place(), name, {os.geteuid(), *users})
    own = f"{name}.{os.getpid()}.{processes.began(os.getpid())}."
    try:
        made = tempfile.mkdtemp(prefix=own, dir=place())
    except OSError as fault:
        raise Stop(f"no folder: none can be made in {place()}: {fault.strerror}") from fault
    try:
        yield made
    finally:
        safe.remove_folder(made)


def _remove_left(place: str, name: str, users: set[int]) -> None:
    """Anybody may make a folder there, so only ours go."""
    for one in glob.glob(f"{glob.escape(place)}/{name}.*"):
        found = re.fullmatch(r"(\d+)\.(\d+)\..*", os.path.basename(one).removeprefix(f"{name}."))
        try:
            seen = os.lstat(one)
        except FileNotFoundError:
            # Whoever made it has removed it meanwhile.
            continue
        if found and seen.st_uid in users and processes.began(int(found[1])) != found[2]:
            safe.remove_folder(one)
