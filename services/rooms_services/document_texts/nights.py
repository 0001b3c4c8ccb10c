"""The stores of a room's texts: a folder for each night, of which the last one alone stays."""
import os
import re
import shutil
from collections.abc import Iterator

from .store import NoStore, Store

FOLDER = os.environ.get("ROOMS_TEXTS", "/var/cache/rooms-texts")
# Where root puts the copy of a night that is read.
COPIES = f"{FOLDER}-copies"
_NIGHT = re.compile(r"night\.([1-9][0-9]{0,17})")
NEW = "new"


def place(room: str, at: int) -> str:
    """Of the night whose copy was made at that moment, in milliseconds."""
    return os.path.join(FOLDER, room, f"night.{at}")


def moments(room: str) -> list[int]:
    try:
        found = os.listdir(os.path.join(FOLDER, room))
    except FileNotFoundError:
        return []
    return sorted(int(night[1]) for one in found if (night := _NIGHT.fullmatch(one)))


def last(room: str) -> Store | None:
    """The newest that is whole."""
    for at in reversed(moments(room)):
        try:
            return Store(place(room, at))
        except NoStore as why:
            print(f"not taken: {why}", flush=True)
    return None


def others(room: str, at: int) -> Iterator[str]:
    """What isn't of that night."""
    folder = os.path.join(FOLDER, room)
    for one in os.listdir(folder):
        if _NIGHT.fullmatch(one) and one != f"night.{at}" or one == NEW:
            yield os.path.join(folder, one)


def keep_only(room: str, at: int) -> None:
    """What is asked there at that moment has it open already, or finds another night."""
    for one in others(room, at):
        shutil.rmtree(one)
