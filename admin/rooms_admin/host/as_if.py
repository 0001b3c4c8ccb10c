"""What a dry run would have done by now. Whoever looks at the machine by this module sees it so: a
dry run takes the very steps that change something, and each tells what it would do."""
import os
import stat
from collections.abc import Iterator
from contextlib import contextmanager

# By its path: the bytes of a file, what a link leads to, a folder, or nothing any more.
_FOLDER = True
_there: dict[str, bytes | str | bool | None] = {}


def begin() -> None:
    """Nothing is done yet."""
    _there.clear()


def is_file(place: str, data: bytes) -> None:
    _there[place] = data


def is_link(place: str, target: str) -> None:
    _there[place] = target


def is_folder(place: str) -> None:
    _there[place] = _FOLDER


def is_gone(place: str) -> None:
    """With all that is in it."""
    for one in [one for one in _there if one.startswith(f"{place}/")]:
        del _there[one]
    _there[place] = None


@contextmanager
def supposed(place: str, data: bytes) -> Iterator[None]:
    """Meanwhile a file has these bytes."""
    before = dict(_there)
    is_file(place, data)
    try:
        yield
    finally:
        _there.clear()
        _there.update(before)


def _below_gone(place: str) -> bool:
    above = os.path.dirname(place)
    while above not in ("", "/"):
        if above in _there:
            return _there[above] is None
        above = os.path.dirname(above)
    return False


def is_changed(place: str) -> bool:
    """Whether the machine has something else there."""
    return place in _there or _below_gone(place)


def lexists(place: str) -> bool:
    if is_changed(place):
        return _there.get(place) is not None
    return os.path.lexists(place) or any(one.startswith(f"{place}/") and found is not None
                                         for one, found in _there.items())


def exists(place: str) -> bool:
    found = _there.get(place)
    if isinstance(found, str):
        return exists(os.path.normpath(os.path.join(os.path.dirname(place), found)))
    return lexists(place) if is_changed(place) or not os.path.lexists(place) else (
        os.path.exists(place))


def isdir(place: str) -> bool:
    if is_changed(place):
        return _there.get(place) is _FOLDER
    return os.path.isdir(place) or not os.path.lexists(place) and lexists(place)


def islink(place: str) -> bool:
    return isinstance(_there.get(place), str) if is_changed(place) else os.path.islink(place)


def readlink(place: str) -> str:
    found = _there.get(place)
    return found if isinstance(found, str) else os.readlink(place)


def listdir(folder: str) -> list[str]:
    """A folder that is there neither way is a fault, as of the machine."""
    found = set(os.listdir(folder) if os.path.isdir(folder) or not isdir(folder) else [])
    if _there.get(folder, _FOLDER) is None:
        raise FileNotFoundError(2, "No such file or directory", folder)
    for one, what in _there.items():
        if one.startswith(f"{folder}/"):
            name = one[len(folder) + 1:].partition("/")[0]
            if what is not None:
                found.add(name)
            elif one == f"{folder}/{name}":
                found.discard(name)
    return sorted(found)


def read(place: str) -> bytes:
    if is_changed(place):
        found = _there.get(place)
        if not isinstance(found, bytes):
            raise FileNotFoundError(2, "No such file or directory", place)
        return found
    with open(place, "rb") as source:
        return source.read()


def mode(place: str, of_new: int) -> int:
    """Who may do what with a file; of one that isn't there yet it is given."""
    try:
        return stat.S_IMODE(os.stat(place).st_mode)
    except FileNotFoundError:
        return of_new
