"""Documents of more than 1 MiB, which a room keeps in parts (docs/large.md).

The document of the name itself has no more than a list of its parts. These lie beside it, each as a
document whose name is that of the whole with a number behind it. As many again are empty: there the
next version is written, so that whoever replaces it makes nothing new, and all of it keeps one
owner and one list. By its name a part belongs to one document alone, whoever writes what into a
list of parts."""
import hashlib
import json
import re
from collections.abc import Iterable
from typing import NamedTuple

# A document of the room has at most so many bytes.
LARGEST = 1_048_576
MARK = "~rooms-part-"
# How many there may be; the number has four digits.
MOST = 9999
LENGTH = len(MARK) + 4
_PART = re.compile(f"(.+){MARK}(?!0000)[0-9]{{4}}", re.DOTALL)
_SIGN = "a document in parts"
_DIGEST = re.compile(r"[0-9a-f]{64}")
_ONE = r'\[[0-9]{1,4},"[0-9a-f]{64}"\]'
_FORM = re.compile((r'\{"bytes":[0-9]{1,13},"parts":\[' f'{_ONE}(?:,{_ONE})*' r'\],"rooms":"'
                    f'{_SIGN}' r'","sha256":"[0-9a-f]{64}"\}').encode())


def whole_of(name: str) -> str:
    """Whose part has this name, if that has the form of a part's; else nothing."""
    match = _PART.fullmatch(name)
    return match[1] if match else ""


def end_of(number: int) -> str:
    """Of the name of a part."""
    return f"{MARK}{number:04d}"


def hidden(names: Iterable[str]) -> dict[str, str]:
    """Of the names of documents in one folder: each part, with the document that it is of. A part
    of nothing is a document like any other."""
    there = set(names)
    return {name: whole for name in there
            if MARK in name and (whole := whole_of(name)) and whole in there}


def count_for(size: int) -> int:
    return -(-size // LARGEST)


def places_for(size: int) -> int:
    """How many parts are made for it: for the next version too, which may be a bit longer."""
    count = count_for(size)
    return min(MOST, 2 * count + count // 4 + 1)


class Manifest(NamedTuple):
    """What stands in the document itself: its length, the SHA-256 of all, and in their order the
    number of each part with its own."""
    size: int
    digest: str
    parts: tuple[tuple[int, str], ...]

    @property
    def tag(self) -> str:
        """As of any document."""
        return tag_in(self.digest)

    @property
    def numbers(self) -> frozenset[int]:
        return frozenset(number for number, _ in self.parts)

    def text(self) -> bytes:
        return json.dumps({"bytes": self.size, "parts": self.parts, "rooms": _SIGN,
                           "sha256": self.digest}, separators=(",", ":")).encode()

    def is_part(self, index: int, body: bytes) -> bool:
        """Whether these are the bytes of one part of it."""
        length = min(LARGEST, self.size - index * LARGEST)
        return len(body) == length and digest_of(body) == self.parts[index][1]


def read(body: bytes) -> Manifest | None:
    """None of anything else, such as what a user wrote. It has one form, so that no two lists of
    parts are the same."""
    # (other JSON would take long to read, in one piece, in which no other thread runs)
    if not _FORM.fullmatch(body):
        return None
    try:
        told = json.loads(body)
        found = Manifest(told["bytes"], told["sha256"],
                         tuple((number, digest) for number, digest in told["parts"]))
        is_whole = _is_sound(found) and found.text() == body
    except (ValueError, KeyError, TypeError, RecursionError):
        return None
    return found if is_whole else None


def _is_sound(found: Manifest) -> bool:
    return (type(found.size) is int and found.size > LARGEST
            and len(found.parts) == count_for(found.size) == len(found.numbers)
            and all(type(number) is int and 1 <= number <= MOST for number in found.numbers)
            and all(_DIGEST.fullmatch(digest) for _, digest in found.parts)
            and _DIGEST.fullmatch(found.digest) is not None)


def digest_of(part_of_it: bytes) -> str:
    return hashlib.sha256(part_of_it).hexdigest()


def tag_in(digest: str) -> str:
    """Of what has this digest. Some clients have no room for more."""
    return f'"{digest[:32]}"'


class Sum:
    """The digest of all, part by part."""

    def __init__(self) -> None:
        self._sum = hashlib.sha256()

    def add(self, part: bytes) -> bytes:
        self._sum.update(part)
        return part

    @property
    def digest(self) -> str:
        return self._sum.hexdigest()
