"""Properties, and the XML of several answers in one."""
import mimetypes
from collections.abc import Iterable, Iterator, Sequence
from dataclasses import dataclass

from ...room.answers import Answer, Stop, in_pieces, reason
from .bodies import DAV, Node, Tag, element, legal
from .locks import Lock
from .objects import Measure
from ...room.paths import Names
from .paths import href
from .trees import Failure

XML_TYPE = "application/xml; charset=utf-8"
HEAD = '<?xml version="1.0" encoding="utf-8"?>\n'
# The types of this file alone, not those of the machine: they are the same everywhere.
_TYPES = mimetypes.MimeTypes()
_SUPPORTED = "".join(
    f"<D:lockentry><D:lockscope><D:{scope}/></D:lockscope><D:locktype><D:write/></D:locktype>"
    "</D:lockentry>" for scope in ("exclusive", "shared"))
# What Windows writes after each upload, and looks whether it was taken. The room has no place for
# it, so it is taken and forgotten.
FORGOTTEN = "urn:schemas-microsoft-com:"
# As ownCloud and Nextcloud tell them: rclone asks for them if it is told that it speaks to one.
OWNCLOUD = "http://owncloud.org/ns"
SUMS = OWNCLOUD, "checksums"
MOST_ASKED = 16_384
# How many of what failed an answer names, and in how many bytes.
MOST_FAILED, LONGEST_FAILED = 1000, 1 << 20
# For these the door has to read the whole document.
OF_BYTES = {SUMS, (DAV, "getcontentlength"), (DAV, "getetag"), (DAV, "getlastmodified")}


@dataclass(frozen=True)
class Wanted:
    """What a PROPFIND asks for: names, all, or these."""
    names_only: bool
    everything: bool
    tags: tuple[Tag, ...]

    @property
    def is_sized(self) -> bool:
        """Whether documents have to be read for it."""
        return self.everything or not OF_BYTES.isdisjoint(self.tags)


def wanted(root: Node | None) -> Wanted:
    if root is None or root.first("allprop"):
        return Wanted(False, True, ())
    if root.first("propname"):
        return Wanted(True, True, ())
    prop = root.first("prop")
    tags = tuple(dict.fromkeys(child.tag for child in prop.children)) if prop else ()
    # Each is written with its whole namespace, for each object.
    if sum(len(space) + len(local) for space, local in tags) > MOST_ASKED:
        raise Stop(413, "too-large", "too many properties at once")
    return Wanted(False, False, tags)


def active_lock(prefix: str, lock: Lock, left: int, is_mine: bool) -> str:
    scope = "shared" if lock.shared else "exclusive"
    owner = f"<D:owner>{lock.owner}</D:owner>" if lock.owner else ""
    token = f"<D:locktoken><D:href>{lock.token}</D:href></D:locktoken>" if is_mine else ""
    return (f"<D:activelock><D:locktype><D:write/></D:locktype><D:lockscope><D:{scope}/>"
            f"</D:lockscope><D:depth>{'infinity' if lock.deep else '0'}</D:depth>{owner}"
            f"<D:timeout>Second-{left}</D:timeout>{token}"
            f"<D:lockroot><D:href>{href(prefix, lock.names, False)}</D:href></D:lockroot>"
            "</D:activelock>")


def values(names: Names, folder: bool, locks: str) -> dict[Tag, str]:
    found = {(DAV, "resourcetype"): "<D:collection/>" if folder else "",
             (DAV, "supportedlock"): _SUPPORTED, (DAV, "lockdiscovery"): locks}
    if names:
        found[DAV, "displayname"] = legal(names[-1])
    if not folder:
        # (without it a client judges by the name, which is better than to be told nothing)
        if kind := _TYPES.guess_type("x" + names[-1])[0]:
            found[DAV, "getcontenttype"] = kind
    return found


def of_bytes(measure: Measure, date: str) -> dict[Tag, str]:
    found = {(DAV, "getcontentlength"): str(measure.length), (DAV, "getetag"): legal(measure.tag),
             (DAV, "getlastmodified"): date}
    if measure.sums:
        found[SUMS] = element((OWNCLOUD, "checksum"), measure.sums)
    return found


def _status(status: int) -> str:
    return f"<D:status>HTTP/1.1 {status} {reason(status)}</D:status>"


def _part(status: int, props: Iterable[str]) -> str:
    inside = "".join(props)
    return f"<D:propstat><D:prop>{inside}</D:prop>{_status(status)}</D:propstat>"


def response(where: str, asked: Wanted, found: dict[Tag, str]) -> str:
    if asked.everything:
        parts = _part(200, (element(tag, "" if asked.names_only else text)
                            for tag, text in found.items()))
    else:
        there = [element(tag, found[tag]) for tag in asked.tags if tag in found]
        lacking = [element(tag) for tag in asked.tags if tag not in found]
        parts = (_part(200, there) if there or not lacking else "") + (
            _part(404, lacking) if lacking else "")
    return f"<D:response><D:href>{where}</D:href>{parts}</D:response>"


def patched(where: str, tags: Sequence[Tag]) -> str:
    """All or nothing: of properties that are refused the others depend."""
    refused = [tag for tag in tags if tag[0] != FORGOTTEN]
    taken = [tag for tag in tags if tag[0] == FORGOTTEN]
    parts = _part(424 if refused else 200, map(element, taken)) if taken or not refused else ""
    if refused:
        parts += _part(403, map(element, refused))
    return f"<D:response><D:href>{where}</D:href>{parts}</D:response>"


def several(responses: Iterable[str]) -> Answer:
    return Answer(207, b"".join(_parts(responses)), XML_TYPE)


def as_it_comes(responses: Iterable[str]) -> Answer:
    """Of a folder: there may be tens of thousands."""
    return Answer(207, kind=XML_TYPE, parts=in_pieces(_parts(responses)))


def _parts(responses: Iterable[str]) -> Iterator[bytes]:
    yield f'{HEAD}<D:multistatus xmlns:D="DAV:">'.encode()
    for one in responses:
        yield one.encode()
    yield b"</D:multistatus>\n"


def failed(prefix: str, failures: Sequence[Failure]) -> Answer:
    return several(_named(prefix, failures))


def _named(prefix: str, failures: Sequence[Failure]) -> Iterator[str]:
    """The first of them, and how many more there are: there may be ten thousand, at long paths."""
    size = count = 0
    for names, folder, status, text in failures[:MOST_FAILED]:
        row = (f"<D:response><D:href>{href(prefix, names, folder)}</D:href>{_status(status)}"
               f"<D:responsedescription>{legal(text)}</D:responsedescription></D:response>")
        size += len(row)
        if count and size > LONGEST_FAILED:
            break
        count += 1
        yield row
    if count < len(failures):
        yield f"<D:responsedescription>and {len(failures) - count} more</D:responsedescription>"
