"""Files of a folder into a room, by the requests that any client may send."""
import os
from collections import Counter
from dataclasses import dataclass, field
from typing import BinaryIO

from ..cli import report
from ..host import safe
from ..room import in_parts, limit, names, settings
from ..cli.report import Refused, Stop, say
from ..room.http_client import Client, Reply
from ..room.in_parts import LARGEST
from ..room.size import NoRoom, Reader


# So many are told by name.
_FEW = 20


class Full(Refused):
    """The room takes nothing more."""


class Space:
    """What LIMIT leaves in a room of this machine, whose server is asked past nginx, which would
    refuse what is too much."""

    def __init__(self, word: str) -> None:
        room = settings.room(word)
        self.reader = Reader(room)
        self.limit: int | None = None
        try:
            self.limit = limit.of(room)
        except Stop as stop:
            say(str(stop))

    def need(self, size: int, before: int) -> None:
        """Behind what would come before it."""
        if self.limit is None:
            return
        try:
            used = self.reader.look() + before
        except NoRoom:
            return
        if used + size > self.limit << 20:
            raise Full(f"the room is full: {used >> 20} MB of {self.limit} are in use, and nothing "
                       "more is sent: once there is space, or with --force, the same command goes "
                       "on")


class Import:
    """In a dry run nothing is sent. What the room would say is asked of it, as far as it says what
    isn't tried: what would be made takes all that would be made in it."""

    def __init__(self, client: Client, replace: bool, space: Space | None, dry: bool) -> None:
        self.client = client
        self.replace = replace
        self.space = space
        self.dry = dry
        self.made = self.replaced = self.same = self.number = self.total = self.would_come = 0
        self.would_make: list[bytes] = []
        self.would_replace: list[bytes] = []
        self.new_folders: set[bytes] = set()

    def need(self, size: int) -> None:
        if self.space:
            self.space.need(size, self.would_come)

    def _asked_for(self, path: bytes, of_new: str, of_old: str) -> Reply:
        """What the room would say to a change, by these rights at the folder or at what is there;
        the reply of one that is there already without `of_old`."""
        above = path.rpartition(b"/")[0] or b"/"
        if above in self.new_folders:
            return Reply(201, b"")
        there = self.client.ask("GET", "can", path)
        if there.status not in (200, 404):
            return there
        is_new = there.status == 404
        at, right = (above, of_new) if is_new else (path, of_old)
        if not right:
            return Reply(409, b'{"why":"exists"}')
        # A question that is denied would be recorded.
        if not is_new and self.client.may(path, "r"):
            there = self.client.ask("GET", "doc", path)
        if there.status == 409:
            return there
        if self.client.may(at, right):
            return Reply(201 if is_new else 204, b"")
        return Reply(403, f"the right {right} is denied at {names.shown(at)}".encode())

    def _post(self, path: bytes) -> Reply:
        if not self.dry:
            return self.client.ask("POST", "folder", path)
        found = self._asked_for(path, "a", "")
        if found.status == 201:
            self.new_folders.add(path)
        return found

    def _put(self, word: str, path: bytes, data: bytes | BinaryIO, size: int,
             fields: dict[str, str] | None = None) -> Reply:
        if not self.dry:
            return self.client.ask("PUT", word, path, data, fields)
        self.would_come += size
        return self._asked_for(path, "w", "w")

    def _counts_made(self, path: bytes) -> None:
        self.made += 1
        if len(self.would_make) <= _FEW:
            self.would_make.append(path)

    def make_folder(self, path: bytes, name: bytes) -> None:
        self.need(0)
        got = self._post(path)
        if got.status == 201:
            self._counts_made(path)
            return
        # Without the right to make one nothing is said of what is there.
        is_there = b'"why":"exists"' in got.body or (
            got.status != 409 and self.client.is_there(path))
        if is_there and self.client.ask("GET", "doc", path).status != 200:
            self.same += 1
        elif is_there or got.status == 409:
            self.client.report(name, f"not made, since a document is in the way: {got.text()}")
        else:
            self.client.report(name, f"not made: {got.text()}")

    def make_way(self, to: bytes) -> bool:
        """PATH, and what is missing of the folders above it."""
        parts = to.split(b"/")[1:]
        for count in range(1, len(parts)):
            way = b"/" + b"/".join(parts[:count])
            if not self.client.is_there(way):
                self.make_folder(way, way)
            if self.client.left_out:
                return False
        self.make_folder(to, to)
        return self.client.left_out == 0

    def send(self, data: bytes, path: bytes, name: bytes) -> None:
        if not self.replace:
            there = self.client.ask("GET", "can", path)
            if there.status == 200:
                self.keep(data, path, name)
                return
            if there.status != 404:
                self.client.report(name, f"not sent: {there.text()}")
                return
        elif self._has(data, path):
            self.same += 1
            return
        self.need(len(data))
        self.told(self._put("doc", path, data, len(data)), path, name)

    def _has(self, data: bytes, path: bytes) -> bool:
        """Whether the same document is there, if that can be read: what isn't replaced keeps its
        date."""
        if not self.client.may(path, "r"):
            return False
        got = self.client.ask("GET", "doc", path)
        return got.status == 200 and got.body == data

    def send_large(self, number: int, path: bytes, name: bytes) -> None:
        """By the door, which keeps it in parts and has the same tag for the same bytes."""
        most, size = self.client.largest(), os.fstat(number).st_size
        if size > most:
            self.client.report(name, f"more than {most} bytes")
            return
        there = self.client.ask("HEAD", "door/doc", path)
        if there.status not in (200, 204, 404):
            self.client.report(name, f"not sent: {there.text()}")
        elif there.fields.get("ETag") == tag_of(number):
            self.same += 1
        elif there.status != 404 and not self.replace:
            self.client.report(name, "not replaced: another document is there; --replace would "
                               "replace it")
        else:
            self.need(size)
            seen = {"If-None-Match": "*"} if there.status == 404 else {"If-Match": "*"}
            os.lseek(number, 0, os.SEEK_SET)
            with open(os.dup(number), "rb") as data:
                self.told(self._put("door/doc", path, data, size, {
                    **seen, "Content-Length": str(size)}), path, name)

    def told(self, got: Reply, path: bytes, name: bytes) -> None:
        if got.status == 201:
            self._counts_made(path)
        elif got.status == 204:
            self.replaced += 1
            if len(self.would_replace) <= _FEW:
                self.would_replace.append(path)
        else:
            self.client.report(name, f"not sent: {got.text()}")

    def keep(self, data: bytes, path: bytes, name: bytes) -> None:
        """The document that is there is compared, if it can be read."""
        got = self.client.ask("GET", "doc", path)
        if got.status != 200:
            self.client.report(name, "not replaced: something is there that can't be compared: "
                               + got.text())
        elif got.body == data:
            self.same += 1
        else:
            self.client.report(name, "not replaced: another document is there; --replace would "
                               "replace it")

    def text(self) -> list[str]:
        """What was done; or what would be, by name where that is little."""
        left = self.client.left_out
        if not self.dry:
            return [f"made {self.made}, replaced {self.replaced}, there already {self.same}, "
                    f"left out {left}"]
        named = [f"would be {what} {names.shown(path)}"
                 for what, paths in (("made", self.would_make), ("replaced", self.would_replace))
                 if len(paths) <= _FEW for path in paths]
        return [*named, f"would be made {self.made}, replaced {self.replaced}, there already "
                f"{self.same}, left out {left}"]

    def folder(self, at: int, path: bytes, name: bytes) -> None:
        for child in children(at):
            below = name + b"/" + child if name else child
            self.number += 1
            report.progress(f"{self.number} of {self.total}: {os.fsdecode(below)}")
            target = path.rstrip(b"/") + b"/" + child
            if why := names.why_not(child):
                self.client.report(below, f"left out, with all below it: no room can have this "
                                   f"name: {why}")
                continue
            try:
                if safe.kind_below(at, child) == "folder":
                    self.make_folder(target, below)
                    try:
                        inner = safe.folder_below(at, child)
                    except OSError as fault:
                        self.client.report(below, f"what is in it can't be read: {fault.strerror}")
                        continue
                    with safe.opened(inner):
                        self.folder(inner, target, below)
                    continue
                with safe.opened(safe.file_below(at, child)) as number:
                    data = safe.read_at_most(number, LARGEST)
                    if len(data) > LARGEST:
                        self.send_large(number, target, below)
                        continue
            except safe.NoFile as what:
                self.client.report(below, str(what))
                continue
            except OSError as fault:
                self.client.report(below, f"can't be read: {fault.strerror}")
                continue
            self.send(data, target, below)


def tag_of(number: int) -> str:
    os.lseek(number, 0, os.SEEK_SET)
    whole = in_parts.Sum()
    while part := os.read(number, LARGEST):
        whole.add(part)
    return in_parts.tag_in(whole.digest)


def children(at: int) -> list[bytes]:
    return sorted(os.fsencode(name) for name in os.listdir(at))


@dataclass
class Tally:
    """What is below a folder, by names alone: how many, and of which none is sent."""
    total: int = 0
    out: Counter[str] = field(default_factory=Counter)
    # Of files of more than a room keeps in one document.
    large: list[int] = field(default_factory=list)

    def look(self, at: int) -> None:
        for name in children(at):
            self.total += 1
            if names.why_not(name):
                self.out["with names that no room can have"] += 1
                continue
            try:
                self._one(at, name)
            except OSError:
                self.out["that can't be read"] += 1

    def _one(self, at: int, name: bytes) -> None:
        kind = safe.kind_below(at, name)
        if kind == "folder":
            with safe.opened(safe.folder_below(at, name)) as inner:
                self.look(inner)
        elif kind == "link":
            self.out["links"] += 1
        elif kind == "other":
            self.out["neither files nor folders"] += 1
        elif not os.access(name, os.R_OK, dir_fd=at, effective_ids=True):
            self.out["that can't be read"] += 1
        elif (size := os.stat(name, dir_fd=at, follow_symlinks=False).st_size) > LARGEST:
            self.large.append(size)

    def judge(self, most: int) -> None:
        """Where a document may have so many bytes."""
        if count := sum(size > most for size in self.large):
            self.out[f"of more than {most} bytes"] = count

    def text(self) -> str:
        left = ", ".join(f"{number} {what}" for what, number in sorted(self.out.items()))
        return (f"of {self.total} files and folders no date, owner or right is taken over; "
                f"left out: {left or 'none'}")
