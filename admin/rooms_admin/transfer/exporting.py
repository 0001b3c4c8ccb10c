"""A folder of a room, or of a backup, as files."""
import errno
import json
import os
from collections.abc import Iterator

from ..cli import report
from ..host import safe
from ..room import in_parts, names, private_server, program, settings
from ..lists import dump, entries
from ..cli.report import Stop
from ..room.http_client import Client, raise_limits

NEXT = "remove what was written, and try again"


class Export:
    def __init__(self, client: Client, lists: bool,
                 acls: dict[bytes, bytes] | None = None) -> None:
        self.client = client
        self.lists = lists
        # Out of a backup they are those of that night, and not those by which it is read.
        self.acls = acls
        self.folders = 0
        self.documents = 0

    def object(self, kind: str, path: bytes, within: int, name: bytes) -> None:
        report.progress(os.fsdecode(path))
        if kind == "document":
            got = self.client.ask("GET", "doc", path)
            if got.status != 200:
                self.client.report(path, f"not read: {got.text()}")
            elif self.place(path, within, name, self.parts(path, got.body)):
                self.documents += 1
            return
        try:
            os.mkdir(name, dir_fd=within)
            at = safe.folder_below(within, name)
        except OSError as fault:
            self.client.report(path, f"not written, nor what is in it: {safe.reason(fault)}")
            return
        self.folders += 1
        with safe.opened(at):
            self.folder(path, at)

    def folder(self, path: bytes, at: int) -> None:
        children = self.children(path)
        base = path.rstrip(b"/")
        for kind, name in children:
            self.object(kind, base + b"/" + name, at, name)
        # After all documents: where a document has the name of a list, the document is written.
        for kind, name in children if self.lists else []:
            self.acl(kind, base + b"/" + name, at, name + b".acl")

    def parts(self, path: bytes, body: bytes) -> Iterator[bytes]:
        """The bytes of a document, which may have more than the room keeps in one."""
        manifest = in_parts.read(body)
        if manifest is None:
            yield body
            return
        for index, (number, _) in enumerate(manifest.parts):
            got = self.client.ask("GET", "doc", path + in_parts.end_of(number).encode())
            if got.status != 200 or not manifest.is_part(index, got.body):
                raise OSError(errno.EIO, f"part {number} is missing or was changed: {got.status}")
            yield got.body

    def children(self, path: bytes) -> list[tuple[str, bytes]]:
        got = self.client.ask("GET", "folder", path)
        if got.status != 200:
            self.client.report(path, f"not listed: {got.text()}")
            return []
        found = []
        try:
            rows = json.loads(got.body.decode("utf-8", "surrogateescape"))
            parts = in_parts.hidden(row["name"] for row in rows if row["kind"] == "document")
            for row in rows:
                kind, name = row["kind"], row["name"].encode("utf-8", "surrogateescape")
                if kind == "document" and row["name"] in parts:
                    continue
                if kind in ("folder", "document") and names.is_object(name):
                    found.append((kind, name))
                else:
                    self.client.report(path + b"/" + name, "left out: no room has such a name")
        except (ValueError, TypeError, KeyError, AttributeError) as fault:
            self.client.report(path, f"not listed: the reply is no listing: {fault}")
        return found

    def place(self, path: bytes, within: int, name: bytes, data: bytes | Iterator[bytes],
              what: str = "not written") -> bool:
        """A name is never taken twice, and a file that can't be written to its end is removed."""
        try:
            safe.new_file(within, name, data)
            return True
        except OSError as fault:
            self.client.report(path, f"{what}: {safe.reason(fault)}")
            return False

    def acl(self, kind: str, path: bytes, within: int, name: bytes) -> None:
        if self.acls is not None:
            self.place(path, within, name, self.acls.get(path, b""), "its lists aren't written")
            return
        got = self.client.ask("GET", "attr", path)
        if got.status != 200:
            self.client.report(path, f"its owners aren't read: {got.text()}")
            return
        try:
            row = json.loads(got.body)
            text = f"{kind} {row['owner']} {row['group']}\n".encode()
        except (ValueError, TypeError, KeyError) as fault:
            self.client.report(path, f"its owners aren't read: {fault}")
            return
        for which in ("dacl", "sacl"):
            got = self.client.ask("GET", which, path)
            if got.status != 200:
                self.client.report(path, f"its lists aren't read: {got.text()}")
                return
            text += which.encode() + b"\n" + got.body.rstrip(b"\n") + b"\n"
        self.place(path, within, name, text, "its lists aren't written")


def open_all(room: settings.Room, copied: str, path: bytes
             ) -> tuple[dict[bytes, bytes], list[tuple[bytes, str]]]:
    """The lists as they are, by path. Then the root lets one name read all, and what has a list of
    its own on the way or below inherits that too; those where that can't be, and why."""
    status, out, text = program.on_copy(room, copied, ["dump"])
    if status != 0:
        raise Stop(f"dump of the copy failed: {text or out[:300].decode(errors='replace')}")
    acls: dict[bytes, bytes] = {}
    own = []
    for one in dump.parsed(out.split(b"\n")):
        about = f"{one.kind} {one.owner} {one.group}\n".encode()
        acls[one.path] = about + b"".join(
            b"%s\n" % line for line in [b"dacl", *one.dacl, b"sacl", *one.sacl])
        if one.path != b"/" and (one.dacl[:1] != [b"list:a"] or entries.is_own(one.dacl)):
            own.append(one.path)
    opens = f"list:a\nA:fd:{private_server.USER}:rx\n".encode()
    if why := private_server.set_list(room, copied, b"/", opens):
        raise Stop(f"failed: the lists of the copy: {why}")
    base = path.rstrip(b"/") + b"/"
    closed = []
    for at in own:
        if at == path or at.startswith(base) or base.startswith(at + b"/"):
            if why := private_server.set_list(room, copied, at, b"list:a\n"):
                closed.append((at, why))
    return acls, closed


def export(asked: Client, path: bytes, into: bytes, lists: bool,
           acls: dict[bytes, bytes] | None) -> int:
    raise_limits()
    got = asked.ask("GET", "folder", path)
    if got.status != 200 and b'"why":"wrong-kind"' not in got.body:
        raise Stop(f"{names.shown(path)}: {got.text()}")
    kind = "folder" if got.status == 200 else "document"
    task = Export(asked, lists, acls)
    # Links on the way to DIR are those of whoever runs this; below DIR none is followed.
    within, name = os.path.split(into)
    try:
        at = safe.folder(within or b".")
    except OSError as fault:
        asked.report(path, f"not written, nor what is in it: {safe.reason(fault)}")
        if task.lists:
            asked.report(path, f"its lists aren't written: {safe.reason(fault)}")
    else:
        with safe.opened(at):
            task.object(kind, path, at, name)
            if task.lists:
                task.acl(kind, path, at, name + b".acl")
    report.end_progress()
    print(f"folders {task.folders}, documents {task.documents}, left out {asked.left_out}")
    return 0 if asked.left_out == 0 else 1
