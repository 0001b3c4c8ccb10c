"""What is tried as a room's user, in a process of theirs: whatever the file holds, it does no more
than its user could."""
import errno
import json
import os
import pwd
import shutil
import signal
import sqlite3
import sys
import tempfile
from collections.abc import Callable, Iterator
from contextlib import closing, contextmanager, suppress

from . import commands, processes, safe, tempdirs
from ..cli.report import Stop

Work = Callable[[], list[list[str]]]
# Bytes: twice the largest document, and as much for the log.
TRIAL = 4194304
# Of what differs from a room's tables, as much is named.
MOST_NAMED = 5


def _become(user: pwd.struct_passwd) -> None:
    if os.getuid() != user.pw_uid:
        # What it begins has no terminal, where whoever else is that user could type by it.
        os.setsid()
        os.setgroups([])
        os.setresgid(user.pw_gid, user.pw_gid, user.pw_gid)
        os.setresuid(user.pw_uid, user.pw_uid, user.pw_uid)
        processes.reach_nobody()
        processes.make_no_folders()


def _found(user: pwd.struct_passwd, work: Work) -> list[list[str]] | str:
    """Or why there was no work."""
    try:
        _become(user)
        return work()
    except Stop as fault:
        return str(fault)


def as_user(user: pwd.struct_passwd, work: Work) -> list[list[str]]:
    """What the work gives, done by a process of this user, which can't become another one."""
    ours, theirs = os.pipe()
    sys.stdout.flush()
    child = os.fork()
    if child == 0:
        try:
            text = json.dumps(_found(user, work)).encode()
            while text:
                text = text[os.write(theirs, text):]
            os._exit(0)
        finally:
            os._exit(1)
    os.close(theirs)
    try:
        with os.fdopen(ours, "rb") as source:
            text = source.read(1 << 20)
    except BaseException:
        # No key of the terminal ends it.
        with suppress(ProcessLookupError):
            os.killpg(child, signal.SIGKILL)
        raise
    status = os.waitpid(child, 0)[1]
    if status != 0:
        return [["unknown", f"a process of {user.pw_name} ended, status {status}"]]
    found = json.loads(text)
    if isinstance(found, str):
        raise Stop(found)
    return [[str(word) for word in row] for row in found]


def try_writing(folder: str) -> list[list[str]]:
    """Nothing but a try tells of quotas, of blocks that are kept for root, and of a disk that
    fails."""
    try:
        number, place = tempfile.mkstemp(prefix=".rooms-doctor.", dir=folder)
    except OSError as fault:
        return [_of_fault(fault)]
    try:
        left = TRIAL
        while left:
            left -= os.write(number, bytes(min(left, 1 << 16)))
        os.fsync(number)
        return []
    except OSError as fault:
        return [_of_fault(fault)]
    finally:
        os.close(number)
        os.unlink(place)


def _of_fault(fault: OSError) -> list[str]:
    said = fault.strerror or str(fault)
    kinds = {errno.ENOSPC: "no space", errno.EDQUOT: "no space", errno.EROFS: "read-only",
             errno.EPERM: "permission", errno.EACCES: "permission"}
    return [kinds.get(fault.errno or 0, "disk"), said]


def kind(file: str) -> list[list[str]]:
    try:
        with open(file, "rb", opener=safe.at_once) as source:
            head = source.read(16)
    except OSError as fault:
        if fault.errno in (errno.EACCES, errno.EPERM):
            return []  # That is told of its rights.
        return [["disk", f"it can't be read: {fault.strerror}; dmesg says more. Restore a backup "
                 "to another disk"]]
    if not head:
        return [["not a room", f"{file} is empty, as an init that was cut off leaves it: remove "
                 "it, or restore a backup"]]
    if not head.startswith(b"SQLite format 3"):
        return [["not a room", f"{file} is no database: name the right file, or restore a backup"]]
    return []


@contextmanager
def own_folder(user: pwd.struct_passwd) -> Iterator[str]:
    """A folder of the user's."""
    with tempdirs.folder("rooms-doctor", user.pw_uid) as made:
        if os.getuid() != user.pw_uid:
            os.chown(made, user.pw_uid, user.pw_gid)
        yield made


def verify(program: str, file: str, place: str) -> list[list[str]]:
    """Of a copy, since verify writes into the file. The log belongs to it."""
    copy = os.path.join(place, "room")
    for end in ("", "-wal"):
        try:
            if not end or os.path.exists(file + end):
                shutil.copyfile(file + end, copy + end)
        except OSError as fault:
            if fault.errno in (errno.EACCES, errno.EPERM) and not os.access(file + end, os.R_OK):
                return []  # That was told already.
            if fault.errno == errno.EIO:
                return [["disk", f"it can't be read: {fault.strerror}; dmesg says more. Restore a "
                         "backup to another disk"]]
            return [["unknown", f"whether it is sound, since a copy in {place} fails: "
                     f"{fault.strerror}"]]
    status, said = _run(program, "verify", copy)
    if said == "sound":
        return _records(program, copy)
    if said == "refused: not a rooms file":
        return [["not a room", f"{file} is a database of another program"]]
    if said == "fault: database" and (differs := _differing(program, copy, place)):
        return [["not a room", f"another program changed the tables of {file}: "
                 f"{', '.join(differs)}. Remove what was added, or restore the last good backup"]]
    if said == "fault ? V8 no-numbers":
        return [["no numbers", "each request that a list wants a record of is answered 500, or "
                 "each that makes an object (docs/messages.md)"]]
    if said.startswith("refused: schema"):
        return [["not a room", f"{file} is of another version: {said} (docs/messages.md)"]]
    if said == "fault: memory":
        return [["unknown", "whether it is sound, since the memory is too small"]]
    return [["damaged", f"verify gives status {status}: {said}: restore the last good backup "
             "(rooms-admin restore)"]]


def _differing(program: str, copy: str, place: str) -> list[str]:
    """What its tables, indexes, views and triggers have beside those of a new room, and what they
    lack."""
    fresh = os.path.join(place, "fresh")
    if _run(program, "init", fresh, "root", "staff")[0] != 0:
        return []
    try:
        wanted, found = _made_by(fresh), _made_by(copy)
    except sqlite3.Error:
        return []
    differs = [f"{kind} {name} isn't a room's"
               for kind, name in found if (kind, name) not in wanted]
    for (kind, name), made in wanted.items():
        if (kind, name) not in found:
            differs.append(f"{kind} {name} is missing")
        elif found[kind, name] != made:
            differs.append(_differing_columns(f"{kind} {name}", made[1], found[kind, name][1]))
    return differs[:MOST_NAMED]


def _differing_columns(of: str, wanted: list[str], found: list[str]) -> str:
    for column in wanted:
        if column not in found:
            return f"{of} lacks the column {column}"
    for column in found:
        if column not in wanted:
            return f"{of} has a column {column}"
    return f"{of} has other rules"


def _made_by(file: str) -> dict[tuple[str, str], tuple[str, list[str]]]:
    """Each table, index, view and trigger, with what made it and a table's columns."""
    with closing(sqlite3.connect(file)) as room:
        room.execute("PRAGMA trusted_schema = OFF")
        rows = room.execute("SELECT type, name, sql FROM sqlite_master LIMIT 100").fetchall()
        return {(str(kind), str(name)): (str(sql), _columns(room, kind, name))
                for kind, name, sql in rows}


def _columns(room: sqlite3.Connection, kind: str, name: str) -> list[str]:
    if kind != "table":
        return []
    return [str(row[0]) for row in room.execute("SELECT name FROM pragma_table_info(?)", (name,))]


def _records(program: str, copy: str) -> list[list[str]]:
    """verify doesn't look at them."""
    status, said = _run(program, "audit", copy, quiet=True)
    if status == 0:
        return []
    if "fault: memory" in said:
        return [["unknown", "whether each record can be read, since the memory is too small"]]
    return [["damaged", f"the room is sound, but a record can't be read: {said}. See records.csv "
             "of the last good backup"]]


def _run(program: str, *words: str, quiet: bool = False) -> tuple[int, str]:
    """A large room takes its time."""
    try:
        done = (commands.faults if quiet else commands.together)([program, *words], None)
    except OSError as fault:
        return 1, fault.strerror or str(fault)
    return done.status, (done.out + done.said)[:400]
