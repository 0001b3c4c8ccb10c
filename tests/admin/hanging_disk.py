"""A disk that hangs: hanging_disk.py FOLDER PLACE HANGS shows FOLDER at PLACE by FUSE. While there
is a file HANGS, each call that one of its lines names ('READ', 'WRITE', 'LOOKUP', .., or 'all') has
no answer, and there is a file HANGS.seen; a line 'WRITE 5' answers it with that error number,
'READ lists.txt' is about files of that name alone, and with 'SHORT NAME' half of that file can be
read, which seems to be all of it."""
import ctypes
import errno
import os
import struct
import sys
import threading
import time

CALLS = {1: "LOOKUP", 3: "GETATTR", 4: "SETATTR", 9: "MKDIR", 10: "UNLINK", 11: "RMDIR",
         12: "RENAME", 14: "OPEN", 15: "READ", 16: "WRITE", 17: "STATFS", 18: "RELEASE",
         20: "FSYNC", 25: "FLUSH", 26: "INIT", 27: "OPENDIR", 28: "READDIR", 29: "RELEASEDIR",
         30: "FSYNCDIR", 35: "CREATE", 45: "RENAME2"}
UNANSWERED = (2, 36, 42)
FOLDER, PLACE, HANGS = sys.argv[1:]
paths, numbers, opened = {1: FOLDER}, {FOLDER: 1}, {}
lock = threading.Lock()


def hangs(call, path):
    """An error number, or 0."""
    while True:
        try:
            with open(HANGS, encoding="ascii") as source:
                said = [line.split() for line in source if line.strip()]
        except OSError:
            return 0
        found = [one[1:] for one in said if one[0] in (call, "all")]
        word = found[0][0] if found and found[0] else ""
        if not found or word and not word.isdigit() and os.path.basename(path) != word:
            return 0
        if word.isdigit():
            return int(word)
        with open(f"{HANGS}.seen", "w", encoding="ascii"):
            time.sleep(0.1)


def is_short(path):
    try:
        with open(HANGS, encoding="ascii") as source:
            return f"SHORT {os.path.basename(path)}\n" in source
    except OSError:
        return False


def number_of(path):
    with lock:
        if path not in numbers:
            numbers[path] = max(paths) + 1
            paths[numbers[path]] = path
        return numbers[path]


def attributes(path):
    seen = os.lstat(path)
    times = (seen.st_atime_ns, seen.st_mtime_ns, seen.st_ctime_ns)
    return struct.pack("<6Q10I", seen.st_ino, seen.st_size, seen.st_blocks,
                       *(one // 10**9 for one in times), *(one % 10**9 for one in times),
                       seen.st_mode, seen.st_nlink, seen.st_uid, seen.st_gid, 0, 4096, 0)


def entry(path):
    found = attributes(path)
    return struct.pack("<4Q2I", number_of(path), 0, 0, 0, 0, 0) + found


def handle(path, flags, mode=0):
    number = os.open(path, flags & ~(os.O_DIRECT | os.O_NOFOLLOW), mode)
    return struct.pack("<QIi", number, 0, 0)


def renamed(path, data, head):
    above = paths[struct.unpack_from("<Q", data)[0]]
    old, new = (os.path.join(place, os.fsdecode(name)) for place, name in zip(
        (path, above), data[head:].split(b"\0")))
    os.rename(old, new)
    with lock:
        for place in [one for one in numbers if one == old or one.startswith(old + "/")]:
            number = numbers.pop(place)
            numbers[new + place[len(old):]] = number
            paths[number] = new + place[len(old):]
    return b""


def changed(path, data):
    valid, _, _, size, _, atime, mtime, _, at, mt, _, mode, _, user, group, _ = struct.unpack_from(
        "<2I6Q8I", data)
    if valid & 1:
        os.chmod(path, mode & 0o7777)
    if valid & 6:
        os.chown(path, user if valid & 2 else -1, group if valid & 4 else -1)
    if valid & 8:
        os.truncate(path, size)
    if valid & 0x30:
        seen, now = os.lstat(path), time.time_ns()
        os.utime(path, ns=(
            now if valid & 0x80 else atime * 10**9 + at if valid & 0x10 else seen.st_atime_ns,
            now if valid & 0x100 else mtime * 10**9 + mt if valid & 0x20 else seen.st_mtime_ns))
    return struct.pack("<Q2I", 0, 0, 0) + attributes(path)


def listed(path, data):
    _, offset, size = struct.unpack_from("<2QI", data)
    out = b""
    for at, name in list(enumerate([b".", b"..", *sorted(os.listdir(os.fsencode(path)))]))[offset:]:
        one = struct.pack("<2Q2I", at + 1, at + 1, len(name), 0) + name
        one += bytes(-len(one) % 8)
        if len(out) + len(one) > size:
            break
        out += one
    return out


def of_open(call, path, data):
    """What is asked of a file or a folder that is open."""
    number = struct.unpack_from("<Q", data)[0]
    if call == "READ":
        _, offset, size = struct.unpack_from("<2QI", data)
        if is_short(path):
            size = max(0, min(size, os.fstat(number).st_size // 2 - offset))
        return os.pread(number, size, offset)
    if call == "WRITE":
        _, offset, size = struct.unpack_from("<2QI", data)
        return struct.pack("<2I", os.pwrite(number, data[40:40 + size], offset), 0)
    if call in ("RELEASE", "RELEASEDIR"):
        os.close(number)
    elif call in ("FSYNC", "FSYNCDIR"):
        os.fsync(number)
    return b""


def answer(call, path, data):
    name = os.path.join(path, os.fsdecode(data.split(b"\0")[0])) if path else ""
    if call == "INIT":
        return struct.pack("<4I2H2I2HI7I", 7, 31, 1 << 16, 0, 16, 12, 1 << 16, 1, 16, 0, 0,
                           *[0] * 7)
    if call == "LOOKUP":
        return entry(name)
    if call == "GETATTR":
        return struct.pack("<Q2I", 0, 0, 0) + attributes(path)
    if call == "SETATTR":
        return changed(path, data)
    if call in ("MKDIR", "CREATE"):
        head = 8 if call == "MKDIR" else 16
        name = os.path.join(path, os.fsdecode(data[head:].split(b"\0")[0]))
        if call == "MKDIR":
            os.mkdir(name, struct.unpack_from("<I", data)[0])
            return entry(name)
        flags, mode = struct.unpack_from("<2I", data)
        got = handle(name, flags | os.O_CREAT, mode)
        return entry(name) + got
    if call in ("UNLINK", "RMDIR"):
        (os.unlink if call == "UNLINK" else os.rmdir)(name)
        with lock:
            numbers.pop(name, None)
        return b""
    if call in ("RENAME", "RENAME2"):
        return renamed(path, data, 8 if call == "RENAME" else 16)
    if call in ("OPEN", "OPENDIR"):
        return handle(path, struct.unpack_from("<I", data)[0])
    if call == "READDIR":
        return listed(path, data)
    if call == "STATFS":
        seen = os.statvfs(path)
        return struct.pack("<5Q10I", seen.f_blocks, seen.f_bfree, seen.f_bavail, seen.f_files,
                           seen.f_ffree, seen.f_bsize, 255, seen.f_frsize, *[0] * 7)
    return of_open(call, path, data)


def serve(link, asked):
    _, code, unique, node = struct.unpack_from("<2I2Q", asked)
    call = CALLS.get(code, "")
    fault = hangs(call, paths.get(node, "")) if call and call != "INIT" else 0
    said = b""
    if not call:
        fault = errno.ENOSYS
    elif not fault:
        try:
            said = answer(call, paths.get(node, ""), asked[40:])
        except OSError as wrong:
            fault = wrong.errno
    try:
        os.write(link, struct.pack("<IiQ", 16 + len(said), -fault, unique) + said)
    except OSError:
        pass


def main():
    link = os.open("/dev/fuse", os.O_RDWR | os.O_CLOEXEC)
    libc = ctypes.CDLL(None, use_errno=True)
    how = f"fd={link},rootmode=40000,user_id=0,group_id=0,allow_other,default_permissions"
    if libc.mount(b"hanging", os.fsencode(PLACE), b"fuse", 0, how.encode()):
        sys.exit(f"no mount: {os.strerror(ctypes.get_errno())}")
    threading.stack_size(1 << 18)
    while True:
        try:
            asked = os.read(link, 1 << 17)
        except OSError as wrong:
            if wrong.errno == errno.ENOENT:
                continue
            return
        if struct.unpack_from("<I", asked, 4)[0] not in UNANSWERED:
            threading.Thread(target=serve, args=(link, asked), daemon=True).start()


main()
