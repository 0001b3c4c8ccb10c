"""For tests: a verb of rooms-admin whose calls of the system are counted, so that it can be killed
at each of them. STAND, KILL_AT and KILL_HOW are those of tests/lib/units.sh; the words are those of
rooms-admin."""
import builtins
import fnmatch
import os
import signal
import subprocess
import sys
import tarfile
import time

here = os.path.dirname(os.path.realpath(__file__))
sys.path.insert(0, os.path.join(here, "..", "..", "admin"))
stand = os.environ["STAND"]
# Compiled once for all runs of a case.
sys.pycache_prefix = os.path.join(stand, "compiled")
main_process, own_user = os.getpid(), os.geteuid()
real_rename, real_open, real_write = os.rename, os.open, os.write
real_close, real_kill, open_text = os.close, os.kill, open
real_sleep, real_sendfile = time.sleep, os.sendfile
WRITES = os.O_WRONLY | os.O_RDWR | os.O_CREAT


def put(name, text, flags=os.O_TRUNC):
    at = real_open(f"{stand}/{name}", os.O_WRONLY | os.O_CREAT | flags, 0o644)
    real_write(at, text.encode(errors="replace"))
    real_close(at)


def step(what):
    """The signal goes to the verb, and to a process of its own that makes the call, as to all
    processes of a unit. A process that has become another user counts nothing."""
    if os.geteuid() != own_user:
        return
    with open_text(f"{stand}/count") as source:
        number = int(source.read() or 0) + 1
    put("count", f"{number}\n")
    put("steps", f"{number} {what}\n", os.O_APPEND)
    if str(number) == os.environ.get("KILL_AT", ""):
        put("hit", what)
        how = getattr(signal, "SIG" + os.environ["KILL_HOW"])
        real_kill(main_process, how)
        if os.getpid() != main_process:
            real_kill(os.getpid(), how)


def fails(tool):
    try:
        with open_text(f"{stand}/no-tool") as source:
            return fnmatch.fnmatchcase(tool, source.read().strip())
    except OSError:
        return False


def hook(*names):
    """What is in at-NAME is done once, before the call."""
    for name in names:
        if os.path.exists(f"{stand}/at-{name}"):
            real_rename(f"{stand}/at-{name}", f"{stand}/hook")
            subprocess.run(["bash", f"{stand}/hook"], stdin=subprocess.DEVNULL,
                           stdout=subprocess.DEVNULL, stderr=subprocess.DEVNULL)


def wrap(module, name, tool=None, hooks=()):
    real = getattr(module, name)

    def wrapped(*given, **named):
        if name in ("copy_file_range", "sendfile") and os.path.exists(f"{stand}/slow"):
            with open_text(f"{stand}/slow") as source:
                real_sleep(float(source.read()))
            given = (*given[:-1], 1 << 16)
        if name == "open" and (not given[1] & WRITES or given[0] == os.devnull):
            return real(*given, **named)
        step(f"{name} {given[:1]}")
        hook(*hooks)
        if tool and fails(tool):
            raise OSError(5, "Input/output error")
        return real(*given, **named)
    setattr(module, name, wrapped)


for one, stands_for, before in (
        ("mkdir", "mkdir", ("mkdir",)), ("rename", "mv", ("mv",)), ("unlink", None, ("rm",)),
        ("rmdir", None, ()), ("open", None, ()), ("fsync", "sync", ()), ("symlink", None, ()),
        ("copy_file_range", "cat", ("cat", "setpriv")), ("sendfile", "cat", ("cat", "setpriv")),
        ("chmod", None, ()), ("chown", None, ()), ("kill", None, ())):
    wrap(os, one, stands_for, before)
wrap(signal, "pidfd_send_signal")
real_addfile = tarfile.TarFile.addfile


def addfile(*given):
    if fails("tar"):
        raise OSError(5, "Input/output error")
    return real_addfile(*given)


real_fchown = os.fchown


def fchown(number, owner, group):
    """A private copy gets to whom it is for."""
    name = os.path.basename(os.readlink(f"/proc/self/fd/{number}"))
    if os.path.exists(f"{stand}/chowns"):
        step(f"fchown {name} {owner}")
    real_fchown(number, owner, group)


def opens(name, mode="r", *given, **named):
    """A mark, and what else is written under its name at once."""
    if mode != "r" and "b" not in mode and not str(name).startswith("/proc/"):
        step(f"open {name}")
    return open_text(name, mode, *given, **named)


class Counted(subprocess.Popen):
    """What runs as another user can't count itself."""

    def __init__(self, words, *given, **named):
        if "user" in named:
            name = os.path.basename(os.fsdecode(words[0]))
            step(" ".join([name, *map(os.fsdecode, words[1:])]))
        super().__init__(words, *given, **named)


tarfile.TarFile.addfile = addfile
subprocess.Popen = Counted
os.fchown, builtins.open = fchown, opens
time.sleep = lambda seconds: hook("sleep")
import http.client  # noqa: E402
from rooms_admin.host import safe, unheld  # noqa: E402
from rooms_admin.room import published, waits  # noqa: E402

# Who is killed does the work itself.
unheld.go_on = lambda: None
# Nobody waits as long as an office does, and a case may have numbers of its own.
waits.TURN = 5.0
if os.path.exists(f"{stand}/waits"):
    with open_text(f"{stand}/waits") as source:
        for name, value in (line.split("=") for line in source.read().split()):
            setattr(waits, name, float(value))
if os.path.exists(f"{stand}/clones"):
    with open_text(f"{stand}/clones") as source:
        clones = source.read().strip() == "yes"

    def clone(from_, to):
        for number in (from_, to):
            os.lseek(number, 0, os.SEEK_SET)
        while clones and real_sendfile(to, from_, None, 1 << 20):
            pass
        return clones
    safe.clone = clone


def count(owner, name):
    real = getattr(owner, name)

    def counted(*given, **named):
        step(f"{name} {given[1:]}")
        return real(*given, **named)
    setattr(owner, name, counted)


# A request that goes out, and its reply.
count(http.client.HTTPConnection, "connect")
count(http.client.HTTPConnection, "getresponse")
count(published, "exchange")
from rooms_admin.__main__ import main  # noqa: E402
sys.exit(main(sys.argv[1:], "rooms-admin"))
