"""terminal.py ADMIN FOLDER: presses keys while a verb is at work, whose program waits as long as
FOLDER has a file 'wait', and looks whether the room is free while whoever called it is stopped."""
import fcntl
import os
import pty
import select
import subprocess
import sys
import time
from collections.abc import Callable

ADMIN, FOLDER = sys.argv[1:]
LOCK = f"{FOLDER}/run/.rooms-admin/rooms@office"
VERB = [ADMIN, "user", "change", "--room", f"{FOLDER}/office.conf"]
PATIENCE = 60.0
MANY = [f"g{number:04d}{'x' * 55}" for number in range(1500)]


def place(name: str) -> str:
    return os.path.join(FOLDER, name)


def until(what: Callable[[], object], seconds: float = PATIENCE) -> bool:
    ends = time.monotonic() + seconds
    while not what():
        if time.monotonic() > ends:
            return False
        time.sleep(0.05)
    return True


def is_free() -> bool:
    with open(LOCK, "ab") as lock:
        try:
            fcntl.flock(lock, fcntl.LOCK_EX | fcntl.LOCK_NB)
            return True
        except BlockingIOError:
            return False


def check(name: str, holds: object, said: object = "") -> None:
    if not holds:
        sys.exit(f"not ok {name}: {said}")
    print(f"ok {name}", flush=True)


class Terminal:
    """A shell with job control, which prints how the verb stopped or ended, and has it go on in the
    foreground at the next line."""

    def __init__(self, *words: str) -> None:
        for name in ("looks", "changed"):
            if os.path.exists(place(name)):
                os.unlink(place(name))
        open(place("wait"), "w", encoding="ascii").close()
        self.said = b""
        self._child, self._at = pty.fork()
        if self._child == 0:
            os.execvp("bash", ["bash", "-c", 'set -m; "$@"; echo "status $?"; read -r _; '
                               'fg; echo "ended $?"', "bash", *VERB, *words])
        check("it is at work", until(lambda: self.has(b"") and os.path.exists(place("looks"))))

    def has(self, text: bytes) -> bool:
        """What came so far."""
        while select.select([self._at], [], [], 0)[0]:
            try:
                self.said += os.read(self._at, 1 << 16)
            except OSError:
                break
        return text in self.said

    def press(self, key: bytes) -> None:
        os.write(self._at, key)

    def waits_for(self, text: bytes) -> None:
        check(f"it says {text!r}", until(lambda: self.has(text)), self.said)

    def end(self) -> None:
        os.close(self._at)
        os.waitpid(self._child, 0)


def goes_on(name: str) -> None:
    os.unlink(place("wait"))
    check(f"{name}: the room is free", until(is_free, 20))
    check(f"{name}: and it is done", os.path.exists(place("changed")))


def stopped() -> None:
    at = Terminal("--new", "--add", "sales", "bob")
    at.press(b"\x1a")
    at.waits_for(b"status 148")
    goes_on("Ctrl-Z")
    at.press(b"\n")
    at.waits_for(b"+ sales,bob")
    at.waits_for(b"ended 0")
    at.end()


def silenced() -> None:
    at = Terminal("--new", "--add", "sales", "bob")
    at.press(b"\x13")
    goes_on("Ctrl-S")
    check("nothing is said meanwhile", not at.has(b"sales"), at.said)
    at.press(b"\x11")
    at.waits_for(b"+ sales,bob")
    at.waits_for(b"status 0")
    at.end()


def ended() -> None:
    at = Terminal("--new", "--add", "sales", "bob")
    at.press(b"\x03\x03\x03")
    at.waits_for(b"interrupted")
    at.waits_for(b"status 1")
    check("Ctrl-C: the room is free", until(is_free, 20))
    check("Ctrl-C: nothing is done", not os.path.exists(place("changed")))
    os.unlink(place("wait"))
    at.end()


def unread() -> None:
    words = [word for one in MANY for word in ("--add", one)]
    with subprocess.Popen([*VERB, "--new", *words, "bob"], stdout=subprocess.PIPE) as child:
        assert child.stdout
        check("a full pipe: it is done", until(lambda: os.path.exists(place("changed"))))
        check("a full pipe: the room is free", until(is_free, 20))
        check("a full pipe: it waits", child.poll() is None)
        lines = child.stdout.read().split(b"\n")
    check("a full pipe: all is said", lines[:1500] == [b"+ %s,bob" % one.encode() for one in MANY],
          lines[-3:])
    check("a full pipe: its status", child.returncode == 0, child.returncode)


def refused() -> None:
    """As before, and in the order in which it is said."""
    done = subprocess.run([*VERB, "--add", "nobodys", "bob"], capture_output=True, text=True,
                          check=False)
    check("a refusal has its status", done.returncode == 2, done)
    check("and its words", done.stderr.startswith("rooms-admin user: no group: nobody is in nob")
          and not done.stdout, done)
    done = subprocess.run([*VERB, "--drop", "staff", "--drop", "sales", "bob"], text=True,
                          stdout=subprocess.PIPE, stderr=subprocess.STDOUT, check=False)
    check("lines of both streams have their order", done.stdout.split("\n")[:2] == [
        "- staff,bob", "rooms-admin user: bob isn't in sales"], done)
    for stream in ("stdout", "stderr"):
        with open("/dev/full", "w", encoding="ascii") as full:
            done = subprocess.run([*VERB, "--new", "--add", "full", "bob"], check=False,
                                  **{stream: full})  # type: ignore[call-overload]
        check(f"a full {stream}: its status", done.returncode == (stream == "stdout"), done)


stopped()
silenced()
ended()
if os.path.exists(place("changed")):
    os.unlink(place("changed"))
unread()
refused()
