"""How a command of the machine is run, and the only module that runs one: it speaks plain English
in UTF-8, whatever the language of whoever calls, and has a limit of time, since a disk or another
machine may hang."""
import os
import subprocess
from collections.abc import Callable, Sequence
from dataclasses import dataclass
from typing import Any, TypeAlias

from ..cli.report import Stop

SECONDS = 60.0
PIPE, NOTHING, TOGETHER = subprocess.PIPE, subprocess.DEVNULL, subprocess.STDOUT
Child: TypeAlias = subprocess.Popen[bytes]
# What systemctl answers at once; all else waits for servers, which may read their files for long.
_ASKS = ("is-active", "is-enabled", "show", "reset-failed", "list-units")


class Slow(Stop):
    """It was ended."""


@dataclass
class Done:
    status: int
    out: str
    said: str


@dataclass(frozen=True)
class Who:
    """As whom a command runs that isn't to be the caller: numbers, and no other group."""
    user: int
    group: int


def patience(words: Sequence[str]) -> float | None:
    return None if words[0] == "systemctl" and words[1] not in _ASKS else SECONDS


def _ours() -> dict[str, str]:
    return {**os.environ, "LC_ALL": "C.UTF-8"}


def _run(words: Sequence[str], seconds: float | None, **how: Any) -> Done:
    try:
        done = subprocess.run(words, timeout=seconds, check=False, env=_ours(), **how)
    except subprocess.TimeoutExpired as fault:
        raise Slow(f"{words[0]} takes more than {seconds:.0f} s") from fault
    return Done(done.returncode, (done.stdout or b"").decode(errors="backslashreplace").strip(),
                (done.stderr or b"").decode(errors="backslashreplace").strip())


def run(words: Sequence[str], given: bytes = b"", seconds: float | None = SECONDS,
        quiet: bool = True, pass_fds: tuple[int, ...] = ()) -> Done:
    """What it says of faults is shown if not `quiet`. A command that isn't there is an OSError."""
    return _run(words, seconds, input=given, stdout=subprocess.PIPE, pass_fds=pass_fds,
                stderr=subprocess.PIPE if quiet else None)


def together(words: Sequence[str], seconds: float | None = SECONDS) -> Done:
    """What it says of faults stands where it says it, among the rest. It runs where nobody can take
    its folder away."""
    return _run(words, seconds, stdin=subprocess.DEVNULL, stdout=subprocess.PIPE,
                stderr=subprocess.STDOUT, cwd="/")


def beyond(words: Sequence[str], most: int) -> Done:
    """As `together`, where another machine says how long it takes, and how much it says: it is
    ended where that is more than so many bytes."""
    with subprocess.Popen(words, stdin=NOTHING, stdout=PIPE, stderr=TOGETHER, cwd="/",
                          env=_ours()) as one:
        assert one.stdout
        try:
            said = one.stdout.read(most + 1)
            if len(said) > most:
                one.kill()
        except BaseException:
            one.kill()
            raise
    return Done(one.returncode, said[:most].decode(errors="backslashreplace").strip(), "")


def faults(words: Sequence[str], seconds: float | None = SECONDS) -> Done:
    """What it prints, which may be more than fits into memory, is for nobody."""
    return _run(words, seconds, stdin=subprocess.DEVNULL, stdout=subprocess.DEVNULL,
                stderr=subprocess.PIPE)


def printed(words: Sequence[str]) -> str:
    """What it prints, which is nothing where it can't be run."""
    try:
        return run(words).out
    except (OSError, Slow):
        return ""


def bounded(words: Sequence[str], most: int, faults: int,
            pass_fds: tuple[int, ...]) -> tuple[int, bytes]:
    """Its status, which is below 0 where it was ended, and what it says: one that says more than so
    many bytes isn't waited for. `faults` is where it says what is wrong. The limit of time is that
    of the unit."""
    one = subprocess.Popen(words, stdin=NOTHING, stdout=PIPE, stderr=faults, pass_fds=pass_fds,
                           env=_ours())
    assert one.stdout
    with one.stdout:
        said = one.stdout.read(most + 1)
    return (-1, b"") if len(said) > most else (one.wait(), said)


def shown(words: Sequence[str], given: bytes = b"") -> bool:
    """Whether it went well. What it says is on standard error, as this process's own lines are."""
    try:
        return _run(words, patience(words), input=given, stdout=2).status == 0
    except (OSError, Slow):
        return False


def in_place(words: Sequence[str]) -> int:
    """Its status. It has this process's terminal and streams, and as much time as it takes."""
    return subprocess.run(words, check=False).returncode


def _or_ends(before: Callable[[], None]) -> Callable[[], None]:
    """What a child does first. Without it none goes on: it ends as the program does at a fault."""
    def begins() -> None:
        try:
            before()
        except Stop as fault:
            os.write(2, f"{fault}\n".encode())
            os._exit(3)
    return begins


def started(words: Sequence[str | bytes], before: Callable[[], None], who: Who | None = None,
            stdin: int = PIPE, stdout: int = PIPE, pass_fds: tuple[int, ...] = (),
            cwd: str | None = None, umask: int = 0o077) -> Child:
    """One that goes on beside this process, which looks after it: `before` is done in it first. Its
    folder is entered before it becomes another user, who need not get there. That one has no
    terminal: whoever else is that user could type there by it."""
    how: dict[str, Any] = {}
    if who is not None:
        how = {"user": who.user, "group": who.group, "extra_groups": [], "start_new_session": True}
    return subprocess.Popen(words, stdin=stdin, stdout=stdout, stderr=subprocess.PIPE, umask=umask,
                            preexec_fn=_or_ends(before), pass_fds=pass_fds, cwd=cwd, env=_ours(),
                            **how)
