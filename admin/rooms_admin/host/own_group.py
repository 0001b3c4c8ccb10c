"""A process that was begun by another account's systemd, as by systemd-run --user sudo, is in a
control group of that account, who may freeze all in it, or kill it, or give it next to no time. One
that was begun where an account has signed in is in a group of root's; but systemd-logind sends all
in that whatever signal the account asks for, as by loginctl kill-session, or ends it."""
import os
import re
import time
from collections.abc import Iterator

from . import commands
from ..cli.report import Refused

# Where there are groups of both versions, those of the second, which alone are given away, are in a
# folder of their own.
_PLACES = ("/sys/fs/cgroup/unified", "/sys/fs/cgroup")
_PATIENCE = 10.0
# Where an account has signed in; root is 0.
_SIGNED_IN = re.compile(r"user-[1-9][0-9]*\.slice", re.ASCII)


def _folders() -> Iterator[str]:
    """That of this process, and those above it."""
    with open("/proc/self/cgroup", encoding="utf-8", errors="surrogateescape") as source:
        ours = [line.rstrip("\n").removeprefix("0::") for line in source if line.startswith("0::")]
    above = next((one for one in _PLACES if os.path.exists(f"{one}/cgroup.procs")), "")
    for at in ours if above else []:
        parts = at.strip("/").split("/")
        # One outside of the machine that this is, as of a container, isn't shown.
        count = 0 if ".." in parts else len(parts)
        yield from (os.path.join(above, *parts[:one]) for one in range(1, count + 1))


def _is_anothers() -> bool:
    try:
        return any(_SIGNED_IN.fullmatch(os.path.basename(one)) or os.stat(one).st_uid != 0
                   for one in _folders())
    except OSError:
        return False  # It has none, or isn't shown it.


def _moved() -> str:
    """What systemd says where it makes no scope for this process. It is asked at its own socket,
    which is root's: any account can take all connections that the system's bus has."""
    into = "; ".join(f"[ -e {one}/cgroup.procs ] && exec tee {one}$at/cgroup.procs"
                     for one in _PLACES)
    words = ["systemd-run", "--scope", "--quiet", "--collect", "--slice=system.slice",
             f"--unit=rooms-admin-{os.getpid()}", "--", "sh", "-c",
             f"at=$(sed -n s/^0:://p /proc/self/cgroup); {into}"]
    try:
        done = commands.run(words, str(os.getpid()).encode())
    except OSError as fault:
        return f"no systemd-run: {fault.strerror}"
    return done.said or f"status {done.status}" if done.status else ""


def leave_anothers() -> None:
    """For a process of root's: into a group of root's alone."""
    if os.geteuid() != 0 or not (os.path.isdir("/run/systemd/system") and _is_anothers()):
        return
    said, ends = _moved(), time.monotonic() + _PATIENCE
    while not said and _is_anothers():
        time.sleep(0.02)
        if time.monotonic() > ends:
            said = f"nothing came of it for {_PATIENCE:.0f} s"
    if said:
        raise Refused("not safe: whoever calls this could stop it at any moment, and no group of "
                      f"root's takes it: {said}")
