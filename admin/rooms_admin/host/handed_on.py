"""What whoever calls a verb by sudo hands on to its process beside words and variables: how late
its waits may end, how much it may have of what, when it goes where memory is short. It outlasts
sudo, and root's process would wait for ever, or fail, at a moment that its caller has chosen."""
import os
import resource
import signal
from collections.abc import Callable
from contextlib import suppress

from . import processes

# So much of each of these every process of root's may have; -1 is without end.
_LEAST = {resource.RLIMIT_AS: -1, resource.RLIMIT_CPU: -1, resource.RLIMIT_DATA: -1,
          resource.RLIMIT_FSIZE: -1, resource.RLIMIT_NPROC: -1, resource.RLIMIT_NOFILE: 1024,
          resource.RLIMIT_STACK: 8 << 20}
_OOM = "/proc/self/oom_score_adj"


def _is_less(one: int, other: int) -> bool:
    return one != -1 and (other == -1 or one < other)


def _raise_limits() -> None:
    for which, least in _LEAST.items():
        soft, hard = resource.getrlimit(which)
        if not _is_less(soft, least):
            continue
        try:
            resource.setrlimit(which, (least, least if _is_less(hard, least) else hard))
        except (ValueError, OSError):
            resource.setrlimit(which, (hard, hard))


def _stay() -> None:
    with open(_OOM, "r+", encoding="ascii") as score:
        if int(score.read()) > 0:
            score.seek(0)
            score.write("0")


_OTHERS: list[Callable[[], object]] = [
    lambda: os.sched_setscheduler(0, os.SCHED_OTHER, os.sched_param(0)),
    lambda: os.setpriority(os.PRIO_PROCESS, 0, 0),
    lambda: os.sched_setaffinity(0, os.sched_getaffinity(1)), _raise_limits, _stay]


def put_off() -> None:
    """For a process of root's that others wait for, and all that it begins. It has the time of any
    other process, on every processor, and comes to the disk in its turn. (What the root of a
    container may not put off stays.)"""
    if os.geteuid() != 0:
        return
    signal.pthread_sigmask(signal.SIG_SETMASK, ())
    processes.wait_and_read_as_others()
    for put in _OTHERS:
        with suppress(OSError):
            put()
