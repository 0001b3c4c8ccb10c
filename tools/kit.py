"""The parts of the command rt that these tools stand on: its crates, its checks, its edits."""
import importlib.machinery
import importlib.util
import os
import re
import shutil
import sys
import threading
import time
from concurrent.futures import FIRST_COMPLETED, ThreadPoolExecutor, wait

TOP = os.path.dirname(os.path.dirname(os.path.realpath(__file__)))
# A crate for which the end of a build can wait longer, in seconds, waits for a processor.
SPARE = 60


def load_rt(tool):
    """Loads the command rt as a module, or ends where there is none."""
    sys.dont_write_bytecode = True
    path = os.path.realpath(shutil.which("rt") or sys.exit(f"{tool}: there is no rt"))
    sys.path.insert(0, os.path.dirname(path))
    loader = importlib.machinery.SourceFileLoader("rt_main", path)
    module = importlib.util.module_from_spec(importlib.util.spec_from_loader("rt_main", loader))
    loader.exec_module(module)
    return module


def crates_in_order(rt):
    """Returns the repository's crates, each after those that it stands on."""
    return sorted(rt.rtlib.crates_below(TOP), key=lambda it: len(it.below()))


def lines_of(crate):
    return crate.count(rb"\n")


def seconds_of(crates):
    """Returns how long each crate's build takes: as docs/proofs.md has it of the last one that was
    measured, and by its lines where it isn't there."""
    with open(f"{TOP}/docs/proofs.md", encoding="utf-8") as page:
        table = page.read().partition("<!-- build -->")[2].partition("<!-- /build -->")[0]
    told = {name: int(number) for name, number in re.findall(r"`(\w+)`\s(\d+)", table)}
    measured = [it for it in crates if it.name in told]
    lines = sum(map(lines_of, measured))
    each = sum(told[it.name] for it in measured) / lines if lines else 1
    return {it: told.get(it.name, lines_of(it) * each) for it in crates}


def seconds_above(crates):
    """Returns for each crate the seconds of the longest chain of crates that begins with it."""
    seconds = seconds_of(crates)
    chain = dict(seconds)
    for crate in sorted(crates, key=lambda it: -len(it.below())):
        for below in crate.below():
            if below in chain:
                chain[below] = max(chain[below], seconds[below] + chain[crate])
    return chain


def side_by_side(crates, work):
    """Calls work(crate, jobs) for each crate once it was true for those below it, and returns what
    each call returned. As many run at once as there are processors and memory, longest chain first.
    One that the end waits for begins at once, and gets more of the processors than others."""
    lanes, memory = len(os.sched_getaffinity(0)), free_memory()
    chain, given, running = seconds_above(crates), {}, {}
    left = sorted(crates, key=lambda it: -chain[it])
    while left or running:
        ready = [
            it for it in left if all(given.get(low) is True for low in it.below() if low in chain)
        ]
        now = time.monotonic()
        longest = max(
            [chain[it] for it in left]
            + [chain[it] - (now - began) for it, _, began in running.values()]
        )
        for at, crate in enumerate(ready):
            idle = lanes - sum(jobs for _, jobs, _ in running.values())
            taken = sum(need(it) for it, _, _ in running.values())
            spare = longest - chain[crate]
            if running and (taken + need(crate) > memory or idle < 1 and spare > SPARE):
                break
            # What no other crate waits to use goes to a crate that gains from it.
            jobs = max(1, idle // (len(ready) - at)) if lines_of(crate) >= 500 else 1
            left.remove(crate)
            running[submit(spare, work, crate, jobs)] = crate, jobs, now
        if not running:
            # What is left depends on a crate that failed.
            return given
        for done in wait(running, timeout=SPARE / 6, return_when=FIRST_COMPLETED).done:
            given[running.pop(done)[0]] = done.result()
    return given


def submit(spare, work, crate, jobs):
    """Begins a call in a thread of its own, so nice that what can wait hardly hinders what can't: a
    process can make itself nicer, and not less so."""

    def call():
        thread = os.PRIO_PROCESS, threading.get_native_id()
        os.setpriority(*thread, min(19, os.getpriority(*thread) + int(spare // 6)))
        return work(crate, jobs)

    pool = ThreadPoolExecutor(1)
    begun = pool.submit(call)
    pool.shutdown(wait=False)
    return begun


def need(crate):
    """Returns the memory that a check of the crate is taken to need, in bytes."""
    return 1_200_000_000 + 1_500_000 * lines_of(crate)


def free_memory():
    with open("/proc/meminfo", encoding="ascii") as lines:
        return (
            next(1024 * int(it.split()[1]) for it in lines if it.startswith("MemAvailable:"))
            * 9
            // 10
        )
