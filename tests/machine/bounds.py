"""For tests: what of its budget a program in the place of a service gets: python3 bounds.py MB
It prints how many tasks it can have at once, and whether it can have so many megabytes."""
import mmap
import os
import signal
import sys

MOST, STEP = 5000, 1 << 24


def tasks() -> int:
    made = []
    try:
        while len(made) < MOST:
            child = os.fork()
            if child == 0:
                signal.pause()
            made.append(child)
    except (BlockingIOError, PermissionError):
        pass
    for child in made:
        os.kill(child, signal.SIGKILL)
        os.waitpid(child, 0)
    return len(made) + 1


def takes(megabytes: int) -> bool:
    held = []
    try:
        for _ in range((megabytes << 20) // STEP):
            held.append(mmap.mmap(-1, STEP))
            held[-1].write(b"\1" * STEP)
    except (OSError, MemoryError):
        return False
    return True


def has(megabytes: int) -> bool:
    """By a child, which is killed where that is too much; or by itself, where it may have none."""
    try:
        child = os.fork()
    except PermissionError:
        return takes(megabytes)
    if child == 0:
        os._exit(0 if takes(megabytes) else 1)
    return os.waitpid(child, 0)[1] == 0


print(f"tasks: {tasks()}", flush=True)
print(f"{sys.argv[1]} MB: {'yes' if has(int(sys.argv[1])) else 'no'}", flush=True)
