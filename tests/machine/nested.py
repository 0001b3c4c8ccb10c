"""For tests: makes a folder wherever a program in the place of a service can: nested.py NAME."""
import contextlib
import os
import sys

for folder, below, _ in os.walk("/"):
    if folder == "/":
        below[:] = sorted({*below} - {"proc", "sys"})
    with contextlib.suppress(OSError):
        os.mkdir(f"{folder}/{sys.argv[1]}")
    with contextlib.suppress(OSError):
        at = os.open(folder, os.O_RDONLY | os.O_DIRECTORY)
        try:
            os.mkdir(sys.argv[1], dir_fd=at)
        finally:
            os.close(at)
