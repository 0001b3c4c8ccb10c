"""Jobs of root's that at keeps. Any account may keep some there, of any size."""
from collections.abc import Iterator

from .commands import printed


def of_root() -> Iterator[tuple[str, str]]:
    """What atq says of each, and what it runs."""
    for line in printed(["atq"]).splitlines():
        if line.split()[-1:] == ["root"]:
            yield line, printed(["at", "-c", line.split("\t")[0]])
