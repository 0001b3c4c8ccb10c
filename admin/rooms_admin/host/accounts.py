"""Accounts of this machine that get to what nginx gets to."""
import csv
import grp
from contextlib import suppress

from .changes import NGINX
from .root import ROOT


def beside_nginx() -> list[str]:
    """Who is in its group, as somebody who cares for another site may be, without its own user. Of
    what a directory has the group's row tells alone."""
    try:
        group = grp.getgrnam(NGINX)
    except KeyError:
        return []
    found = set(group.gr_mem)
    with suppress(FileNotFoundError), open(f"{ROOT}/etc/passwd", encoding="utf-8",
                                           errors="surrogateescape") as source:
        for row in csv.reader(source, delimiter=":", quoting=csv.QUOTE_NONE):
            if len(row) > 3 and row[3] == str(group.gr_gid):
                found.add(row[0])
    return sorted(found - {NGINX})


def told(names: list[str]) -> str:
    return (f"not safe: in the group {NGINX}, and so any user of each room: {', '.join(names)}; "
            f"gpasswd -d NAME {NGINX}")
