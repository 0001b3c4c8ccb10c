"""What a room leaves on a machine, and what stays."""
from contextlib import ExitStack

from ..host import as_if, locks
from ..room import published, settings
from ..backup import dates, for_search
from . import password_files
from ..cli.report import Refused
from ..host.changes import Changes


def remove_room(made: Changes, name: str) -> None:
    conf = f"/etc/rooms/{name}.conf"
    if not as_if.lexists(made.root + conf):
        raise Refused(f"no room: {conf} isn't there")
    unit = settings.value(made.root + conf, "UNIT") or f"rooms@{name}"
    if unit != f"rooms@{name}":
        raise Refused(f"another unit: UNIT in {conf} is '{unit}', which rooms-admin didn't make")
    file, kept_in = (settings.value(made.root + conf, one) for one in ("FILE", "BACKUPS"))
    kept = [file, f"{file}-wal", kept_in]
    kept += [*password_files.all_of(name), f"/etc/rooms/{name}.groups"]
    with ExitStack() as owned:
        if not made.dry:
            # Held until it is gone, so that no nightly run is at work meanwhile.
            owned.enter_context(locks.lock(f"rooms@{name}.nightly", 2))
            owned.enter_context(locks.lock(f"rooms@{name}.mine", 2))
            owned.enter_context(locks.lock(f"rooms@{name}", 2))
        if not made.root:
            made.systemctl("disable", "--now", f"{settings.nightly_unit(name)}.timer",
                           f"rooms-standby@{name}.timer", f"rooms-directory@{name}.timer",
                           f"rooms@{name}")
        say_kept(made, kept)
        made.remove_folder(f"{published.PLACE}/{name}")
        made.remove_folder(f"{dates.CHANGES}/{name}")
        for_search.remove(made, name)
        for told in dates.files(name):
            made.remove(told)
        made.remove(conf)


def say_kept(made: Changes, paths: list[str]) -> None:
    for path in paths:
        if path and as_if.lexists(made.root + path):
            print(f"kept {path}")
