"""Settings that a verb writes: the site's where there are none, and those that it changes."""
from ..host import as_if
from ..host.changes import Changes
from ..room import names, settings
from . import template


def changed(text: str, wanted: dict[str, str]) -> str:
    """Each value in the place of its last line, or at the end. All other lines stay."""
    rows = text.split("\n")
    for name, new in wanted.items():
        at = settings.having(rows, name)
        if at:
            rows[at[-1]] = f"{name}={new}"
        else:
            rows[-1:] = [f"{name}={new}", ""]
    return "\n".join(rows)


def gone(text: str) -> tuple[str, list[str]]:
    """The lines that say nothing any more as comments that tell it, and their names."""
    rows = text.split("\n")
    found = []
    for at, row in enumerate(rows):
        name = row.partition("=")[0]
        if name in settings.GONE and name != row:
            rows[at] = f"# {row} says nothing any more: each room has {settings.GONE[name]}."
            found.append(name)
    return "\n".join(rows), sorted(set(found))


def set_values(made: Changes, path: str, wanted: dict[str, str]) -> None:
    """Settings that differ."""
    wanted = {name: value for name, value in wanted.items()
              if settings.value(made.root + path, name) != value}
    if wanted:
        text = changed(template.read(made.root + path), wanted)
        said = ", ".join(f"{name}={value}" for name, value in wanted.items())
        place = made.root + path
        made.file(path, text.encode(errors="surrogateescape"), as_if.mode(place, 0o644),
                  what=f", with {said}")


def tell_gone(made: Changes) -> None:
    """In the files of rooms, once: what says nothing any more is a comment from then on. A port
    that was in reserve goes, and is passed on once somebody sets it."""
    folder = made.root + "/etc/rooms"
    for file in sorted(as_if.listdir(folder)):
        path = f"{folder}/{file}"
        if not (file.endswith(".conf") and names.is_room(settings.name_of(file))):
            continue
        text, found = gone(template.read(path))
        if found:
            text = changed(text, {"PORT": settings.port(path)})
            made.file(f"/etc/rooms/{file}", text.encode(errors="surrogateescape"),
                      as_if.mode(path, 0o644),
                      what=f", where {' and '.join(found)} said what each room has now")


def put_site(made: Changes) -> None:
    """The settings of the site, where there are none."""
    if as_if.exists(made.root + template.SETTINGS):
        return
    text = """\
# Settings of the site of all rooms: NAME=value, without quotes. After a change: rooms-admin setup

# Its names, with spaces between them. They tell it from other sites on the same ports; where there
# is none, it answers for every name.
HOSTS=rooms.example

# The files of its certificate and key. Without them, passwords and documents travel unencrypted.
# 'rooms-admin setup --tls CERTIFICATE KEY' looks at both, and writes them here.
CERTIFICATE=
KEY=

# With UNENCRYPTED=yes they do so on purpose: rooms-admin check says nothing of it. A proxy before
# nginx has to come by TLS too, or browsers can change nothing.
UNENCRYPTED=

# How many connections to nginx one address, or network of IPv6, may have at once. If this is empty,
# it is half of what nginx holds, and one for each 6 MB of memory at most; 'none' sets no limit, as
# behind a proxy through which all come.
CONNECTIONS=
"""
    made.file(template.SETTINGS, text.encode())
