"""Addresses of WebDAV: what a client wrote, and what it is told."""
from urllib.parse import urlsplit

from ...room.answers import Stop
from ...room.paths import Names, escaped, names_in

ROUTE = "/drive/"


def names_of(target: str, prefix: str) -> tuple[Names, bool]:
    """The names, and whether a slash stands at the end, as one may behind a folder."""
    if "#" in target or "?" in target:
        raise Stop(400, "bad-query", "neither a query nor a fragment may stand here")
    if target + "/" == prefix:
        return (), True
    if not target.startswith(prefix):
        raise Stop(404, "no-route", "not an address of a document or a folder")
    rest = target[len(prefix):]
    if rest == "":
        return (), True
    return names_in(rest.removesuffix("/")), rest.endswith("/")


def other_names(address: str, host: str, prefix: str) -> Names:
    """The names of an address in a field such as Destination: a path, or with scheme and host.
    Which scheme and port stands there is not looked at, as nginx may speak TLS for the door."""
    try:
        parts = urlsplit(address)
        here = not parts.netloc or parts.hostname == urlsplit("//" + host).hostname
    except ValueError:
        raise Stop(400, "bad-address", "an address that can't be read") from None
    if not here:
        raise Stop(502, "another-server", "the destination is on another server")
    if parts.query or parts.fragment:
        raise Stop(400, "bad-query", "neither a query nor a fragment may stand in an address")
    return names_of(parts.path, prefix)[0]


def href(prefix: str, names: Names, folder: bool) -> str:
    """As it stands in XML: no letter of it needs an escape there."""
    return prefix + escaped(names) + ("/" if folder and names else "")
