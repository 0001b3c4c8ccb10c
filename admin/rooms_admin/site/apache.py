"""The Apache that checks passwords against the directory, for nginx: what it is told."""
import re
import secrets

from ..host import as_if
from ..room import settings
from . import template
from ..host.changes import Changes

FILE = "/etc/rooms/directory.apache"
_PLAIN = set(b"ABCDEFGHIJKLMNOPQRSTUVWXYZabcdefghijklmnopqrstuvwxyz0123456789=,.()&|!_:-")


def in_address(text: str) -> str:
    """A part of an address of LDAP: every byte but letters, digits and some signs as %XX."""
    return "".join(chr(one) if one in _PLAIN else f"%{one:02X}"
                   for one in text.encode(errors="surrogateescape"))


def text(root: str, source: str, of: settings.Directory, key: str) -> str:
    mode = ("SSL" if of.uri.startswith("ldaps://") else "STARTTLS" if of.needs_starttls
            else "NONE")
    bind = ""
    if of.bind:
        named = of.bind.replace("\\", "\\\\")
        bind = (f'AuthLDAPBindDN "{named}"\n        '
                f'AuthLDAPBindPassword "exec:/usr/bin/head -n 1 {of.secret}"')
    address = f"{of.uri.rstrip('/')}/{in_address(of.base)}?{of.name}?sub?{in_address(of.users)}"
    # Without TLS nobody is believed by a certificate.
    believed = of.authorities if mode != "NONE" else of.ca
    for name, value in (("SETTINGS", "/etc/rooms/directory"), ("ADDRESS", address), ("MODE", mode),
                        ("BIND", bind), ("NAME", of.name), ("KEY", key),
                        ("SHARE", template.share(root)),
                        ("CA", f"LDAPTrustedGlobalCert CA_BASE64 {believed}" if believed else "")):
        source = source.replace(f"@{name}@", value)
    return source


def key(changes: Changes) -> str:
    """What nginx says to each Apache, and no other process of the machine can. It is made once."""
    found = re.fullmatch(r"proxy_set_header Rooms-Key ([0-9a-f]+);\n",
                         template.read(changes.root + template.KEY), re.ASCII)
    if found:
        return found[1]
    made = secrets.token_hex(24)
    changes.file(template.KEY, f"proxy_set_header Rooms-Key {made};\n".encode(), 0o600)
    return made


def put(changes: Changes, of: settings.Directory) -> bool:
    """Whether anything has changed."""
    source = template.template("directory.apache")
    data = text(changes.root, source, of, key(changes))
    return changes.file(FILE, data.encode(errors="surrogateescape"), 0o600)


def is_there(root: str) -> bool:
    return as_if.exists(root + FILE)
