"""Which forms values of settings have."""
import datetime
import ipaddress
import re

from .names import is_host

# What the firewall's table closes (deploy/systemd/rooms.nft), without the two of Apaches.
PORTS = range(8780, 8999)


def matches(form: str, value: str) -> bool:
    return re.fullmatch(form, value, re.ASCII) is not None


def is_absolute(text: str) -> bool:
    return text.startswith("/")


def is_of_units(text: str) -> bool:
    """One of the same bytes for systemd, which takes blanks at the end off, and backslashes."""
    return is_absolute(text) and text == text.rstrip() and "\\" not in text


def is_port(text: str) -> bool:
    return matches(r"[1-9][0-9]{0,4}", text) and int(text) <= 65535


def is_night(text: str) -> bool:
    """A day that there is, and perhaps the time of a backup behind it."""
    if not matches(r"\d{4}-\d\d-\d\d(\.([01]\d|2[0-3])([0-5]\d){2})?", text):
        return not text
    try:
        datetime.date.fromisoformat(text[:10])
    except ValueError:
        return False
    return True


def is_folder_of_room(text: str) -> bool:
    return text in ("", "/") or text.startswith("/") and not text.endswith("/")


def is_machine(text: str) -> bool:
    """A name of one in a network, and no address: no certificate is for that."""
    return is_host(text) and not text.replace(".", "").isdigit()


def _is_address(text: str) -> bool:
    """Of a network; in a browser one with colons stands between brackets."""
    inner = text[1:-1] if text.startswith("[") and text.endswith("]") else text
    try:
        return ipaddress.ip_address(inner).version == 6 or inner == text
    except ValueError:
        return False


def are_hosts(text: str) -> bool:
    """Digits with dots alone are an address, or nothing that a browser finds."""
    hosts = text.split()
    return bool(hosts) and all(is_machine(one) or _is_address(one) for one in hosts)
