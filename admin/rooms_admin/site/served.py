"""What nginx of this machine serves by TLS: for which names, and whether it has read a new
certificate. Until it reads its files anew it goes on with the one of before."""
import http.client
import os
import socket
import ssl
import time

from ..cli.report import Refused
from ..host import root
from ..host.commands import printed
from ..room import settings
from . import template

# Only tests set another address of nginx.
FRONT = os.environ.get("ROOMS_FRONT", "127.0.0.1")
_BEGIN, _END = "-----BEGIN CERTIFICATE-----", "-----END CERTIFICATE-----"


class Named(http.client.HTTPSConnection):
    """This machine, by the name of a site. Its certificate is looked at by itself."""

    def __init__(self, host: str, port: int | None = None) -> None:
        super().__init__(FRONT, port, timeout=20)
        self.named = host
        self.certificate: bytes | None = None

    def connect(self) -> None:
        context = ssl.create_default_context()
        context.check_hostname = False
        context.verify_mode = ssl.CERT_NONE
        plain = socket.create_connection((self.host, self.port), timeout=20)
        secure = context.wrap_socket(plain, server_hostname=self.named.strip("[]") or None)
        self.certificate = secure.getpeercert(binary_form=True)
        self.sock = secure


def shows_rooms() -> bool:
    return os.path.lexists(f"{root.ROOT}/etc/nginx/sites-enabled/rooms")


def first_of(file: str) -> bytes:
    with open(root.ROOT + file, encoding="ascii", errors="replace") as source:
        _, begin, rest = source.read().partition(_BEGIN)
    return ssl.PEM_cert_to_DER_cert(begin + rest.partition(_END)[0] + _END)


def _shows(file: str) -> bool:
    """Whether nginx has the certificate of that file."""
    asked = Named(settings.front(root.ROOT + template.SETTINGS).hosts[0])
    asked.connect()
    asked.close()
    return asked.certificate == first_of(file)


def see_renewal(file: str) -> str:
    """Whether nginx still has another certificate than the file, which would end unseen. What can't
    be compared is told by other looks."""
    if not shows_rooms():
        return ""
    try:
        if _shows(file):
            return ""
    except (OSError, ValueError, Refused):
        return ""
    return f"nginx has another certificate than {file}: systemctl reload nginx"


def see_reload(file: str) -> str:
    """Whether nginx soon has this certificate. One that can't have its port, where another program
    listens, goes on with the site of before, and says so only in its log."""
    until = time.monotonic() + 5
    while time.monotonic() < until:
        try:
            if _shows(file):
                return ""
        except (OSError, ValueError):
            pass
        time.sleep(0.1)
    return ("nginx has no TLS: its site is the one of before; what keeps it from the new one is in "
            "/var/log/nginx/error.log: ss -ltnp 'sport = :443'")


def _is_for(file: str, host: str) -> bool:
    return "does match" in printed(["openssl", "x509", "-in", root.ROOT + file, "-noout",
                                    "-checkhost", host])


def need_for(front: settings.Front, host: str, path: str) -> None:
    """A room at a name of its own, where the site has TLS."""
    if host and front.certificate and not _is_for(front.certificate, host):
        raise Refused(f"no certificate: {front.certificate} isn't for {host}, of HOST in {path}")


def names_without(file: str, site: template.Site) -> list[str]:
    """Those of the site and of its rooms that a certificate isn't for."""
    wanted = [*site.front.hosts, *(one.host for one in site.rooms if one.host)]
    return [one for one in wanted if not _is_for(file, one)]


def see_names(file: str) -> str:
    """The name of a room that the certificate isn't for, as after a renewal for another one alone;
    or of the site, which may have names beside those that browsers get."""
    try:
        found = template.gather(root.ROOT)
    except Refused:
        return ""
    lacks = names_without(file, found)
    hosts = found.front.hosts
    if any(one not in lacks for one in hosts):
        lacks = [one for one in lacks if one not in hosts]
    lacks = [one for one in lacks if one not in hosts[1:]]
    return f"no certificate: {file} isn't for {' and '.join(lacks)}" if lacks else ""
