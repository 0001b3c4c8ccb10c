"""The certificate of the site, as its settings name it, and whether one ends soon."""
import glob
import os
import re
import ssl
import time

from ..cli.report import Stop
from ..host import commands
from ..room import settings
from ..host.commands import printed
from ..host.root import ROOT
from ..room.settings import Room
from . import served, template

_BLOCK = re.compile(rb"-----BEGIN CERTIFICATE-----.*?-----END CERTIFICATE-----", re.DOTALL)
# How many of those that certify it are looked at.
_MOST = 8


def certificates() -> list[str]:
    """The certificate and its key, as the settings of the site name them."""
    found = [settings.value(ROOT + "/etc/rooms/site", name) for name in ("CERTIFICATE", "KEY")]
    return [one for one in found if one.startswith("/")]


def site_certificates() -> list[str]:
    """The certificate of the site, if that has TLS."""
    return certificates()[:1]


def see_certificate(file: str) -> tuple[int, str]:
    """0, 1 if it ends soon, 2 if it has ended or can't be used, and the text. One that certbot
    renews is told of only if that seems to have failed."""
    days = 7 if file.startswith("/etc/letsencrypt/") else 30
    asks = ["openssl", "x509", "-in", ROOT + file, "-noout"]
    ends = printed([*asks, "-enddate"]).partition("=")[2]
    if not ends:
        return 2, (f"the certificate {file} can't be used, and nginx doesn't start again without "
                   "it: docs/operating.md, TLS")
    if begins := begins_later(ROOT + file):
        return 2, f"the certificate {file} doesn't count before {begins}: is the clock right?"
    if not printed([*asks, "-checkend", "0"]).startswith("Certificate will not"):
        return 2, f"the certificate {file} has expired, on {ends}: docs/operating.md, Renewal"
    if not printed([*asks, "-checkend", str(days * 86400)]).startswith("Certificate will not"):
        return 1, f"the certificate {file} ends on {ends}: docs/operating.md, Renewal"
    if above := _above_ends(file, days * 86400):
        return 1, (f"the certificate {file} ends on {above}, with one that certifies it: "
                   "docs/operating.md, Renewal")
    return 0, f"the certificate ends on {ends}"


def begins_later(path: str) -> str:
    """From when on browsers take it, if they don't yet: it may be of a clock that was ahead."""
    begins = printed(["openssl", "x509", "-in", path, "-noout", "-startdate"]).partition("=")[2]
    return begins if begins and ssl.cert_time_to_seconds(begins) > time.time() else ""


def _above_ends(file: str, seconds: int) -> str:
    """When the first of those that stand behind it ends, if not all last so many seconds. A browser
    may know another one in its place."""
    with open(ROOT + file, "rb") as source:
        above = _BLOCK.findall(source.read(1 << 20))[1:_MOST]
    for one in above:
        try:
            done = commands.run(["openssl", "x509", "-noout", "-enddate", "-checkend",
                                 str(seconds)], one)
        except (OSError, Stop):
            continue
        word, _, ends = done.out.partition("\n")[0].partition("=")
        if done.status and word == "notAfter":
            return ends
    return ""


def all_of_machine() -> list[str]:
    """The site's, and those by which machines know one another."""
    found = glob.glob(glob.escape(f"{ROOT}{template.MACHINES}") + "/*.pem")
    return site_certificates() + [one.removeprefix(ROOT) for one in sorted(found)]


def _tells(room: Room) -> bool:
    """One room's run does it: that of office, or where office has no nights the first that has."""
    if room.unit != f"rooms@{room.name}" or room.name == "office":
        return room.unit == "rooms@office"
    names = sorted(map(settings.name_of, glob.glob(glob.escape(settings.HOME) + "/*.conf")))
    for name in sorted(names, key=lambda one: one != "office"):
        if printed(["systemctl", "is-active", f"{settings.nightly_unit(name)}.timer"]) == "active":
            return name == room.name
    return False


def to_be_told(room: Room) -> tuple[str, bool]:
    """What is to be told of certificates, and whether that is a failure by now."""
    if os.geteuid() != 0 or not _tells(room):
        return "", False
    for file in all_of_machine():
        level, text = see_certificate(file)
        if level:
            return text, level == 2
    for file in site_certificates():
        if text := served.see_names(file) or served.see_renewal(file):
            return text, False
    return "", False
