"""An authority of the office's own, and what it certifies: the site, and other machines."""
import os
import shlex
import ssl
import time

from ..host import commands, safe
from ..room import names
from . import certificates
from ..cli.report import Refused, Stop, say
from ..host.root import ROOT

AUTHORITY = "/root/authority"
MACHINES = "/etc/rooms/machines"
SITE, SITE_KEY = "/etc/ssl/rooms.pem", "/etc/ssl/private/rooms.key"
_OFFICE = "Authority of the office"
_CURVE = ["-newkey", "ec", "-pkeyopt", "ec_paramgen_curve:P-256", "-noenc"]
_ENDING = ["basicConstraints=critical,CA:false", "keyUsage=critical,digitalSignature",
           "subjectKeyIdentifier=hash", "authorityKeyIdentifier=keyid"]


def _openssl(words: list[str]) -> str:
    try:
        done = commands.run(["openssl", *words])
    except OSError as fault:
        raise Stop(f"no openssl: {fault.strerror}: apt-get install openssl") from fault
    if done.status != 0:
        last = done.said.split("\n")[-1]
        raise Stop(f"openssl {words[0]} failed: {last}")
    return done.out


def _ends(file: str) -> str:
    return _openssl(["x509", "-in", file, "-noout", "-enddate"]).partition("=")[2]


def _put(source: str, target: str, mode: int) -> None:
    with open(source, "rb") as file:
        safe.put_file(ROOT + target, file.read(), mode)


def _private_folder(folder: str) -> None:
    os.makedirs(ROOT + folder, 0o700, exist_ok=True)


def _rules(names_below: list[str]) -> str:
    """What an authority is: one that certifies no other authority, and only these hosts and those
    below them. Of mail it may certify what nobody has: a kind of names that isn't mentioned is
    free."""
    limits = ["nameConstraints=critical,@limits", "[limits]",
              *(f"permitted;DNS.{at}={one}" for at, one in enumerate(names_below)),
              "permitted;email.0=invalid", "excluded;IP.0=0.0.0.0/0.0.0.0",
              "excluded;IP.1=0:0:0:0:0:0:0:0/0:0:0:0:0:0:0:0"] if names_below else []
    lines = ["[req]", "distinguished_name=about", "x509_extensions=rules", "prompt=no", "[about]",
             "CN=authority", "[rules]", "basicConstraints=critical,CA:true,pathlen:0",
             "keyUsage=critical,keyCertSign", "subjectKeyIdentifier=hash",
             "authorityKeyIdentifier=keyid:always", *limits]
    return "".join(line + "\n" for line in lines)


class Authority:
    """In a dry run all is made in a folder of the run's own, and nothing gets to its place."""

    def __init__(self, folder: str, about: str, names_below: list[str], private: str,
                 dry: bool) -> None:
        self.folder = folder
        self.private = private
        self.dry = dry
        self.made: dict[str, str] = {}
        self.pem, self.key = f"{folder}/authority.pem", f"{folder}/authority.key"
        has = [os.path.exists(ROOT + one) for one in (self.pem, self.key)]
        if has == [True, False]:
            raise Refused(f"no key: bring authority.key back to {folder}")
        if has == [False, True]:
            raise Refused(f"no certificate: bring authority.pem back to {folder}")
        if has == [False, False]:
            self._make(about, names_below)

    def at(self, path: str) -> str:
        """Where a file is that has this path, or would have it."""
        return self.made.get(path, ROOT + path)

    def _put(self, source: str, target: str, mode: int) -> None:
        if self.dry:
            self.made[target] = source
        else:
            _private_folder(os.path.dirname(target))
            _put(source, target, mode)

    def _tell(self, text: str) -> None:
        print(f"would: {text}" if self.dry else text)

    def _make(self, about: str, names_below: list[str]) -> None:
        rules = f"{self.private}/authority"
        with open(rules, "w", encoding="ascii") as file:
            file.write(_rules(names_below))
        _openssl(["req", "-x509", *_CURVE, "-days", "3650", "-subj", f"/CN={about}", "-config",
                  rules, "-keyout", f"{self.private}/key", "-out", f"{self.private}/pem"])
        # The key comes first: an authority without one is no use, and says so.
        self._put(f"{self.private}/key", self.key, 0o600)
        self._put(f"{self.private}/pem", self.pem, 0o644)
        of = ", for these names and those below them: " + ", ".join(names_below)
        self._tell(f"authority {self.pem}{of if names_below else ''}")

    def _days(self, most: int) -> int:
        """No browser takes what an authority certifies for longer than that lasts."""
        ends = _ends(self.at(self.pem))
        left = int(ssl.cert_time_to_seconds(ends) - time.time()) // 86400
        if left < 1:
            raise Refused(f"expired: {self.pem}, on {ends}: move {self.folder} away, and begin "
                          "anew")
        if left < 365:
            say(f"{self.pem} ends on {ends}, and all that it certifies: move {self.folder} away "
                "in time, and begin anew")
        return min(left, most)

    def certify(self, hosts: list[str], use: str, days: int, key: str, pem: str) -> None:
        """A certificate by this authority, which has to hold for each host before it is used."""
        days = self._days(days)
        fresh, asked, rules = (f"{self.private}/{one}" for one in ("new.pem", "csr", "rules"))
        if not os.path.exists(ROOT + key):
            made = f"{self.private}/new.key"
            _openssl(["genpkey", "-algorithm", "EC", "-pkeyopt", "ec_paramgen_curve:P-256",
                      "-out", made])
            self._put(made, key, 0o600)
        _openssl(["req", "-new", "-key", self.at(key), "-subj", f"/CN={hosts[0]}", "-out", asked])
        lines = [*_ENDING, f"extendedKeyUsage={use}"]
        if use == "serverAuth":
            lines.append("subjectAltName=" + ",".join(f"DNS:{one}" for one in hosts))
        with open(rules, "w", encoding="ascii") as file:
            file.write("".join(line + "\n" for line in lines))
        _openssl(["x509", "-req", "-in", asked, "-days", str(days), "-set_serial",
                  f"0x{os.urandom(15).hex()}", "-CA", self.at(self.pem), "-CAkey",
                  self.at(self.key), "-extfile", rules, "-out", fresh])
        # One name outside what the authority may certify has all of them refused.
        named = ", ".join(hosts)
        for host in hosts if use == "serverAuth" else []:
            try:
                _openssl(["verify", "-CAfile", self.at(self.pem), "-verify_hostname", host,
                          fresh])
            except Stop as stop:
                raise Refused(f"not for {named}: {self.pem} can't certify it ({stop}); nothing is "
                              "changed") from stop
        self._put(fresh, pem, 0o644)
        self._tell(f"certificate {pem} for {', '.join(hosts)}, until {_ends(fresh)}; its key is "
                   f"{key}")


def _look_at_issuer() -> None:
    """What somebody bought, or certbot got, isn't replaced."""
    if not os.path.lexists(ROOT + SITE):
        return
    try:
        issuer = _openssl(["x509", "-in", ROOT + SITE, "-noout", "-issuer", "-nameopt", "RFC2253"])
    except Stop as stop:
        raise Refused(f"another certificate: {SITE} can't be read, and isn't replaced: {stop}"
                      ) from stop
    if issuer != f"issuer=CN={_OFFICE}":
        raise Refused(f"another certificate: {SITE} is of another authority, and isn't replaced "
                      f"({issuer}): move it and {SITE_KEY} away")


def _need_authority() -> None:
    """Where the certificate of a site was brought here, as to a new machine, its authority may be
    elsewhere: browsers that trust that one would find no site by another one's."""
    files = [f"{AUTHORITY}/authority.pem", f"{AUTHORITY}/authority.key"]
    if all(os.path.exists(ROOT + one) for one in (SITE, SITE_KEY)) and not any(
            os.path.exists(ROOT + one) for one in files):
        raise Refused(f"no authority: that of {SITE} isn't in {AUTHORITY}: bring authority.pem and "
                      f"authority.key there; or, for a new one, which browsers have to trust, move "
                      f"{SITE_KEY} away")


def look_at_domain(domain: str, hosts: list[str]) -> None:
    """Whoever has the authority's key can certify all of it, so it is typed and never guessed."""
    if not names.is_host(domain) or "." not in domain:
        raise Refused(f"bad arguments: '{domain}' isn't the name of a domain such as "
                      "office.example")
    for host in hosts:
        if not f".{host}".endswith(f".{domain}"):
            raise Refused(f"bad arguments: {host} isn't in the domain {domain}")


def for_site(hosts: list[str], domain: str, private: str, dry: bool) -> None:
    _look_at_issuer()
    _need_authority()
    authority = Authority(AUTHORITY, _OFFICE, [domain] if domain else hosts, private, dry)
    said = _openssl(["x509", "-in", authority.at(authority.pem), "-noout", "-text"])
    if domain and f"DNS:{domain}" not in said.split():
        raise Refused(f"not for {domain}: {authority.pem} is for other names: move {AUTHORITY} "
                      "away, and have browsers trust a new one")
    if "Excluded" not in said:
        say(f"{authority.pem}, of an earlier version, can certify any address of a network and of "
            f"mail too: move {AUTHORITY} away, and have browsers trust a new one instead")
    authority.certify(hosts, "serverAuth", 365, SITE_KEY, SITE)
    if dry:
        return
    print(f"every browser has to trust {authority.pem}; keep {authority.key} on another medium")
    reload = "nginx -t && systemctl reload nginx"
    if certificates.site_certificates() == [SITE]:
        print(f"to use it: {reload}")
    else:
        print(f"to use it: rooms-admin setup --tls {SITE} {SITE_KEY} && {reload}")


def for_machine(host: str, private: str, dry: bool) -> None:
    authority = Authority(MACHINES, "Authority of the machines with rooms", [], private, dry)
    front = f"{MACHINES}/front"
    if not os.path.exists(f"{ROOT}{front}.pem") or certificates.see_certificate(f"{front}.pem")[0]:
        authority.certify(["rooms-front"], "clientAuth", 3650, f"{front}.key", f"{front}.pem")
    place = f"{MACHINES}/{host}"
    authority.certify([host], "serverAuth", 3650, f"{place}.key", f"{place}.pem")
    if dry:
        return
    print(f"bring to {host}, into {MACHINES}: {shlex.quote(authority.pem)}, {place}.pem as "
          f"machine.pem, {place}.key as machine.key; keep {authority.key} on another medium")
