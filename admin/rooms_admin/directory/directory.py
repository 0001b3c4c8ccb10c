"""An office's directory (LDAP, Active Directory), and how it is asked: the one module that knows
python3-ldap. Whoever a directory is by now, its answers end: a process of its own reads them, which
has a limit of memory, and of time for what the library waits for without end."""
import time
from collections.abc import Iterable
from dataclasses import dataclass
from typing import Any

from ..host import waiting
from ..room import settings
from ..cli import report
from ..cli.report import Refused, Stop

GROUPS = ("(|(objectClass=groupOfNames)(objectClass=groupOfUniqueNames)(objectClass=group)"
          "(objectClass=posixGroup))")
# Bytes for what a search finds: some 250,000 members.
MEMORY = 256 << 20
# Seconds, beside WAIT, until there is a connection.
_CONNECTS = 20
# As many letters of what the directory says of a fault are told.
_TOLD = 300
# Of a DN that is taken apart, for which the library takes the square of its time.
_LONGEST = 8000


class NoSuchEntry(Exception):
    """Nothing has that DN."""


@dataclass
class Entry:
    dn: str
    values: dict[str, list[str]]


class Link:
    """What the process has that asks."""

    def __init__(self, where: settings.Directory, ldap: Any) -> None:
        self.where = where
        self._ldap = ldap
        self._link = ldap.initialize(where.uri)
        self._link.protocol_version = 3
        for option, value in ((ldap.OPT_REFERRALS, 0), (ldap.OPT_NETWORK_TIMEOUT, 10),
                              (ldap.OPT_TIMEOUT, where.wait),
                              (ldap.OPT_X_TLS_REQUIRE_CERT, ldap.OPT_X_TLS_DEMAND)):
            self._link.set_option(option, value)
        if where.authorities:
            self._link.set_option(ldap.OPT_X_TLS_CACERTFILE, where.authorities)
        self._link.set_option(ldap.OPT_X_TLS_NEWCTX, 0)
        self._bound = False

    def _fault(self, fault: Exception) -> str:
        if isinstance(fault, (self._ldap.TIMEOUT, self._ldap.TIMELIMIT_EXCEEDED)):
            return f"no answer within {self.where.wait} seconds"
        told = fault.args[0] if fault.args and isinstance(fault.args[0], dict) else {}
        said = ", ".join(str(told[one])[:_TOLD] for one in ("desc", "info") if told.get(one))
        return report.line(said or repr(fault))[:_TOLD]

    def _bind(self) -> None:
        if self._bound:
            return
        if self.where.needs_starttls:
            self._link.start_tls_s()
        password = ""
        if self.where.secret:
            with open(self.where.secret, encoding="utf-8") as source:
                password = source.readline().rstrip("\r\n")
        self._link.simple_bind_s(self.where.bind, password)
        self._bound = True

    def search(self, asked: tuple[str, bool, str, list[str]]) -> list[object]:
        """["found", rows], or ["none"] where nothing has that DN, or ["failed", why]."""
        try:
            return ["found", self._rows(*asked)]
        except self._ldap.NO_SUCH_OBJECT as fault:
            return ["failed", self._fault(fault)] if asked[1] else ["none"]
        except (self._ldap.LDAPError, OSError) as fault:
            return ["failed", self._fault(fault)]

    def _rows(self, base: str, whole: bool, filter_: str, wanted: list[str]) -> list[object]:
        """All entries, by pages of 500, within WAIT seconds in all."""
        ends = time.monotonic() + self.where.wait
        page = self._ldap.controls.SimplePagedResultsControl(True, size=500, cookie="")
        found: list[object] = []
        scope = self._ldap.SCOPE_SUBTREE if whole else self._ldap.SCOPE_BASE
        self._bind()
        while True:
            number = self._link.search_ext(base, scope, filter_, wanted or ["1.1"],
                                           serverctrls=[page])
            _, rows, _, controls = self._link.result3(
                number, timeout=max(0.01, ends - time.monotonic()))
            found += [[dn, {name.lower(): [one.decode("utf-8", "replace") for one in some]
                            for name, some in values.items()}]
                      for dn, values in rows if dn is not None]
            page.cookie = next((one.cookie for one in controls
                                if one.controlType == page.controlType), b"")
            if not page.cookie:
                return found
            if time.monotonic() > ends:
                # One that has always another page would never end.
                raise self._ldap.TIMEOUT


class Directory:
    def __init__(self, where: settings.Directory) -> None:
        try:
            import ldap
            import ldap.controls
            import ldap.dn
            import ldap.filter
        except ImportError:
            raise Refused("no python3-ldap: apt-get install python3-ldap") from None
        self.where = where
        self._ldap = ldap
        self._asks: waiting.Apart | None = None

    def search(self, base: str, whole: bool, filter_: str, wanted: Iterable[str],
               at: str = "") -> list[Entry]:
        """All entries that it has."""
        if self._asks is None:
            self._asks = waiting.Apart(Link(self.where, self._ldap).search, MEMORY)
        try:
            how, *rest = self._asks.ask([base, whole, filter_, list(wanted)],
                                        self.where.wait + _CONNECTS)
        except (waiting.Hangs, waiting.TooLarge) as why:
            self._asks = None
            how, rest = "failed", [f"no answer within {self.where.wait} seconds" if isinstance(
                why, waiting.Hangs) else str(why)]
        if how == "none":
            raise NoSuchEntry
        if how == "failed":
            raise Stop(f"the directory failed, at '{at}': {rest[0]}" if at else
                       f"the directory failed: {rest[0]}")
        return [Entry(*one) for one in rest[0]]

    def key(self, dn: str) -> str:
        """The form in which two DNs are compared."""
        if len(dn) > _LONGEST:
            return dn.lower()
        try:
            return str(self._ldap.dn.dn2str(self._ldap.dn.str2dn(dn.lower())))
        except self._ldap.DECODING_ERROR:
            return dn.lower()

    def quoted(self, text: str) -> str:
        """In a filter (RFC 4515)."""
        return str(self._ldap.filter.escape_filter_chars(text))
