"""Certificates and keys as PEM, whoever wrote them: of a file its blocks alone count, those of a
kind that is known, with DER in them. They are written anew, so nothing else of the file is left."""
import base64
import binascii
import re
from dataclasses import dataclass, field

_BEGINS = re.compile(r"-----BEGIN ([A-Z ]{1,40})-----", re.ASCII)
_KINDS = {"CERTIFICATE", "X509 CERTIFICATE", "PRIVATE KEY", "ENCRYPTED PRIVATE KEY",
          "EC PRIVATE KEY", "RSA PRIVATE KEY", "EC PARAMETERS", "DH PARAMETERS"}
# What Windows' editor puts before a text, which OpenSSL passes over.
_MARK = b"\xef\xbb\xbf"
# Above an encrypted key of the older form.
_ABOVE = re.compile(r"(Proc-Type: 4,ENCRYPTED|DEK-Info: [A-Z0-9-]{1,40},[A-F0-9]{1,64})", re.ASCII)
# A chain of certificates has some 10 kB.
MOST = 1 << 20


@dataclass
class _Block:
    kind: str
    above: list[str] = field(default_factory=list)
    lines: list[str] = field(default_factory=list)

    def add(self, line: str) -> None:
        if _ABOVE.fullmatch(line) and not self.lines:
            self.above.append(line)
        elif line:
            self.lines.append("".join(line.split()))

    def text(self) -> str:
        data = base64.b64decode("".join(self.lines), validate=True)
        # What an older form has encrypted isn't DER.
        if not (self.above or _is_der(data)):
            raise ValueError(self.kind)
        whole = base64.b64encode(data).decode()
        rows = [whole[at:at + 64] for at in range(0, len(whole), 64)]
        return "\n".join([f"-----BEGIN {self.kind}-----", *self.above, *[""] * bool(self.above),
                          *rows, f"-----END {self.kind}-----", ""])


def _is_der(data: bytes) -> bool:
    """One value, a sequence or the name of a curve, whose length is that of all of it."""
    if len(data) < 2 or data[0] not in (0x30, 0x06):
        return False
    if data[1] < 0x80:
        return len(data) == 2 + data[1]
    wide = data[1] & 0x7f
    return 1 <= wide <= 4 and len(data) == 2 + wide + int.from_bytes(data[2:2 + wide], "big")


def _blocks(data: bytes) -> list[_Block]:
    found: list[_Block] = []
    inside: _Block | None = None
    for line in data.removeprefix(_MARK).decode("ascii", "replace").split("\n"):
        line = line.rstrip()
        begins = _BEGINS.fullmatch(line)
        if begins:
            if inside:
                raise ValueError(f"a {inside.kind} that doesn't end")
            inside = _Block(begins[1])
        elif inside and line == f"-----END {inside.kind}-----":
            found.append(inside)
            inside = None
        elif inside:
            inside.add(line)
    if inside:
        raise ValueError("no whole block")
    return [one for one in found if one.kind in _KINDS]


def anew(data: bytes) -> bytes | None:
    """The blocks of a file of certificates and keys, and nothing where it is none."""
    if len(data) > MOST:
        return None
    try:
        return "".join(one.text() for one in _blocks(data)).encode() or None
    except (ValueError, binascii.Error):
        return None


def has_key(data: bytes) -> bool:
    return b" KEY-----" in data
