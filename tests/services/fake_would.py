"""Somebody who answers a look at a folder as `rooms would` does, for tests without the program."""
import csv
import io
import socketserver

LETTERS = "rwanNxDtThHdcCoy"
HEADER = ["path", "kind", "user", "rights", "remove", "then", "then_remove"]
Caller = tuple[str, str, str]


def answer(question: str) -> str:
    callers: list[Caller] = []
    owner = group = ""
    entries = []
    for line in question.splitlines():
        word, *rest = line.split(" ")
        if word == "as":
            callers.append((rest[0], "", rest[2]))
        elif word == "folder":
            owner, group = rest[:2]
        elif ":" in line and word == line and not line.startswith("list:"):
            entries.append(line.split(":"))
    users = {owner, *(who for _, flags, who, _ in entries if "g" not in flags and "@" not in who)}
    named: list[Caller] = [(one, one, "") for one in sorted(users)]
    out = io.StringIO()
    rows = csv.writer(out, lineterminator="\n")
    rows.writerow(HEADER)
    for label, user, within in [*named, ("*", "", ""), ("ANONYMOUS@", "ANONYMOUS@", ""), *callers]:
        names = {user, "EVERYONE@", owner == user and "OWNER@", group == within and "GROUP@",
                 user != "ANONYMOUS@" and "AUTHENTICATED@", f"g {within}"}
        ruled: dict[str, str] = {}
        for kind, flags, who, mask in entries:
            if "i" not in flags and (f"g {who}" if "g" in flags else who) in names:
                ruled = {**dict.fromkeys(mask, kind), **ruled}
        rights = "".join(one for one in LETTERS if ruled.get(one) == "A")
        rows.writerow(["/", "folder", label, rights, "no", rights, "no"])
    return f"{out.getvalue()}rooms 1.1.0\n"


class _Handler(socketserver.StreamRequestHandler):
    def handle(self) -> None:
        self.wfile.write(answer(self.rfile.read().decode()).encode())


class FakeWould(socketserver.ThreadingUnixStreamServer):
    daemon_threads = True

    def __init__(self, place: str) -> None:
        super().__init__(place, _Handler)
