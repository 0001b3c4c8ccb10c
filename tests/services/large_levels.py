"""What users may do with a document of more than 1 MiB, and with a small one, at each level of 'Who
has access' and with each list of docs/lists.md, as the room itself answers through its door:

    large_levels.py ROOM-SOCKET DOOR-SOCKET

Each is asked for the same of both, and the answers have to be the same, and those of the table in
docs/large.md. Then everybody has to have the same rights to all that the large one consists of."""
import http.client
import itertools
import json
import os
import re
import socket
import sys
from collections.abc import Iterator

ALL = "rwanNxDtThHdcCoy"
MANAGE, KEEP, OWN = f"A:fd:alice:{ALL}", "D:d:EVERYONE@:Dd", "A:fi:OWNER@:d"
SMALL, LARGE, PIECE = b"small", bytes(range(256)) * 6000, 1 << 20
USERS = ("alice", "bob", "pat", "erin", "ella", "clara", "ivan", "petra", "zoe")
# Who asks beside bob, who is staff, and whose the document is beside their own.
ASKING = {"policies": "bob", "minutes": "bob", "letters": "bob", "bob": "bob", "inbox": "clara",
          "personnel": "petra", "handbook": "erin", "drafts": "ivan"}
# The levels as the page calls them, and whom the table means beside those who are staff.
LEVELS = {"Can read": "read", "Can read and add": "add", "Can drop documents in": "drop",
          "Can add and change": "change", "Can add, change and remove": "remove",
          "Can manage": "manage"}
GROUPS = {"interns": "ivan", "editors": "erin", "clerks": "clara"}
WORDS = ("upload", "read", "replace", "rename", "move", "remove", "share", "give")
ABOVE = os.path.dirname(os.path.dirname(os.path.dirname(os.path.abspath(__file__))))


class At(http.client.HTTPConnection):
    def __init__(self, place: str) -> None:
        super().__init__("localhost", timeout=120)
        self.place = place

    def connect(self) -> None:
        self.sock = socket.socket(socket.AF_UNIX)
        self.sock.settimeout(120)
        self.sock.connect(self.place)


def ask(place: str, user: str, method: str, target: str, body: bytes = b"", **fields: str
        ) -> tuple[int, bytes]:
    connection = At(place)
    connection.request(method, target, body, {
        "Room-User": user, "Connection": "close",
        **{name.replace("_", "-"): value for name, value in fields.items()}})
    reply = connection.getresponse()
    told = reply.status, reply.read()
    connection.close()
    return told


def read(name: str) -> str:
    with open(os.path.join(ABOVE, name), encoding="utf-8") as source:
        return source.read()


def wanted() -> dict[tuple[str, str], dict[str, str]]:
    """By what a setup is called and who asks: whose documents each word is allowed for."""
    found: dict[tuple[str, str], dict[str, str]] = {}
    rows = re.findall(r"^\| (Can [^|]*) \|(.*)\|$", read("docs/large.md"), re.MULTILINE)
    for named, cells in rows:
        upload, seen, replace, move, remove, share = [one.strip() for one in cells.split("|")]
        allowed = dict(zip(WORDS, (upload, seen, replace, move, move, remove, share, share),
                           strict=True))
        level, *rest = re.split(r", (?=`)", named)
        found[f"level {LEVELS[level]}", "bob"] = allowed
        for name, group in re.findall(r"`/(\w+)`(?: for (\w+))?", ", ".join(rest)):
            who = GROUPS[group] if group else "petra" if name == "personnel" else "bob"
            found[f"/{name}", who] = allowed
    assert len(found) == len(LEVELS) + 11, found
    return found


def setups() -> Iterator[tuple[str, str, str]]:
    """A name, the list of a folder, and who asks."""
    forms = json.loads(read("web/tables/level_forms.js").partition("LEVEL_FORMS = ")[2]
                       .rstrip().rstrip(";"))
    for level, ways in forms["folder"].items():
        lines = [f"A:{flags}g:staff:{mask}" for flags, mask in ways[0]]
        has_head = level in ("remove", "manage", "clear")
        rows = [MANAGE, *lines, KEEP] if has_head else [MANAGE, KEEP, *lines]
        yield f"level {level}", "\n".join(["list:ap", *rows, *[OWN] * (level == "change")]), "bob"
    lists = re.findall(r"rooms-admin list set /(\w+) <<END\n(.*?)END", read("docs/lists.md"),
                       re.DOTALL)
    assert {name for name, _ in lists} >= set(ASKING), lists
    for name, text in lists:
        if name not in ASKING:
            continue
        for who in dict.fromkeys((ASKING[name], "bob", "clara")):
            yield f"/{name}", text, who
        if name == "inbox":
            yield "/inbox with A:fi:OWNER@:rt", f"{text}A:fi:OWNER@:rt\n", "bob"


class Played:
    def __init__(self, room: str, door: str, folder: str, text: str) -> None:
        self.room, self.door, self.folder = room, door, folder
        self.must("POST", f"/folder/{folder}")
        self.must("PUT", f"/dacl/{folder}", text.encode())
        self.number = itertools.count()

    def must(self, method: str, target: str, body: bytes = b"") -> bytes:
        status, told = ask(self.room, "alice", method, target, body)
        assert status in (200, 201, 204), (method, target, status, told)
        return told

    def does(self, word: str, user: str, name: str, data: bytes) -> int:
        at = f"{self.folder}/{name}"
        if word == "upload":
            return ask(self.door, user, "PUT", f"/door/doc/{at}", data, If_None_Match="*")[0]
        if word == "read":
            status, told = ask(self.door, user, "GET", f"/door/doc/{at}")
            assert status != 200 or told == data, (at, len(told))
            return status
        if word == "replace":
            return ask(self.door, user, "PUT", f"/door/doc/{at}", data[::-1], If_Match="*")[0]
        if word in ("rename", "move"):
            to = f"/{self.folder}/{name}-2" if word == "rename" else f"/e/{self.folder}-{name}"
            return ask(self.door, user, "POST", f"/door/move/{at}",
                       json.dumps({"to": to}).encode())[0]
        if word == "remove":
            return ask(self.door, user, "DELETE", f"/door/object/{at}")[0]
        if word == "give":
            return ask(self.door, user, "PUT", f"/door/attr/{at}",
                       b'{"owner":"zoe","group":"staff"}')[0]
        return ask(self.door, user, "PUT", f"/door/dacl/{at}", b"list:\nA::zoe:rxtc\n",
                   If_Match="*")[0]

    def in_pieces(self, word: str, user: str, name: str) -> int:
        """The same of a large one that comes in pieces."""
        at = f"{self.folder}/{name}{'p' if word == 'upload' else ''}"
        fields = {"If_None_Match": "*"} if word == "upload" else {"If_Match": "*"}
        status, told = ask(self.door, user, "POST", f"/door/upload/{at}?{len(LARGE)}", **fields)
        if status != 201:
            return status
        upload = json.loads(told)["upload"]
        for number, place in enumerate(range(0, len(LARGE), PIECE), 1):
            status, _ = ask(self.door, user, "PUT", f"/door/pieces/{upload}/{number}",
                            LARGE[place:place + PIECE])
            assert status == 204, (number, status)
        return ask(self.door, user, "PUT", f"/door/doc/{at}", Room_Upload=upload, **fields)[0]

    def rights(self, name: str) -> dict[str, set[str]]:
        """Of each object that a document consists of, what everybody may do there."""
        listed = json.loads(self.must("GET", f"/folder/{self.folder}"))
        return {one["name"]: {f"{user} {ask(self.room, user, 'GET', target)[1].decode()}"
                              for user in USERS}
                for one in listed if one["name"] == name or one["name"].startswith(f"{name}~")
                for target in [f"/can/{self.folder}/{one['name']}?rwadcCot"]}

    def one(self, what: str, word: str, who: str, maker: str, allowed: str) -> str:
        """A word where the two differ, or aren't as the page says."""
        said = []
        name = f"d{next(self.number)}"
        for data in (SMALL, LARGE):
            own = f"{name}{'l' if data is LARGE else 's'}"
            if word != "upload" and self.does("upload", maker, own, data) != 201:
                return ""
            said.append(self.does(word, who, own, data))
            if data is LARGE and word in ("upload", "replace"):
                said.append(self.in_pieces(word, who, own))
            if data is LARGE:
                rights = self.rights(own)
                if len(set(map(frozenset, rights.values()))) > 1:
                    return f"{what}: {word} by {who} of {maker}'s: rights {rights}"
        may = allowed in ("yes", "all") or allowed == "own" and who == maker
        is_so = len(set(said)) == 1 and (not allowed or may == (said[0] < 300))
        return "" if is_so else f"{what}: {word} by {who} of {maker}'s: {said}, {allowed}"


def main() -> int:
    room, door = sys.argv[1:]
    found = []
    count = 0
    table = wanted()
    for number, (what, text, who) in enumerate(setups()):
        played = Played(room, door, f"p{number}", text)
        allowed = table.pop((what, who), {})
        for word in WORDS:
            for maker in dict.fromkeys((who, "pat", "alice")):
                count += 1
                found.append(played.one(what, word, who, maker, allowed.get(word, "")))
    assert not table, table
    for one in filter(None, found):
        print(one)
    print(f"{count} compared, {len(list(filter(None, found)))} differ")
    return 0


if __name__ == "__main__":
    sys.exit(main())
