#!/usr/bin/env python3
"""What the door says of random trees to six users, beside an evaluator of its own over what 'rooms
dump' prints; and that one beside 'rooms review'.

  evaluated.py PROGRAM FOLDER SEED TREES OBJECTS REQUESTS

By hand: 7 12 300 2600."""
import csv
import io
import json
import random
import sys
import threading
import unicodedata
import zipfile
from collections import Counter
from collections.abc import Callable, Iterator
from dataclasses import dataclass, field
from urllib.parse import quote

from lab import ALL, Bulk, Lab, target

USERS = ("root", "alice", "bob", "carol", "dave", "eve")
GROUPS = (("staff", "alice"), ("staff", "bob"), ("sales", "bob"), ("sales", "carol"),
          ("board", "alice"), ("staff", "dave"))
NAMES = ("plan", "Plan", "PLAN", "ä ü", "a\u0308", "%41", "a?b", "x:y", "con", "nul.txt", "..a",
         "a.", "b ", "..;", "~", "-", "'q\"", "日本", "\u202egpj", "\U0001d538", "ß", "ss", "._x",
         "a#b", "&amp;", "not in this ZIP.txt", "door", "drive", "a\\b", "İ", "ﬁ", '","kind":"')
TEXTS = ("plan", "PLAN", "a", "1", "Ä", "ä ü", "ss", "日", "%", "zz", "fi", ".", "m")
Answer = tuple[int, object]


@dataclass
class Object:
    path: str
    kind: str
    owner: str
    group: str
    dacl: list[str] = field(default_factory=list)
    children: list["Object"] = field(default_factory=list)

    @property
    def name(self) -> str:
        return self.path.rpartition("/")[2]

    @property
    def text(self) -> str:
        return "\n".join(self.dacl) + "\n"

    def is_simple(self) -> bool:
        """Nothing of its list is its own, and it passes on what it was passed."""
        entries = [entry.split(":", 3) for entry in self.dacl[1:]]
        flags = self.dacl[0].removeprefix("list:")
        return "p" not in flags and all("I" in entry[1] for entry in entries) and (
            self.kind == "document" or "a" in flags and not any(
                entry[2] in ("OWNER@", "GROUP@") and "i" not in entry[1] for entry in entries))


def read(dump: str) -> dict[str, Object]:
    found: dict[str, Object] = {}
    rows: list[str] | None = None
    for line in dump.split("\n"):
        words = line.split(" ")
        if words[0] == "folder" and len(words) >= 4:
            one = Object(" ".join(words[3:]), "folder", words[1], words[2])
        elif words[0] == "document" and len(words) >= 5:
            one = Object(" ".join(words[4:]), "document", words[1], words[2])
        else:
            if line in ("dacl", "sacl"):
                rows = one.dacl if line == "dacl" else []
            elif rows is not None and line:
                rows.append(line)
            continue
        found[one.path], rows = one, None
    for path, one in found.items():
        if path != "/":
            found[path.rpartition("/")[0] or "/"].children.append(one)
    return found


class World:
    """Whether the entries of a list grant something, in order: that and the walk are all."""

    def __init__(self, dump: str) -> None:
        self.objects = read(dump)

    def has(self, user: str, one: Object, bit: str) -> bool:
        for line in one.dacl[1:]:
            kind, flags, who, mask = line.split(":", 3)
            if bit in mask and "i" not in flags and self._means(flags, who, user, one):
                return kind == "A"
        return False

    @staticmethod
    def _means(flags: str, who: str, user: str, one: Object) -> bool:
        if who.endswith("@"):
            return who in ("EVERYONE@", "AUTHENTICATED@") \
                or who == "OWNER@" and user == one.owner \
                or who == "GROUP@" and (one.group, user) in GROUPS
        return (who, user) in GROUPS if "g" in flags else who == user

    def walk(self, user: str, path: str) -> tuple[int, str, Object | None]:
        one = self.objects["/"]
        for name in filter(None, path.split("/")):
            if one.kind != "folder":
                return 409, one.path, None
            if not self.has(user, one, "x"):
                return 403, one.path, None
            below = f"{one.path.rstrip('/')}/{name}"
            if below not in self.objects:
                return 404, below, None
            one = self.objects[below]
        return 200, one.path, one

    def listing(self, user: str, path: str) -> tuple[int, str, Object | None]:
        status, at, one = self.walk(user, path)
        if one is None or one.kind == "folder" and self.has(user, one, "r"):
            return status, at, one
        return (403 if one.kind == "folder" else 409), at, None

    def seen(self, user: str, top: Object) -> Iterator[tuple[Object, Object, bool]]:
        """All below it that the caller learns of, the folder that each is in, and whether they
        pass that."""
        reach = self.has(user, top, "x")
        for child in top.children:
            yield child, top, reach
            if child.kind == "folder" and reach and self.has(user, child, "r"):
                yield from self.seen(user, child)

    def below(self, user: str, top: Object, rest: str) -> object:
        apart = set()
        way = top.path.rstrip("/")
        for name in filter(None, rest.split("/")):
            way += f"/{name}"
            apart.add(way)
        near = {top.path: (top.path, 0)}
        legible = {top.path: self.has(user, top, "c")}
        told: dict[str, list[object]] = {"objects": [], "unlisted": []}
        unread: Counter[str] = Counter()
        counted: Counter[tuple[object, ...]] = Counter()
        for one, above, reach in self.seen(user, top):
            legible[one.path] = reach and self.has(user, one, "c")
            whose = (one.owner, one.group) if reach and self.has(user, one, "t") else (None, None)
            if one.kind == "folder" and not (reach and self.has(user, one, "r")):
                told["unlisted"].append(one.path)
            if legible[one.path] and legible[above.path] and one.path not in apart \
                    and one.is_simple() and "a" in above.dacl[0].removeprefix("list:"):
                folder, depth = near[above.path]
                near[one.path] = folder, min(depth + 1, 2)
                counted[folder, one.kind, min(depth + 1, 2), *whose] += 1
                continue
            near[one.path] = one.path, 0
            if one.kind == "document" and not legible[one.path]:
                unread[above.path] += 1
            else:
                told["objects"].append({
                    "path": one.path, "kind": one.kind, "owner": whose[0], "group": whose[1],
                    "list": one.text if legible[one.path] else None})
        keys = ("below", "kind", "depth", "owner", "group")
        return {"at": top.path, "list": top.text if legible[top.path] else None,
                "objects": told["objects"], "unlisted": told["unlisted"],
                "unread": [{"in": at, "kind": "document", "count": count}
                           for at, count in unread.items()],
                "rest": [dict(zip(keys, key), count=count) for key, count in counted.items()]}

    def find(self, user: str, top: Object, text: str) -> object:
        wanted = _folded(text)
        rows = list(self.seen(user, top))
        return {"all": True, "at": top.path, "found": [
            {"kind": one.kind, "path": one.path} for one, _, _ in rows
            if wanted in _folded(one.name)], "unlisted": [
                one.path for one, _, reach in rows if one.kind == "folder"
                and not (reach and self.has(user, one, "r"))]}

    def closed(self, user: str, top: Object, _text: str) -> object:
        passes = self.has(user, top, "x")
        return {"at": top.path, "closed": [one.name for one in top.children if not passes or not (
            self.has(user, one, "r") or one.kind == "folder" and self.has(user, one, "x"))]}


def _folded(text: str) -> str:
    """By docs/door.md: capitals and accents don't matter, nor how a letter is written."""
    letters = [one for one in unicodedata.normalize("NFKD", text)
               if not unicodedata.category(one).startswith("M")]
    return "".join(letters).upper().lower().replace("ς", "σ")


def random_list(chance: random.Random, is_folder: bool) -> str:
    flags = ("a" if chance.random() < 0.8 else "") + ("p" if chance.random() < 0.25 else "")
    rows = [f"list:{flags}", f"A:{'fd' if is_folder else ''}:root:{ALL}"]
    for _ in range(chance.choice((0, 1, 1, 2, 3, 5))):
        passed = chance.choice(("", "f", "d", "fd", "fd", "fd", "fn", "dn", "fdn", "fi", "di",
                                "fdi", "fdni")) if is_folder else ""
        who = chance.choice((*USERS[1:], "OWNER@", "GROUP@", "EVERYONE@", "AUTHENTICATED@",
                             "ANONYMOUS@", "staff", "sales", "board"))
        group = "g" if who in ("staff", "sales", "board") else ""
        mask = "".join(bit for bit in "rwaxDtdcCo" if chance.random() < chance.choice((0.3, 0.6)))
        kind = "D" if chance.random() < 0.3 else "A"
        rows.append(f"{kind}:{passed}{group}:{who}:{mask or 'r'}")
    return "\n".join(rows) + "\n"


def make(lab: Lab, chance: random.Random, count: int) -> None:
    bulk = Bulk(lab.room)
    folders: list[str] = [""]
    documents: list[str] = []
    bulk.ask("PUT", "/dacl/", f"list:a\nA:fd:root:{ALL}\nA:fd:EVERYONE@:rxct\n"
             if chance.random() < 0.7 else
             f"list:a\nA:fd:root:{ALL}\nA:d:EVERYONE@:rx\nA:fg:staff:r\n")
    for number in range(count):
        end = str(number) if chance.random() < 0.7 else ""
        path = f"{chance.choice(folders[-12:])}/{chance.choice(NAMES)}{end}"
        is_folder = chance.random() < 0.35
        route, method = ("folder", "POST") if is_folder else ("doc", "PUT")
        if bulk.ask(method, f"/{route}/{target(path)}",
                    "" if is_folder else f"bytes of {path}")[0] != 201:
            continue
        (folders if is_folder else documents).append(path)
        if chance.random() < 0.3:
            bulk.ask("PUT", f"/dacl/{target(path)}", random_list(chance, is_folder))
        if chance.random() < 0.35:
            bulk.ask("PUT", f"/attr/{target(path)}", json.dumps({
                "owner": chance.choice(USERS[1:]),
                "group": chance.choice(("staff", "sales", "board", "none"))}))
    for path in chance.sample(folders[1:], min(6, len(folders) - 1)):
        bulk.ask("PUT", f"/dacl/{target(path)}", random_list(chance, True))
    for _ in range(6):
        # Lists move along.
        bulk.ask("POST", f"/move/{target(chance.choice(folders[1:] + documents))}", json.dumps(
            {"to": f"{chance.choice(folders)}/m{chance.randrange(10**6)}"}))
    bulk.close()


def sorted_rows(told: object) -> object:
    if not isinstance(told, dict):
        return told
    return {key: sorted(json.dumps(row, sort_keys=True) for row in value)
            if isinstance(value, list) else value for key, value in told.items()}


class Compared:
    def __init__(self, lab: Lab, world: World) -> None:
        self.lab, self.world = lab, world
        self.paths = list(world.objects)
        self.bad: list[object] = []
        self.count = 0
        self.ways: dict[str, Callable[[str, Object, str], object]] = {
            "below": world.below, "find": world.find, "closed": world.closed}

    def review(self) -> int:
        """The evaluator itself."""
        rows = [row for row in csv.DictReader(io.StringIO(
            self.lab.subcommand("review", "/", "--all").decode())) if row["user"] in USERS]
        for row in rows:
            one = self.world.walk(row["user"], row["path"])[2]
            mine = {bit for bit in ALL if one and self.world.has(row["user"], one, bit)}
            if mine != set(row["rights"]):
                self.bad.append(("review", row, mine))
        return len(rows)

    def one(self, chance: random.Random) -> None:
        user, path = chance.choice(USERS), chance.choice(self.paths)
        if chance.random() < 0.5:
            path = chance.choice([one.path for one in self.world.objects.values()
                                  if one.kind == "folder"])
        if chance.random() < 0.04:
            path = path.rstrip("/") + "/nothing"
        what = chance.choice(("below", "below", "find", "closed", "zip", "doc", "dacl", "sacl"))
        text = ""
        if what == "find":
            text = chance.choice(TEXTS)
        elif what == "below" and chance.random() < 0.4:
            inside = [one for one in self.paths if one.startswith(path.rstrip("/") + "/")]
            text = chance.choice(inside or ["/"])[len(path.rstrip("/")) + 1:]
        query = f"?{quote(text, safe='/' if what == 'below' else '')}" if text else ""
        status, _, body = self.lab.at_door(user, "GET", f"/door/{what}/{target(path)}{query}")
        self.count += 1
        if what in ("doc", "dacl", "sacl"):
            there = self.lab.in_room(user, "GET", f"/{what}/{target(path)}")
            is_right = (status, body) == (there[0], there[2])
        else:
            is_right = self._is_right(what, user, path, text, status, body)
        if not is_right:
            self.bad.append((what, user, path, text, status, body[:300]))

    def _is_right(self, what: str, user: str, path: str, text: str, status: int, body: bytes
                  ) -> bool:
        wanted, at, top = self.world.listing(user, path)
        if top is None:
            return status == wanted and json.loads(body)["at"] == at
        if status != 200:
            return False
        if what == "zip":
            return self._is_zip(user, top, body)
        return sorted_rows(json.loads(body)) == sorted_rows(self.ways[what](user, top, text))

    def _is_zip(self, user: str, top: Object, body: bytes) -> bool:
        whole = zipfile.ZipFile(io.BytesIO(body))
        names = whole.namelist()
        given: list[Object] = []
        left: list[Object] = []
        for one, _, reach in self.world.seen(user, top):
            (given if reach and self.world.has(user, one, "r") else left).append(one)
        bytes_ = Counter(f"bytes of {self.made[one.path]}".encode() for one in given
                         if one.kind == "document")
        found = Counter(whole.read(name) for name in names if not name.endswith("/"))
        rest = found - bytes_
        folders = 1 + sum(one.kind == "folder" for one in given)
        return (whole.testzip() is None and not bytes_ - found
                and sorted(b"".join(rest).decode().split("\r\n")[:-1]) == sorted(
                    one.path for one in left)
                and len({unicodedata.normalize("NFC", name).casefold() for name in names})
                == len(names) and sum(name.endswith("/") for name in names) == folders
                and not any(letter in name for name in names for letter in '\\:;*?"<>|'))

    # The path under which each document was made, which its bytes say.
    made: dict[str, str] = {}

    def read_bytes(self) -> None:
        bulk = Bulk(self.lab.room)
        self.made = {path: bulk.ask("GET", f"/doc/{target(path)}")[1].decode().removeprefix(
            "bytes of ") for path, one in self.world.objects.items() if one.kind == "document"}
        bulk.close()


def compare(lab: Lab, seed: str, objects: int, requests: int) -> Compared:
    make(lab, random.Random(seed), objects)
    dump = lab.subcommand("dump").decode()
    compared = Compared(lab, World(dump))
    compared.read_bytes()
    compared.count += compared.review()

    def some(number: int) -> None:
        chance = random.Random(f"{seed} {number}")
        for _ in range(requests // 8):
            compared.one(chance)
    threads = [threading.Thread(target=some, args=(number,)) for number in range(8)]
    for thread in threads:
        thread.start()
    for thread in threads:
        thread.join()
    if lab.subcommand("dump").decode() != dump:
        compared.bad.append("something was changed")
    return compared


def main() -> int:
    program, folder = sys.argv[1:3]
    seed, trees, objects, requests = map(int, sys.argv[3:7])
    bad: list[object] = []
    count = 0
    for tree in range(trees):
        with Lab(program, folder, GROUPS) as lab:
            compared = compare(lab, f"{seed} {tree}", objects, requests)
        bad += compared.bad
        count += compared.count
    for one in bad[:10]:
        print("wrong:", one)
    print(f"{count} answers and rows of review, {len(bad)} wrong")
    return 1 if bad or count < trees * requests // 2 else 0


if __name__ == "__main__":
    sys.exit(main())
