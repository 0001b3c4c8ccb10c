#!/usr/bin/env python3
"""A search in texts over the program, with all its parts in this process but that one:

  searched.py PROGRAM FOLDER pairs COUNT    pairs of rooms that differ behind barred folders alone:
                                            the same bytes to the caller, the room and the keeper
                                            for so many questions, and no record of a denial; and
                                            what a walk does that forgets a right
  searched.py PROGRAM FOLDER grep COUNT     so many words of five users, against what each finds by
                                            reading; the room is changed, and a fifth as many again
  searched.py PROGRAM FOLDER times COUNT    how long a question takes whose word stands in barred
                                            papers, and one whose word stands nowhere
  searched.py PROGRAM FOLDER many COUNT [SOCKET]  how long one takes in a room of so many documents;
                                            what is shown is read by who listens at that socket

It prints a line for each thing that it has found, and its status is 1 if one is wrong."""
import csv
import hashlib
import io
import json
import os
import random
import shutil
import socket
import sys
import threading
import time
import unicodedata
from collections.abc import Callable, Iterator
from contextlib import contextmanager
from typing import NamedTuple
from unittest import mock
from urllib.parse import quote

import papers
from lab import ALL, Bulk, Lab, target
from rooms_services import listening
from rooms_services.door.changes import lines
from rooms_services.door.changes.keeper import Keeper
from rooms_services.door.folders import walk
from rooms_services.door.folders.walk import Node
from rooms_services.door.search import asking, search
from rooms_services.door.search.reading import Reading
from rooms_services.room import room
from rooms_services.room.paths import names_in
from rooms_services.room.room import Ask, Reply, Room, about
from rooms_services.document_texts import extract, feed, keeper, night, nights

from rooms_admin.backup import objects_of_copy

USERS = ("root", "bob", "dora", "carol", "eve")
GROUPS = (*(("staff", user) for user in ("bob", "dora", "carol", "eve")), ("sales", "bob"),
          ("sales", "dora"))
_failed = False


def say(right: bool, text: str) -> None:
    global _failed
    _failed = _failed or not right
    print(("" if right else "WRONG: ") + text, flush=True)


class Searched:
    """A room, and a door's search in it. `at` is the moment of its night, in milliseconds."""

    def __init__(self, program: str, folder: str, extract_at: str = "") -> None:
        self.lab = Lab(program, folder, GROUPS)
        self.folder = self.lab.folder
        self.texts_folder = f"{self.folder}/texts"
        os.makedirs(f"{self.texts_folder}/office")
        os.mkdir(f"{self.folder}/changes")
        self.keeper = Keeper(f"{self.folder}/changes", "", f"{self.folder}/told", 0,
                             f"{self.folder}/mark")
        self.keeper.catch_up()
        self.room = Room(self.lab.room)
        self.texts = search.Texts("office", f"{self.folder}/keeper", Reading(extract_at))
        at = socket.socket(socket.AF_UNIX)
        at.bind(self.texts.keeper)
        at.listen(64)
        threading.Thread(target=listening.serve, daemon=True,
                         args=(at, 16, 1e9, keeper.Keeper().one)).start()

    def change(self, method: str, route: str, path: str, body: bytes = b"", user: str = "root"
               ) -> int:
        """By the room, and with nginx's line."""
        ask = about(method, route, names_in(target(path)), body=body)
        status = self.room.ask(user, ask).status
        assert status in (200, 201, 204), (method, route, path, status)
        with open(f"{self.folder}/changes/journal", "ab") as journal:
            journal.write(lines.written(time.time(), user, ask, status, ""))
        return status

    def set_list(self, path: str, *entries: str, which: str = "dacl") -> None:
        text = "\n".join((f"list:{'a' if path == '/' else 'ap'}", *entries, ""))
        self.change("PUT", which, path, text.encode())

    def make_night(self, at: int = 0) -> None:
        """As the nightly run and who reads its copy do."""
        self.keeper.catch_up()
        time.sleep(0.003)
        moment = at or int(time.time() * 1000)
        copied = f"{self.folder}/copied"
        for end in ("", "-wal"):
            if os.path.exists(self.lab.file + end):
                shutil.copy(self.lab.file + end, copied + end)
        night.Night("office", extract.read, 7200.0).make(copied, moment, "2026-11-30.020000")
        out = io.StringIO()
        with mock.patch.object(sys, "argv", ["", copied, str(moment)]), \
                mock.patch.object(sys, "stdout", out):
            objects_of_copy.main()
        with open(f"{self.folder}/new", "w", encoding="utf-8") as listed:
            listed.write(out.getvalue())
        os.replace(f"{self.folder}/new", f"{self.folder}/told.night")
        self.keeper.catch_up()
        self.keeper.take_night()
        time.sleep(0.003)

    def ask(self, user: str, words: str, path: str = "") -> bytes:
        answer = search.search(self.room, user, names_in(target(path)) if path else (),
                               quote(words), self.texts, self.keeper)
        assert answer.status == 200, (answer.status, answer.body)
        return answer.body

    def found(self, user: str, words: str, path: str = "") -> dict[str, int]:
        return {row["path"]: row["count"] for row in json.loads(
            self.ask(user, words, path))["found"]}

    def denials(self) -> list[str]:
        rows = csv.DictReader(io.StringIO(self.lab.subcommand("audit").decode()))
        return [",".join(row.values()) for row in rows if row["granted"] == "no"]

    @contextmanager
    def nights_here(self) -> Iterator[None]:
        with mock.patch.object(nights, "FOLDER", self.texts_folder):
            yield


def _read_here(data: bytes, *_: object) -> object:
    return extract.read(data)


def vocabulary() -> list[str]:
    chance = random.Random(7)
    return ["".join(chance.choice("bdfgklmnprstvz") + chance.choice("aeiouäöüé")
                    for _ in range(chance.randint(2, 5))) for _ in range(1500)] + [
        "Kündigungsschreiben", "Straße", "Weiß", "Geschäftsführer", "Übernahme", "garçon", "Noël"]


# Two rooms that differ in what is barred

SECRETS = "Geheimwort Zebra"


def barred(program: str, folder: str, secrets: str, more: int) -> Searched:
    """Four folders: one that sales may use, with papers that nobody else reads; one whose names may
    be seen, one that is closed, and one where bob reads what he can name."""
    made = Searched(program, folder)
    made.set_list("/", f"A:fd:root:{ALL}", "A:fg:staff:rx")
    for name in ("open", "front", "barred", "blind"):
        made.change("POST", "folder", f"/{name}")
    made.set_list("/open", f"A:fd:root:{ALL}", "A:fdg:sales:rx")
    made.set_list("/front", f"A:fd:root:{ALL}", "A:fg:sales:r")
    made.set_list("/barred", f"A:fd:root:{ALL}")
    made.set_list("/blind", f"A:fd:root:{ALL}", "A::bob:x", "A:fi:bob:r")
    for number in range(40):
        made.change("PUT", "doc", f"/open/a{number}",
                    f"Protokoll {number} Merger {'Zebra ' * (number % 3)}".encode())
    for number in range(8):
        made.change("PUT", "doc", f"/open/no{number}", secrets.encode())
        made.set_list(f"/open/no{number}", f"A::root:{ALL}")
    for folder_, many in (("barred", 30), ("front", 3), ("blind", 2)):
        for number in range(many):
            made.change("PUT", "doc", f"/{folder_}/b{number}", (f"{secrets} " * 3).encode())
    # Each try of x or r is recorded there.
    for name in ("barred", "front", "blind"):
        made.set_list(f"/{name}", "U:fdFS:EVERYONE@:rx", which="sacl")
    for number in range(more):
        for name in ("barred", "front"):
            made.change("PUT", "doc", f"/{name}/more{number}", secrets.encode())
    return made


class Heard:
    """All that is said to the room and the keeper, and by that."""

    def __init__(self) -> None:
        self.all: list[bytes] = []

    @contextmanager
    def listens(self) -> Iterator[None]:
        message, asked = room.question, asking.Asking._ask

        def to_room(user: str, route: str, path: str, query: str) -> bytes:
            self.all.append(message(user, route, path, query))
            return self.all[-1]

        def to_keeper(keeper_: asking.Asking, what: dict[str, object]) -> dict[str, object]:
            said = asked(keeper_, what)
            self.all += [json.dumps(one, sort_keys=True).encode() for one in (what, said)]
            return said
        with mock.patch.object(room, "question", to_room), \
                mock.patch.object(walk, "question", to_room), \
                mock.patch.object(asking.Asking, "_ask", to_keeper):
            yield


def told(heard: Heard, one: Searched, user: str, words: str) -> str:
    heard.all.clear()
    with one.nights_here():
        body = one.ask(user, words)
    return hashlib.sha256(b"\0".join([body, *heard.all])).hexdigest()


def differing(pair: list[Searched], count: int, chance: random.Random) -> int:
    heard = Heard()
    words = ["Geheimwort", "Zebra", "merger", "nothing", "kind zebra", "protokoll", "geheim",
             "eheim", "Geheimwort Zebra", '"wort zebra"', "no such", "more"]
    different = 0
    with heard.listens():
        for _ in range(count):
            user, word = chance.choice(USERS[1:]), chance.choice(words)
            if chance.random() < 0.3:
                word = SECRETS[(at := chance.randrange(8)):at + 2]
            one, other = (told(heard, side, user, word) for side in pair)
            different += one != other
    return different


def forgets_x(self: search.Search, node: Node, reply: Reply) -> None:
    node.is_open = True
    if reply.rulings().get("r"):
        self.walk.ask(self.list, node)


def forgets_r(self: search.Search, node: Node, reply: Reply) -> None:
    self.readable.append(node)


def candidates_first(self: search.Search) -> dict[int, Node]:
    """What the keeper knows is asked about, before the room is."""
    return {**{number: Node(b"/none", False) for number in range(2, 60)}, **_known(self)}


_known = search.Search._known


def pairs(program: str, folder: str, count: int) -> None:
    chance = random.Random(5)
    with mock.patch.object(feed, "text_of", _read_here):
        pair = [barred(program, f"{folder}/{side}", secrets, more)
                for side, secrets, more in (("a", SECRETS, 5), ("b", "nothing of that kind", 0))]
        at = int(time.time() * 1000) + 1000
        while time.time() * 1000 < at + 5:
            time.sleep(0.1)
        for one in pair:
            with one.nights_here():
                one.make_night(at)
        before = [one.denials() for one in pair]
        different = differing(pair, count, chance)
        say(different == 0, f"{count} questions: {different} told apart two rooms that differ "
            "behind barred folders")
        left = [len(one.denials()) - len(was) for one, was in zip(pair, before)]
        say(left == [0, 0], f"{2 * count} questions left {sum(left)} records of a denial")
        with pair[0].nights_here():
            found = pair[0].found("bob", "zebra")
        say(len(found) == 26 and not any("blind" in path for path in found)
            and pair[0].room.ask("bob", about("GET", "doc", ("blind", "b0"))).status == 200,
            f"{len(found)} hits, and what bob can read and not list isn't one")
        for name, what in (("_folder", forgets_x), ("_document", forgets_r),
                           ("_known", candidates_first)):
            with mock.patch.object(search.Search, name, what):
                seen = differing(pair, 40, chance)
            say(seen > 0, f"{what.__name__}: {seen} of 40 questions tell them apart")
        for one in pair:
            one.lab.__exit__()


# Against what each reads

class Paper(NamedTuple):
    kind: str
    text: str
    data: bytes


def paper(chance: random.Random, words: list[str], kinds: list[str]) -> Paper:
    kind = chance.choice(kinds)
    said = [" ".join(chance.choice(words) for _ in range(12))
            for _ in range(chance.choice((3, 12, 40)))]
    if kind == "jpg":
        return Paper(kind, "", b"\xff\xd8\xff\0" + chance.randbytes(500))
    more = " heading sender@office.example reader@office.example" if kind == "eml" else ""
    data = "\n".join(said).encode() if kind == "txt" else papers.KINDS[kind](said)
    return Paper(kind, "\n".join(said) + more, data)


def plainly(text: str) -> str:
    """By the rule of names, and not by the search's own."""
    marks = "".join(one for one in unicodedata.normalize("NFKD", text)
                    if not unicodedata.category(one).startswith("M"))
    return " ".join(marks.upper().lower().split())


class Grep:
    def __init__(self, program: str, folder: str) -> None:
        self.chance = random.Random(11)
        self.words = vocabulary()
        self.kinds = [one for one in [*papers.KINDS, "txt", "jpg"]
                      if one != "pdf" or shutil.which("pdftotext")]
        self.made = Searched(program, folder)
        self.truth: dict[str, str] = {}

    def fill(self, count: int) -> None:
        made = self.made
        made.set_list("/", f"A:fd:root:{ALL}", "A:fg:staff:rx")
        for number in range(12):
            folder = f"/dept{number}" if number % 3 else f"/dept{number}/Akte Müller & Söhne"
            if not number % 3:
                made.change("POST", "folder", f"/dept{number}")
            made.change("POST", "folder", folder)
            who = self.chance.choice(("A:fdg:sales:rx", "A:fd:carol:rx", "A:fd:dora:rx",
                                      "A:fdg:staff:rx", "A:fd:bob:x", "A:fd:bob:r"))
            made.set_list(folder, f"A:fd:root:{ALL}", who)
            for _ in range(count // 12):
                self.put(f"{folder}/Doc {len(self.truth)}", "PUT")

    def put(self, path: str, method: str) -> None:
        one = paper(self.chance, self.words, self.kinds)
        self.made.change(method, "doc", path, one.data)
        self.truth[path] = plainly(one.text)

    def own(self, user: str) -> set[str]:
        """What the user reads by plain requests."""
        found, todo = set(), [""]
        while todo:
            at = todo.pop()
            reply = self.made.room.ask(user, Ask("GET", "folder", target(at)))
            for row in json.loads(reply.body) if reply.status == 200 else []:
                path = f"{at}/{row['name']}"
                if row["kind"] == "folder":
                    todo.append(path)
                elif self.made.room.ask(user, Ask("GET", "doc", target(path))).status == 200:
                    found.add(path)
        return found

    def word(self) -> str:
        word = self.chance.choice(self.words)
        if self.chance.random() < 0.3 and len(word) > 5:
            at = self.chance.randrange(len(word) - 3)
            word = word[at:at + 4]
        if self.chance.random() < 0.2:
            word = word.upper()
        return word if self.chance.random() > 0.1 else f"{word} {self.chance.choice(self.words)}"

    def compare(self, count: int, when: str) -> None:
        mine = {user: self.own(user) for user in USERS}
        more = less = hits = 0
        began = time.monotonic()
        for _ in range(count):
            user, word = self.chance.choice(USERS), self.word()
            got = set(self.made.found(user, word))
            words = [plainly(one) for one in word.split()]
            wanted = {path for path in mine[user] if all(one in self.truth[path] for one in words)}
            more, less, hits = more + bool(got - wanted), less + bool(wanted - got), hits + len(got)
            if got != wanted:
                print(user, word, sorted(got ^ wanted)[:3])
        say(not more and not less, f"{when}: {count} words of {len(USERS)} users, {hits} hits: "
            f"{more} with one more, {less} with one less than each finds by reading "
            f"({time.monotonic() - began:.0f} s)")

    def change(self, count: int) -> None:
        for number in range(count):
            path = self.chance.choice(sorted(self.truth))
            what = self.chance.random()
            if what < 0.4:
                self.put(path, "PUT")
            elif what < 0.55:
                self.made.change("DELETE", "object", path)
                del self.truth[path]
                # Somebody else's paper takes its place.
                if self.chance.random() < 0.5:
                    self.put(path, "PUT")
            elif what < 0.8:
                to = f"{path.rpartition('/')[0]}/Moved {number}"
                self.made.change("POST", "move", path, json.dumps({"to": to}).encode())
                self.truth[to] = self.truth.pop(path)
            elif what < 0.9:
                self.rename(path.rpartition("/")[0], number)
            else:
                self.made.set_list(path, f"A::root:{ALL}", self.chance.choice(
                    ("A::bob:r", "A::carol:r", "A::dora:r", "D::bob:r")))

    def rename(self, folder: str, number: int) -> None:
        to = f"/dept renamed {number}"
        self.made.change("POST", "move", folder, json.dumps({"to": to}).encode())
        for path in [one for one in self.truth if one.startswith(f"{folder}/")]:
            self.truth[to + path[len(folder):]] = self.truth.pop(path)


def grep(program: str, folder: str, count: int) -> None:
    with mock.patch.object(feed, "text_of", _read_here), \
            mock.patch.multiple(search, SHOWN=1 << 20, READ=1 << 20, READ_BYTES=1 << 40):
        one = Grep(program, f"{folder}/grep")
        one.fill(count)
        with one.made.nights_here():
            one.made.make_night()
            one.compare(count, "as the night has it")
            one.change(max(20, count // 6))
            one.compare(count // 5, "after changes")
            one.made.make_night()
            one.compare(count // 5, "in the next night")
        one.made.lab.__exit__()


# Times

def quartiles(some: list[float]) -> str:
    some = sorted(some)
    return ", ".join(f"{name} {1000 * some[int(len(some) * part)]:.2f}" for name, part in (
        ("first", 0), ("tenth", 0.1), ("quarter", 0.25), ("middle", 0.5), ("three quarters", 0.75)))


def times(program: str, folder: str, count: int) -> None:
    chance = random.Random(5)
    with mock.patch.object(feed, "text_of", _read_here):
        one = barred(program, f"{folder}/a", SECRETS, 30)
        with one.nights_here():
            one.make_night()
            took: dict[str, list[float]] = {"Geheimwort": [], "Geheimwerk": []}
            for _ in range(count):
                word = chance.choice(sorted(took))
                began = time.perf_counter()
                one.ask("bob", word)
                took[word].append(time.perf_counter() - began)
            for word, where in (("Geheimwort", "in barred papers"), ("Geheimwerk", "in none")):
                say(True, f"a word {where}, {len(took[word])} questions; ms: "
                    f"{quartiles(took[word])}")
        one.lab.__exit__()


def many(program: str, folder: str, count: int, place: str = "") -> None:
    """In folders of a hundred, each document of some 7,000 letters."""
    chance, words = random.Random(3), vocabulary()
    with mock.patch.object(feed, "text_of", feed.text_of if place else _read_here):
        one = Searched(program, f"{folder}/many", place)
        bulk, size = Bulk(one.lab.room), 0
        kinds = ["pdf", "docx", "odt", "xlsx", "eml"]
        for number in range(count):
            at = f"/f{number // 100}"
            if number % 100 == 0:
                bulk.make(at)
            lines_ = [" ".join(chance.choice(words) for _ in range(12)) for _ in range(75)]
            data = papers.KINDS[chance.choice(kinds)]([*lines_, f"Merger {number}"])
            size += len(data)
            bulk.make(f"{at}/d{number}", data)
        bulk.close()
        with one.nights_here():
            one.make_night()
            kept = sum(os.path.getsize(os.path.join(at, name)) for at, _, names in os.walk(
                one.texts_folder) for name in names)
            say(True, f"{count} documents, {size >> 20} MB, with texts of {kept >> 20} MB")
            for word in ("merger", "kundigung", "nothing of that"):
                took = []
                for _ in range(7):
                    began = time.monotonic()
                    shown = one.found("root", word)
                    took.append(time.monotonic() - began)
                say(sorted(took)[3] < 2.0 or not place, f"{word}: {len(shown)} shown; s: "
                    f"middle {sorted(took)[3]:.2f}, most {max(took):.2f}")
        one.lab.__exit__()


def main() -> int:
    program, folder, what, *rest = sys.argv[1:]
    os.makedirs(folder, exist_ok=True)
    does: dict[str, Callable[..., None]] = {
        "pairs": pairs, "grep": grep, "times": times, "many": many}
    does[what](os.path.abspath(program), os.path.abspath(folder), int(rest[0]), *rest[1:])
    return int(_failed)


if __name__ == "__main__":
    sys.exit(main())
