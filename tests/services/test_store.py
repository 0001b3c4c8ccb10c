"""The texts of a night: what is kept, what is asked of them, and what a night does with documents
that can't be read."""
import json
import os
import random
import shutil
import socket
import sqlite3
import tempfile
import threading
import tracemalloc
import unittest
from unittest import mock

from rooms_admin.room import in_parts
from rooms_services.document_texts import folding, keeper, night, nights
from rooms_services.document_texts.sink import State
from rooms_services.document_texts.store import MOST_FOLDED, NoStore, Store

Tree = dict[str, bytes | None]


def copy(place: str, tree: Tree) -> dict[str, int]:
    """A room's file as far as a night reads one, and the numbers in it."""
    if os.path.exists(place):
        os.unlink(place)
    numbers = {"": 1}
    with sqlite3.connect(place) as room:
        room.executescript("CREATE TABLE nodes(id INTEGER PRIMARY KEY, parent INTEGER, name TEXT, "
                           "kind INTEGER); CREATE TABLE bodies(node INTEGER PRIMARY KEY, bytes);"
                           "INSERT INTO nodes VALUES(1, NULL, '', 1)")
        for path, data in tree.items():
            above, _, name = path.rpartition("/")
            numbers[path] = len(numbers) + 1
            room.execute("INSERT INTO nodes VALUES(?,?,?,?)",
                         (numbers[path], numbers[above], name, int(data is None)))
            if data is not None:
                room.execute("INSERT INTO bodies VALUES(?,?)", (numbers[path], data))
    return numbers


class Based(unittest.TestCase):
    def setUp(self) -> None:
        folder = tempfile.TemporaryDirectory()
        self.addCleanup(folder.cleanup)
        self.folder = folder.name
        patch = mock.patch.object(nights, "FOLDER", self.folder)
        patch.start()
        self.addCleanup(patch.stop)
        os.mkdir(f"{self.folder}/office")
        self.read: list[bytes] = []

    def reads(self, data: bytes) -> tuple[State, str]:
        self.read.append(data)
        state = {b"!": State.BROKEN, b"?": State.LATE, b"-": State.NONE,
                 b"/": State.LACKS}.get(data[:1], State.WHOLE)
        return state, data.decode() if state is State.WHOLE else ""

    def night(self, at: int, tree: Tree, seconds: float = 60.0) -> dict[str, int]:
        numbers = copy(f"{self.folder}/copy", tree)
        self.read.clear()
        made = night.Night("office", self.reads, seconds)
        made.make(f"{self.folder}/copy", at, "2026-11-30.020000")
        return numbers

    def found(self, at: int, numbers: dict[str, int], *words: str) -> dict[str, int]:
        store = Store(nights.place("office", at))
        looked = store.match([word.encode() for word in words], numbers.values())
        paths = {number: path for path, number in numbers.items()}
        return {paths[one.number]: one.places for one in looked.hits}

    def files(self) -> str:
        """All that is on the disk."""
        got = b""
        for place, _, names in os.walk(f"{self.folder}/office"):
            for name in names:
                with open(os.path.join(place, name), "rb") as source:
                    got += source.read()
        return got.decode(errors="replace")


class Stores(Based):
    def test_a_night(self) -> None:
        numbers = self.night(5, {"/a": None, "/a/one": "Kündigung Kündigung".encode(),
                                 "/a/two": b"nothing", "/three": "Kündigung".encode(),
                                 "/four": "Kündigung".encode(), "/bad": b"!", "/scan": b"-"})
        self.assertEqual(self.found(5, numbers, "kundigung"),
                         {"/a/one": 2, "/three": 1, "/four": 1})
        self.assertEqual(sorted(self.read), sorted([
            "Kündigung Kündigung".encode(), b"nothing", "Kündigung".encode(), b"!", b"-"]))
        store = Store(nights.place("office", 5))
        looked = store.match([b"kundigung"], [numbers["/bad"], numbers["/scan"], 99])
        self.assertEqual((looked.hits, looked.unknown, looked.empty), ([], [99], 2))
        with open(f"{self.folder}/office/{night.LIST}", encoding="utf-8") as out:
            self.assertEqual(out.read(), "why,path\nbroken,/bad\nnone,/scan\n")

    def test_the_next_night(self) -> None:
        """Nothing is read twice, not even what failed, until its bytes change, but what nothing was
        there for; and what was removed is in no file."""
        tree: Tree = {"/one": b"secretword", "/two": b"other", "/bad": b"!1", "/slow": b"?1",
                      "/pdf": b"/"}
        self.night(5, tree)
        self.assertIn("secretword", self.files())
        numbers = self.night(6, {"/two": b"other", "/bad": b"!1", "/slow": b"?2", "/new": b"new",
                                 "/pdf": b"/"})
        self.assertEqual(sorted(self.read), [b"/", b"?2", b"new"])
        self.assertNotIn("secretword", self.files())
        self.assertEqual(self.found(6, numbers, "other"), {"/two": 1})
        self.assertEqual(sorted(os.listdir(f"{self.folder}/office")), ["night.6", night.LIST])

    def test_with_another_reader_all_is_read_anew(self) -> None:
        self.night(5, {"/one": b"text", "/bad": b"!"})
        with mock.patch.object(night, "VERSION", 99):
            self.night(6, {"/one": b"text", "/bad": b"!"})
        self.assertEqual(sorted(self.read), [b"!", b"text"])

    def test_no_more_time(self) -> None:
        """What it has no time for comes the night after."""
        tree: Tree = {"/one": b"text one", "/two": b"text two"}
        numbers = self.night(5, tree, 0.0)
        self.assertEqual((self.read, self.found(5, numbers, "text")), ([], {}))
        looked = Store(nights.place("office", 5)).match([b"text"], numbers.values())
        self.assertEqual(looked.empty, 2)
        numbers = self.night(6, tree)
        self.assertEqual(self.found(6, numbers, "text"), {"/one": 1, "/two": 1})

    def test_scans(self) -> None:
        """As many as there is time for, each once; the others are scans in the next night."""
        first, second, blank = (b"-no text", b"\xff\xd8\xffpicture of words", b"%PDF-?-blank")
        tree: Tree = {"/one": second, "/two": b"II*\0other words", "/blank": blank,
                      "/none": first, "/text": b"words"}
        scanned: list[bytes] = []
        seconds = 60.0

        def reads(data: bytes) -> tuple[State, str]:
            return (State.WHOLE, "words") if data == b"words" else (State.NONE, "")

        def scans(data: bytes) -> tuple[State, str]:
            if seconds < 0:
                return State.LACKS, ""
            scanned.append(data)
            return (State.BLANK, "") if data == blank else (State.WHOLE, data[3:].decode())

        def night_of(at: int) -> dict[str, int]:
            scanned.clear()
            numbers = copy(f"{self.folder}/copy", tree)
            night.Night("office", reads, 60.0, abs(seconds), scans).make(
                f"{self.folder}/copy", at, "2026-11-30.020000")
            return self.found(at, numbers, "words")
        seconds = 0.0
        self.assertEqual((night_of(5), scanned), ({"/text": 1}, []))
        # Where nobody reads scans, they stay what they are.
        seconds = -60.0
        self.assertEqual((night_of(6), scanned), ({"/text": 1}, []))
        seconds = 60.0
        self.assertEqual(night_of(7), {"/one": 1, "/two": 1, "/text": 1})
        self.assertEqual(sorted(scanned), sorted((second, tree["/two"], blank)))
        self.assertEqual((night_of(8), scanned), ({"/one": 1, "/two": 1, "/text": 1}, []))
        with open(f"{self.folder}/office/{night.LIST}", encoding="utf-8") as out:
            self.assertEqual(out.read(), "why,path\nblank,/blank\nnone,/none\n")

    def test_nobody_reads(self) -> None:
        """The last night stays where no process begins that reads."""
        numbers = self.night(5, {"/one": b"text"})
        many: Tree = {f"/{at}": b"%d" % at for at in range(60)}
        copy(f"{self.folder}/copy", many)
        for nobody in (0.1, night.NOBODY):
            with mock.patch.object(night, "PAUSE", 0.0), self.assertRaises(night.NobodyReads), \
                    mock.patch.object(night, "NOBODY", nobody):
                night.Night("office", lambda data: (State.LATER, ""), 60.0).make(
                    f"{self.folder}/copy", 6, "2026-11-30.020000")
        self.assertEqual(self.found(5, numbers, "text"), {"/one": 1})

    def test_others_read_meanwhile(self) -> None:
        """Those who search, for a while: what was refused then comes the night after."""
        many: Tree = {f"/{at}": b"text %d" % at for at in range(90)}
        numbers = copy(f"{self.folder}/copy", many)
        asked = iter(range(9999))

        def reads(data: bytes) -> tuple[State, str]:
            return self.reads(data) if next(asked) > 60 * 5 else (State.LATER, "")
        with mock.patch.object(night, "PAUSE", 0.0), mock.patch.object(night, "TRIES", 5):
            made = night.Night("office", reads, 60.0).make(f"{self.folder}/copy", 6,
                                                           "2026-11-30.020000")
        self.assertGreaterEqual(made[State.WHOLE], 25)
        self.assertEqual(sum(made.values()), 90)
        self.assertEqual(len(self.found(6, numbers, "text")), made[State.WHOLE])
        self.night(7, many)
        self.assertEqual(len(self.read), 90 - made[State.WHOLE])

    def test_a_night_that_is_cut_off(self) -> None:
        """At each of its steps: the last store or the new one, and the next night is whole."""
        steps = ("os.fsync", "os.rename", "rooms_services.document_texts.nights.keep_only")
        for step in steps:
            for turn in range(1, 5):
                with self.subTest(step, turn=turn):
                    shutil.rmtree(f"{self.folder}/office")
                    os.mkdir(f"{self.folder}/office")
                    numbers = self.night(5, {"/one": b"text"})
                    calls = iter(range(1, 99))
                    whole = {"os.fsync": os.fsync, "os.rename": os.rename}.get(
                        step, nights.keep_only)

                    def cut(*words: object) -> None:
                        if next(calls) == turn:
                            raise KeyboardInterrupt
                        whole(*words)  # type: ignore[operator]
                    try:
                        with mock.patch(step, cut):
                            self.night(6, {"/one": b"text"})
                    except KeyboardInterrupt:
                        pass
                    there = nights.moments("office")
                    self.assertTrue(there)
                    for at in there:
                        self.assertEqual(self.found(at, numbers, "text"), {"/one": 1})
                    numbers = self.night(7, {"/one": b"text"})
                    self.assertEqual(nights.moments("office"), [7])

    def test_a_letter_that_becomes_eighteen(self) -> None:
        numbers = self.night(5, {"/one": ("\ufdfa" * 300_000 + "end").encode()})
        self.assertEqual(self.found(5, numbers, "end"), {})
        store = Store(nights.place("office", 5))
        self.assertEqual(store.match([b"x"], numbers.values()).empty, 1)
        self.assertLess(os.path.getsize(f"{nights.place('office', 5)}/texts"), MOST_FOLDED + 1)

    def test_what_is_remembered_of_each(self) -> None:
        """Its name, and neither its path nor a list of parts that somebody made up."""
        way = ""
        tree: Tree = {}
        for _ in range(15):
            way += "/" + "d" * 250
            tree[way] = None
        parts = tuple((number, "0" * 64) for number in range(1, 31))
        for number in range(2000):
            tree[f"{way}/{number}"] = in_parts.Manifest(
                30 * in_parts.LARGEST, f"{number:064}", parts).text()
        numbers = copy(f"{self.folder}/copy", tree)
        tracemalloc.start()
        night.Night("office", self.reads, 60.0).make(f"{self.folder}/copy", 5, "2026-11-30.020000")
        taken = tracemalloc.get_traced_memory()[1]
        tracemalloc.stop()
        self.assertLess(taken, 2000 * 1500)
        self.assertEqual(Store(nights.place("office", 5)).parts([numbers[f"{way}/7"]]), [[]])
        with open(f"{self.folder}/office/{night.LIST}", encoding="utf-8") as out:
            self.assertIn(f"\nbroken,{way}/1999\n", out.read())

    def test_what_somebody_made_up(self) -> None:
        """A copy is whatever somebody wrote who had the server in their hands."""
        hostile = {"a circle": "UPDATE nodes SET parent = 3 WHERE id = 2;"
                               "UPDATE nodes SET parent = 2 WHERE id = 3",
                   "a folder 0": "UPDATE nodes SET id = 0 WHERE id = 2;"
                                 "UPDATE nodes SET parent = 0 WHERE parent = 2",
                   "no name": "UPDATE nodes SET name = x'ff' WHERE id = 3",
                   "a number": "UPDATE bodies SET bytes = 7",
                   "no table": "DROP TABLE bodies", "a view": "ALTER TABLE nodes RENAME TO n;"
                   "CREATE VIEW nodes AS SELECT 'x' AS id, parent, name, kind FROM n"}
        for what, change in hostile.items():
            with self.subTest(what):
                copy(f"{self.folder}/copy", {"/a": None, "/a/b": b"text"})
                with sqlite3.connect(f"{self.folder}/copy") as room:
                    room.executescript(change)
                try:
                    night.Night("office", self.reads, 60.0).make(f"{self.folder}/copy", 9,
                                                                 "2026-11-30.020000")
                except night.FAULTS:
                    pass

    def test_damage(self) -> None:
        self.night(5, {"/one": b"text", "/two": b"more"})
        place = nights.place("office", 5)
        chance = random.Random(3)
        for name in ("index", "texts"):
            with open(f"{place}/{name}", "rb") as source:
                whole = source.read()
            for _ in range(200):
                data = bytearray(whole)
                data[chance.randrange(len(data))] ^= 1 << chance.randrange(8)
                data = data[:chance.randrange(len(data))] if chance.random() < 0.5 else data
                with open(f"{place}/{name}", "wb") as out:
                    out.write(data)
                try:
                    Store(place).match([b"text"], range(5))
                except NoStore:
                    pass
            with open(f"{place}/{name}", "wb") as out:
                out.write(whole)


class Keepers(Based):
    def setUp(self) -> None:
        super().setUp()
        self.keeper = keeper.Keeper()

    def asked(self, *lines: bytes) -> list[dict[str, object]]:
        """One connection; none comes where a line ends it."""
        mine, theirs = socket.socketpair()
        thread = threading.Thread(target=self.keeper.one, args=(theirs,))
        thread.start()
        with mine:
            mine.sendall(b"".join(lines))
            mine.shutdown(socket.SHUT_WR)
            thread.join()
            theirs.close()
            with mine.makefile("rb") as said:
                return [json.loads(line) for line in said]

    def question(self, **what: object) -> bytes:
        return json.dumps({"do": "match", "room": "office", "copy": 5, "numbers": [2, 3, 4],
                           "words": ["text"], **what}).encode() + b"\n"

    def test_what_it_says(self) -> None:
        self.night(5, {"/one": b"text text", "/two": b"more"})
        hits = {"empty": 0, "hits": [[2, 2]], "night": "2026-11-30.020000", "unknown": [4]}
        sums = self.question(do="sums", numbers=[2, 9])
        said = self.asked(self.question(), self.question(numbers=[3]), sums)
        self.assertEqual(said[:2], [hits, {**hits, "hits": [], "unknown": []}])
        told = said[2]["sums"]
        assert isinstance(told, list)
        self.assertEqual([len(one) for one in told], [64, 0])
        self.assertEqual(self.asked(self.question(copy=6), self.question(room="other")),
                         [{"none": True}] * 2)
        # What is removed isn't answered from, whoever had it open.
        shutil.rmtree(f"{self.folder}/office")
        self.assertEqual(self.asked(self.question()), [{"none": True}])

    def test_what_is_no_question(self) -> None:
        self.night(5, {"/one": b"text"})
        for line in (b"\n", b"x\n", b"[]\n", b"{}\n", b"\xff\n", b"[" * 9000 + b"\n",
                     self.question(room="../office"), self.question(copy="5"),
                     self.question(numbers="2"), self.question(numbers=["x"]),
                     self.question(words=[]), self.question(words=["a"] * 9),
                     self.question(do="show"), self.question()[:-1]):
            self.assertEqual(self.asked(line, self.question()), [], line)


class Words(unittest.TestCase):
    def test_a_text_has_what_is_asked(self) -> None:
        """Each word of a text finds it, whatever stands round it."""
        chance = random.Random(1)
        for _ in range(200):
            words = ["".join(chance.choice("aäßÖœıİŉﬁΣς가\u0301é") for _ in range(6))
                     for _ in range(5)]
            text = folding.folded(folding.plain(" \n".join(words)))
            for word in words:
                for one in folding.words_of(word):
                    self.assertIn(one, text)


if __name__ == "__main__":
    unittest.main()
