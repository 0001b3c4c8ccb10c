"""A search in texts: what is found, what is read for it, and what it is never answered from."""
import contextlib
import json
import os
import socket
import threading
import time
import unittest
from typing import Any
from unittest import mock

import papers
from dated_door import line
from fake_room import Path
from rooms_services.door.folders import walk
from rooms_services.door.search import asking, reading, search
from rooms_services.door.search.reading import Reading
from rooms_services.document_texts import feed
from rooms_services.document_texts.sink import State
from searching import Searching

SECRET, NONSENSE = "Geheimwort", "Unsinnwort"


def path(text: str) -> Path:
    return tuple(text.strip("/").split("/"))


class Memory(unittest.TestCase):
    def test_texts_that_are_looked_at_at_once(self) -> None:
        """Of a MiB in which each sign becomes eighteen, by as many searches as there may be."""
        text = "\ufdfa" * 20_000
        now = most = 0
        lock = threading.Lock()

        def counts(*given: object) -> reading.Read:
            nonlocal now, most
            with lock:
                now += 1
                most = max(most, now)
            time.sleep(0.01)
            with lock:
                now -= 1
            return reading.LATER
        read = reading.Reading("nowhere")
        with mock.patch.object(feed, "text_of", return_value=(State.WHOLE, text)), \
                mock.patch.object(reading, "looked", counts):
            threads = [threading.Thread(target=lambda: list(read.each([b"x"] * 9, ["word"], 60.0)))
                       for _ in range(4)]
            for thread in threads:
                thread.start()
            for thread in threads:
                thread.join()
        self.assertLessEqual(most, reading.MOST)


class Found(Searching):
    def setUp(self) -> None:
        super().setUp()
        self.room.make(f=None, f__g=None, g=None)
        self.room.make(f__one=papers.docx(["Kündigung der Straße", "und Kündigung"]),
                       f__two=papers.odt(["eine Kündigung"]), f__g__three=b"Kundigungsschreiben",
                       f__scan=b"\xff\xd8\xff\0", g__four=b"nothing of that kind")
        self.at_night = self.make_night()

    def test_what_is_found(self) -> None:
        status, said = self.search("KÜNDIGUNG")
        self.assertEqual((status, said), (200, {
            "all": True, "at": "/", "night": "2026-11-30.020000", "unread": 0, "without": 1,
            "found": [
                {"count": 2, "path": "/f/one",
                 "text": ["", "Kündigung", " der Straße und Kündigung"]},
                {"count": 1, "path": "/f/g/three", "text": ["", "Kundigung", "sschreiben"]},
                {"count": 1, "path": "/f/two", "text": ["eine ", "Kündigung", ""]}]}))
        self.assertEqual(self.found("strasse kündigung"), {"/f/one": 3})
        self.assertEqual(self.found('"der strasse"'), {"/f/one": 1})
        self.assertEqual(self.found('"strasse der"'), {})
        self.assertEqual(self.found("kundigung", "f/g"), {"/f/g/three": 1})

    def test_only_what_is_shown_is_read(self) -> None:
        asked = self.asked("schreiben", "alice")
        self.assertEqual([one for one in asked if "/doc/" in one],
                         ["alice GET /doc/f/g/three"])
        self.assertEqual([one for one in self.asked(NONSENSE, "alice") if "/doc/" in one], [])

    def test_what_the_caller_may_not_list_or_read(self) -> None:
        self.room.denied |= {("bob", "/f/g", "r"), ("bob", "/f/one", "r")}
        self.room.denied.add(("carol", "/f", "x"))
        self.assertEqual(self.found("kündigung", user="bob"), {"/f/two": 1})
        self.assertEqual(self.search("kündigung", user="bob")[1]["without"], 1)
        self.assertEqual(self.found("nothing", user="carol"), {"/g/four": 1})
        self.assertEqual(self.found("kündigung", "f", "carol"), {})
        self.room.denied.add(("dora", "/f", "r"))
        self.assertEqual(self.search("kündigung", "f", "dora")[0], 403)
        # None of it was tried.
        for user in ("bob", "carol"):
            for one in self.asked("kündigung", user):
                self.assertNotRegex(one, "/doc/f/one|/folder/f/g|carol GET /(folder|can)/f/")

    def test_what_is_far_down(self) -> None:
        """It isn't looked through, which is told, and from further down it is."""
        for deepest, is_all, wanted in ((3, True, {"/f/g/three": 1}), (2, False, {})):
            with mock.patch.object(walk, "DEEPEST", deepest):
                self.assertEqual(self.search("schreiben")[1]["all"], is_all)
                self.assertEqual(self.found("schreiben"), wanted)
                self.assertEqual(self.found("schreiben", "f"), {"/f/g/three": 1})

    def test_a_night_whose_list_isn_t_taken_yet(self) -> None:
        with mock.patch.object(self.keeper, "take_night"):
            self.make_night(self.at_night / 1000 + 1)
        self.assertEqual(self.found("strasse kündigung"), {"/f/one": 3})

    def test_ten_have_texts(self) -> None:
        self.room.make(many=None)
        for number in range(60):
            self.room.objects["many", f"{number:02}"] = b"word " * (1 + number // 50)
        self.make_night(self.at_night / 1000 + 1)
        _, said = self.search("word")
        rows = said["found"]
        assert isinstance(rows, list)
        self.assertEqual([row["path"][-2:] for row in rows],
                         [f"{number:02}" for number in (*range(50, 60), *range(40))])
        self.assertEqual(["text" in row for row in rows], [True] * 10 + [False] * 40)
        self.assertFalse(said["all"])
        # Another one, when it is asked for.
        _, said = self.search("word", "many/39")
        self.assertEqual(said, {"all": True, "at": "/many/39", "night": None, "unread": 0,
                                "without": 0, "found": [{"count": 1, "path": "/many/39",
                                                         "text": ["", "word", ""]}]})
        self.room.denied.add(("bob", "/many/39", "r"))
        self.assertEqual(self.search("word", "many/39", "bob")[0], 403)
        self.assertEqual(self.found("other", "many/39"), {})

    def test_what_isn_t_asked(self) -> None:
        for words in ("a", "", " ", '""', "ab c", "one two three four five six seven eight nine"):
            status, said = self.search(words)
            self.assertEqual((status, said["why"]), (400, "bad-query"))
        self.assertEqual(self.search("word", "none")[0], 404)
        self.assertEqual(self.ask("PUT", "/door/search/?word")[0], 405)
        self.door.texts = None
        status, said = self.search("word")
        self.assertEqual((status, said["why"]), (404, "no-search"))

    def test_one_search_of_a_user_at_a_time(self) -> None:
        """While somebody's runs, they list folders, and others search."""
        begun, goes_on = threading.Semaphore(0), threading.Event()

        def waits(data: bytes, *_: object) -> tuple[State, str]:
            begun.release()
            goes_on.wait(60)
            return State.WHOLE, data.decode("latin-1")
        with mock.patch.object(feed, "text_of", waits):
            asked = [threading.Thread(target=self.search, args=("schreiben", "", user))
                     for user in ("alice", "alice", "bob")]
            for one in asked:
                one.start()
            self.assertTrue(begun.acquire(timeout=60) and begun.acquire(timeout=60))
            self.assertFalse(begun.acquire(timeout=0.3))
            self.assertEqual(self.told("/door/closed/f")[0], 200)
            goes_on.set()
            for one in asked:
                one.join()

    def test_without_dates(self) -> None:
        """What changed is kept for searches, and isn't shown."""
        self.begin("")
        self.assertEqual(self.found("strasse"), {"/f/one": 1})
        _, said = self.told("/door/folder/f")
        assert isinstance(said, dict)
        self.assertIsNone(said["shows"])
        self.assertIs(said["searches"], True)
        self.assertEqual(self.told("/door/latest/f")[0], 404)

    def test_a_hit_in_a_scan(self) -> None:
        """Of which no text is read by day: it has none."""
        self.room.make(g__scan=b"\xff\xd8\xffpicture")

        def scanned(data: bytes) -> tuple[State, str]:
            return State.WHOLE, "words of a scan"
        self.make_night(time.time() + 1, scanned)
        _, said = self.search("scan")
        self.assertEqual(said["found"], [{"count": 1, "path": "/f/scan"},
                                         {"count": 1, "path": "/g/scan"}])


class Changed(Searching):
    def setUp(self) -> None:
        super().setUp()
        self.room.make(x=None, x__plan=f"{SECRET}: we sell".encode(), x__b=b"other words", y=None)
        self.at_night = self.make_night()

    def did(self, *some: bytes) -> None:
        self.add(*some)
        time.sleep(0.002)

    def line(self, *words: object, to: str = "") -> bytes:
        user, method, target, status = map(str, words)
        return line(user, method, target, int(status), 3, to, at=time.time())

    def test_the_old_text_at_a_place(self) -> None:
        """Alice removes her paper, and bob puts one of his own there: no word of the old one causes
        anything, for bob or whoever else reads the new one."""
        self.room.objects[path("x/plan")] = b"my own words"
        self.did(self.line("alice", "DELETE", "/object/x/plan", 204),
                 self.line("bob", "PUT", "/doc/x/plan", 201))
        self.assertEqual(self.asked(SECRET, "bob"), self.asked(NONSENSE, "bob"))
        self.assertEqual(self.found(SECRET, user="bob"), {})
        self.assertEqual(self.found("own words", user="bob"), {"/x/plan": 2})

    def test_a_paper_that_was_changed_by_a_word(self) -> None:
        self.room.objects[path("x/plan")] = b"blackened: we sell"
        for said in (self.line("alice", "PUT", "/doc/x/plan", 204),
                     self.line("alice", "POST", "/doc/x/plan", 204)):
            self.did(said)
            self.assertEqual(self.asked(SECRET, "bob"), self.asked(NONSENSE, "bob"))
            self.assertEqual(self.found("blackened"), {"/x/plan": 1})

    def test_what_moved(self) -> None:
        """It has the text that it had, and isn't read for that."""
        self.room.objects[path("y/z")] = self.room.objects.pop(path("x/plan"))
        self.did(self.line("alice", "POST", "/move/x/plan", 204, ), )
        self.assertEqual(self.found(SECRET), {"/y/z": 1})
        self.did(self.line("alice", "POST", "/move/x/plan", 204, ))
        self.room.objects[path("y/q")] = self.room.objects.pop(path("y/z"))
        self.did(self.line("alice", "POST", "/move/y/z", 204, to='{"to":"/y/q"}'))
        self.assertEqual(self.found(SECRET), {"/y/q": 1})

    def test_what_moved_is_not_read_without_a_hit(self) -> None:
        self.room.objects[path("y/z")] = self.room.objects.pop(path("x/plan"))
        self.did(self.line("alice", "POST", "/move/x/plan", 204, to='{"to":"/y/z"}'))
        self.assertEqual(self.found(NONSENSE), {})
        self.assertEqual(self.read, [])
        self.assertEqual(self.found(SECRET), {"/y/z": 1})
        # Over another one, whose text nobody asks for.
        self.room.objects[path("x/b")] = self.room.objects.pop(path("y/z"))
        self.did(self.line("alice", "POST", "/move/y/z", 204, to='{"to":"/x/b"}'))
        self.assertEqual(self.asked("other", "bob"), self.asked(NONSENSE, "bob"))
        self.assertEqual(self.found(SECRET), {"/x/b": 1})

    def test_too_many_changed(self) -> None:
        some = []
        for number in range(search.READ + 6):
            self.room.objects["x", f"n{number}"] = b"new words"
            some.append(self.line("alice", "PUT", f"/doc/x/n{number}", 201))
        self.did(*some)
        _, said = self.search("new")
        self.assertEqual((said["unread"], said["all"]), (6, False))
        self.assertEqual(len(self.found("new")), search.SHOWN)

    def refuses(self, why: str = "no-texts") -> None:
        """Each, whatever is looked for."""
        for words in (SECRET, NONSENSE):
            self.room.seen.clear()
            status, said = self.search(words, user="bob")
            self.assertEqual((status, said["why"]), (503, why))
            self.assertFalse([one for one in self.room.seen if "/doc/" in one])

    def test_a_power_cut_between_a_removal_and_a_new_paper(self) -> None:
        """The disk lacks the line of the removal, or both. What is told then is nothing, until a
        night has seen what is there."""
        self.room.objects[path("x/plan")] = b"my own words"
        os.unlink(self.at("mark"))
        self.begin("who")
        self.did(self.line("bob", "GET", "/doc/x/plan", 200))
        self.refuses()
        self.did(self.line("bob", "PUT", "/doc/x/z", 201))
        self.refuses()
        self.make_night(time.time() + 1)
        self.assertEqual(self.asked(SECRET, "bob"), self.asked(NONSENSE, "bob"))
        self.assertEqual(self.found("own words", user="bob"), {"/x/plan": 2})

    def test_a_clean_stop(self) -> None:
        self.keeper.stop()
        os.unlink(self.at("mark"))
        self.begin("who")
        self.assertEqual(self.found(SECRET), {"/x/plan": 1})

    def test_a_torn_line(self) -> None:
        self.did(self.line("alice", "DELETE", "/object/x/plan", 204)[:40] + b"\n")
        self.refuses()

    def test_a_restore(self) -> None:
        with open(self.at("seen.told"), "w", encoding="utf-8") as out:
            json.dump({"number": 1, "at": int(time.time() * 1000), "restored": 0}, out)
        self.refuses()

    def test_a_damaged_store(self) -> None:
        self.keeper.close()
        with open(self.at("changes/dates.db"), "wb") as file:
            file.write(b"x" * 9000)
        self.begin("who")
        self.refuses()
        # Nor once the last night's list is taken: lines of before may have gone.
        self.keeper.catch_up()
        self.keeper.take_night()
        self.refuses()

    def test_what_an_import_changed(self) -> None:
        """What root has done below a folder is read."""
        with open(self.at("seen.told"), "w", encoding="utf-8") as out:
            json.dump({"number": 1, "at": int(time.time() * 1000), "changed": "x"}, out)
        self.assertEqual(self.found(SECRET), {"/x/plan": 1})
        self.assertEqual(len(self.read), 2)

    def test_texts_of_another_night(self) -> None:
        """Its numbers would be those of other documents."""
        texts = self.at(f"texts/office/night.{self.at_night}")
        os.rename(texts, texts[:-1] + ("1" if texts[-1] != "1" else "2"))
        self.refuses()

    def test_nobody_keeps_texts(self) -> None:
        os.unlink(self.at("keeper"))
        self.refuses()

    def test_what_isn_t_known_now(self) -> None:
        with mock.patch.object(self.keeper, "catch_up", return_value=False):
            self.refuses("busy")

    def test_a_change_that_no_line_told_of(self) -> None:
        """What is shown has been read, and is what stands there now."""
        self.room.objects[path("x/plan")] = b"other by now"
        self.assertEqual(self.found(SECRET), {})
        self.room.objects[path("x/plan")] = f"{SECRET} {SECRET} longer".encode()
        self.assertEqual(self.found(SECRET), {"/x/plan": 2})

    def test_closed_or_gone_in_between(self) -> None:
        answer = self.room.answer

        def closes(user: str, method: str, target: str, body: bytes) -> tuple[int, object]:
            if target.startswith("/doc/"):
                return 403, {"at": "/x/plan", "bits": "r", "entry": 1, "text": "D::bob:r"}
            return answer(user, method, target, body)
        with mock.patch.object(self.room, "answer", closes):
            self.assertEqual(self.found(SECRET), {})


class Untrue(Searching):
    """Who keeps texts is somebody else by now; or who reads them."""

    def setUp(self) -> None:
        super().setUp()
        self.room.make(mine=b"my words", other=b"words of another")
        self.room.denied.add(("bob", "/other", "r"))
        self.make_night()

    def lies(self, *lines: object) -> None:
        at = socket.socket(socket.AF_UNIX)
        place = self.at(f"liar{time.time_ns()}")
        at.bind(place)
        at.listen(9)
        self.door.texts = search.Texts("office", place, Reading("nowhere"))

        def serve() -> None:
            connection, _ = at.accept()
            with at, contextlib.suppress(OSError), connection, \
                    connection.makefile("rwb", buffering=0) as both:
                for one in lines:
                    self.heard = both.readline()
                    both.write(one if isinstance(one, bytes) else json.dumps(one).encode() + b"\n")
        threading.Thread(target=serve, daemon=True).start()

    def test_a_hit_that_is_none(self) -> None:
        told = {"empty": 0, "hits": [[2, 9]], "night": "2026-11-30.020000", "unknown": []}
        for sums in (["0" * 64], [""]):
            self.lies(told, {"sums": sums})
            self.assertEqual(self.found("stolen", user="bob"), {})

    def test_what_isn_t_an_answer(self) -> None:
        good: dict[str, Any] = {"empty": 0, "hits": [[2, 9]], "night": "2026-11-30.020000",
                                "unknown": []}
        patch = mock.patch.object(asking, "SECONDS", 0.3)
        patch.start()
        self.addCleanup(patch.stop)
        said: object
        for said in ({**good, "hits": [[3, 9]]}, {**good, "unknown": [3]}, {**good, "empty": 5},
                     {**good, "night": "words of another"}, {**good, "hits": 7}, [], 7, b"",
                     b"x" * 100, b"[" * 9000 + b"\n", {}):
            self.lies(said, {"sums": [""]})
            status, told = self.search("words", user="bob")
            self.assertEqual((status, told["why"]), (503, "no-texts"), said)
        for sums in ([], 7, [7], ["x"], ["00", "00"]):
            self.lies(good, {"sums": sums})
            self.assertEqual(self.search("words", user="bob")[0], 503)

    def test_it_is_told_no_user_and_no_name(self) -> None:
        self.lies({"empty": 0, "hits": [], "night": "2026-11-30.020000", "unknown": []},
                  {"sums": []})
        self.found("words", user="bob")
        self.lies({"none": True})
        self.search("words", user="bob")
        for name in (b"bob", b"mine", b"other"):
            self.assertNotIn(name, self.heard)

    def test_a_text_that_nobody_has_time_for(self) -> None:
        """The hit stays, and what changed counts as unread."""
        with mock.patch.object(feed, "text_of", lambda *_: (State.LATER, "")):
            _, said = self.search("my", user="bob")
            self.assertEqual(said["found"], [{"count": 1, "path": "/mine"}])
            self.add(line("bob", "PUT", "/doc/mine", 204, 3, at=time.time()))
            _, said = self.search("my", user="bob")
            self.assertEqual((said["found"], said["unread"], said["all"]), ([], 1, False))


if __name__ == "__main__":
    unittest.main()
