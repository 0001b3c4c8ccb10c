"""What the door takes of root: a night's list, by which it finds what no line told of, names that
are forgotten, what root changed, and a restore."""
import json
import os
import time
import unittest
from typing import Any
from unittest import mock

from dated_door import NOW, Dated, Row, line
from rooms_services.door.changes import keeper, nights
from rooms_services.door.changes.keeper import Keeper
from rooms_services.door.changes.store import Store

NIGHT = int(NOW * 1000) + 1000
Object = tuple[int | str | None, ...]
F: Object = (2, 0, "f", None, None)
A: Object = (3, 2, "a", 3, "11")
B: Object = (4, 2, "b", 3, "22")


class Nights(Dated):
    def write(self, text: str) -> None:
        with open(self.at("seen.new"), "w", encoding="utf-8") as file:
            file.write(text)
        os.replace(self.at("seen.new"), self.at("seen.night"))

    def list_of(self, *objects: Object, at: int = NIGHT, made: int = 0) -> str:
        rows = "".join(f"{json.dumps(row)}\n" for row in objects)
        return f"{at} {made or at}\n{rows}{len(objects)}\n"

    def night(self, *objects: Object, at: int = NIGHT, made: int = 0) -> dict[str, Row]:
        self.write(self.list_of(*objects, at=at, made=made))
        self.keeper.catch_up()
        self.keeper.take_night()
        return self.rows()

    def tell(self, *words: dict[str, object]) -> None:
        with open(self.at("seen.told"), "w", encoding="utf-8") as file:
            file.write("".join(f"{json.dumps(word)}\n" for word in words))

    def test_the_first_night(self) -> None:
        self.add(line("bob", "PUT", "/doc/f/a", 204, 3), line("bob", "PUT", "/doc/f/z", 204, 3))
        rows = self.night(F, A, B)
        self.assertEqual((rows["a"], rows["b"]), (self.A, {"size": 3, "before": NIGHT // 1000}))
        # (what isn't there any more)
        self.room.make(f__z=b"123")
        self.assertEqual(self.rows()["z"], {})

    def test_what_nobody_told_of(self) -> None:
        self.add(line("bob", "PUT", "/doc/f/a", 204, 3))
        self.assertEqual(self.night(F, A)["a"], self.A)
        self.assertEqual(self.night(F, A, at=NIGHT + 9000)["a"], self.A)
        # By its bytes, and by its length.
        other = (3, 2, "a", 3, "12")
        self.assertEqual(self.night(F, other, at=NIGHT + 20_000)["a"],
                         {"size": 3, "before": NIGHT // 1000 + 20})
        self.add(line("bob", "PUT", "/doc/f/a", 204, 3, at=NOW + 30))
        longer = (3, 2, "a", 4, "13")
        self.assertEqual(self.night(F, longer, at=NIGHT + 40_000)["a"],
                         {"size": 4, "before": NIGHT // 1000 + 40})
        self.assertEqual(self.night(F, longer, at=NIGHT + 50_000)["a"],
                         {"size": 4, "before": NIGHT // 1000 + 40})

    def test_what_changed_or_moved_since_the_copy(self) -> None:
        self.add(line("bob", "PUT", "/doc/f/a", 204, 3), line("bob", "PUT", "/doc/f/g/c", 204, 3))
        self.rows()
        self.add(line("eve", "PUT", "/doc/f/b", 201, 9, at=NOW + 60),
                 line("eve", "POST", "/move/f/g", 204, 9, '{"to":"/f/h"}', at=NOW + 61),
                 line("eve", "POST", "/move/f/a", 204, 9, '{"to":"/f/h/a"}', at=NOW + 62))
        rows = self.night(F, A, (5, 2, "g", None, None), (6, 5, "c", 3, "33"))
        self.assertEqual(rows["b"], {"size": 9, "when": int(NOW) + 60, "who": "eve"})
        self.room.make(f__h=None, f__h__a=b"1", f__h__c=b"1")
        self.assertEqual(self.rows("f/h"), {"a": self.A, "c": self.A})

    def test_a_list_of_many_parts(self) -> None:
        """While it is taken others ask, and lines come."""
        many: list[Object] = [(number, 2, f"d{number}", 1, "00") for number in range(10, 3010)]
        self.write(self.list_of(F, *many))
        asked = [len(self.rows())]
        take = nights.Night.take

        def taking(night: nights.Night, store: Store) -> bool:
            asked.append(len(self.rows()))
            self.add(line("eve", "PUT", f"/doc/f/d{len(asked) * 10 - 10}", 204, 7, at=NOW + 60))
            return take(night, store)
        # (who asks meanwhile waits for no longer than this)
        with mock.patch.object(nights.Night, "take", taking), \
                mock.patch.object(keeper, "PATIENCE", 0.2):
            self.keeper.take_night()
        self.assertEqual(len(asked), 5)
        self.room.make(**{f"f__d{number}": b"1" for number in (10, 20, 30, 40, 3009)})
        rows = self.rows()
        self.assertEqual(rows["d3009"], {"size": 1, "before": NIGHT // 1000})
        for number in (10, 20, 30, 40):
            self.assertEqual(rows[f"d{number}"]["size"], 7)

    def test_lists_that_are_none(self) -> None:
        self.add(line("bob", "PUT", "/doc/f/a", 204, 3))
        self.assertEqual(self.night(F, A)["a"], self.A)
        head = f"{NIGHT} {NIGHT}\n"
        for text in ("", "x\n", f"{NIGHT}\n1\n", head, f"{head}[2,0,\"f\",null,null]\n2\n",
                     f"{head}[2,0]\n1\n", f"{head}[{'9' * 5000}]\n1\n",
                     f"{head}[2,0,\"f\",null,null]\n[3,2,\"a\",\"x\",null]\n2\n",
                     f"{head}[2,0,[],null,null]\n1\n", f"{head}[2,9,\"a\",1,\"x\"]\n1\n",
                     *(f"{head}[2,0,\"f\",null,null,{at}]\n1\n"
                       for at in ("0", "1.5", "9" * 20, "\"1\"", "1,1")),
                     f"{head}[{'9' * 30},0,\"f\",1{'0' * 30},null]\n1\n",
                     f"{head}[" + "[" * 4000 + "\n"):
            self.write(text)
            self.keeper.take_night()
            self.assertEqual(self.rows()["a"], self.A, text[:60])
        # The next one is taken.
        self.assertEqual(self.night(F, (3, 2, "a", 4, "12"), at=NIGHT + 9000)["a"]["size"], 4)

    def test_killed_in_the_middle_of_a_list(self) -> None:
        many: list[Object] = [(number, 2, f"d{number}", 1, "00") for number in range(10, 2010)]
        for stop in (0, 700, 1500):
            self.write(self.list_of(F, *many))
            with mock.patch.object(Keeper, "_end_night", side_effect=KeyboardInterrupt):
                with self.assertRaises(KeyboardInterrupt), mock.patch.object(
                        nights.Night, "_take_one", side_effect=[None] * stop
                        + [KeyboardInterrupt]):
                    self.keeper.take_night()
            self.begin("who")
        self.keeper.take_night()
        self.room.make(f__d2009=b"1")
        self.assertEqual(self.rows()["d2009"], {"size": 1, "before": NIGHT // 1000})

    def test_a_name_is_forgotten(self) -> None:
        self.add(line("bobolink", "PUT", "/doc/f/a", 204, 3),
                 line("eve", "PUT", "/doc/f/b", 204, 3))
        self.rows()
        self.tell({"number": 1, "at": NIGHT, "forget": "bobolink"})
        self.assertEqual(self.rows()["a"], {"size": 3, "when": int(NOW)})
        self.assertEqual(self.rows()["b"]["who"], "eve")
        for name in os.listdir(self.at("changes")):
            with open(self.at(f"changes/{name}"), "rb") as file:
                self.assertEqual(b"bobolink" in file.read(), name == "journal", name)
        # Each word once: what somebody of that name does later is theirs.
        self.add(line("bobolink", "PUT", "/doc/f/a", 204, 3, at=NOW + 60))
        self.begin("who")
        self.assertEqual(self.rows()["a"]["who"], "bobolink")
        self.tell({"number": 1, "at": NIGHT, "forget": "bobolink"},
                  {"number": 2, "at": NIGHT + 90_000, "forget": "bobolink"})
        self.assertNotIn("who", self.rows()["a"])

    def test_what_root_changed(self) -> None:
        self.add(line("bob", "PUT", "/doc/f/a", 204, 3), line("bob", "PUT", "/doc/f/g/c", 204, 3))
        self.rows()
        self.tell({"number": 1, "at": NIGHT, "changed": "f/g"})
        self.assertEqual((self.rows()["a"], self.rows("f/g")["c"]),
                         (self.A, {"before": NIGHT // 1000}))
        self.tell({"number": 2, "at": NIGHT, "changed": ""})
        self.assertEqual(self.rows()["a"], {"before": NIGHT // 1000})

    def test_a_restore(self) -> None:
        self.add(line("bob", "PUT", "/doc/f/a", 204, 3))
        self.rows()
        # Lines and lists of before are of another room, whenever they are taken.
        self.keeper.close()
        self.add(line("bob", "PUT", "/doc/f/b", 204, 3))
        self.tell({"number": 1, "at": NIGHT, "restored": 0})
        self.begin("who")
        self.assertEqual(self.night(F, A, made=NIGHT - 1), {"a": {}, "b": {}, "g": {}})
        self.add(line("bob", "PUT", "/doc/f/b", 204, 3, at=NOW + 60))
        self.assertEqual(self.rows()["b"]["when"], int(NOW) + 60)
        self.assertEqual(self.night(F, A, at=NIGHT + 9000)["a"],
                         {"size": 3, "before": NIGHT // 1000 + 9})

    def test_a_restore_of_a_night(self) -> None:
        """What is as it was keeps its date."""
        self.room.make(f__n=b"1", f__m=b"1", f__e=b"1")
        self.add(*(line("bob", "PUT", f"/doc/f/{name}", 204, 3) for name in "abm"),
                 line("bob", "PUT", "/doc/f/e", 204, 0))
        both = (F, A, B, (5, 2, "m", 3, "55"), (6, 2, "e", 0, "00"))
        self.night(*both)
        self.add(line("eve", "PUT", "/doc/f/b", 204, 3, at=NOW + 60),
                 line("eve", "PUT", "/doc/f/n", 201, 3, at=NOW + 61),
                 # (an empty one takes the place of another)
                 line("eve", "DELETE", "/object/f/m", 204, at=NOW + 62),
                 line("eve", "POST", "/move/f/e", 204, 9, '{"to":"/f/m"}', at=NOW + 63))
        self.rows()
        # (root looks at the backup before it is in the room's place)
        self.write(self.list_of(*both, made=NIGHT + 80_000))
        self.tell({"number": 1, "at": NIGHT + 90_000, "restored": NIGHT})
        self.keeper.catch_up()
        self.keeper.take_night()
        rows = self.rows()
        before = {"size": 3, "before": NIGHT // 1000}
        self.assertEqual(rows["a"], self.A)
        self.assertEqual((rows["b"], rows["m"], rows["n"]), (before, before, {}))
        self.assertEqual(rows["e"], {"size": 0, "before": NIGHT // 1000})

    def test_a_restore_that_knows_moments(self) -> None:
        """Of what a backup had, and what changed since; but no names."""
        self.add(line("bob", "PUT", "/doc/f/a", 204, 3),
                 line("eve", "PUT", "/doc/f/b", 204, 3, at=NOW + 60))
        self.rows()
        then = NIGHT - 86_400_000
        self.write(self.list_of((*F, then), (*A, then), (*B, then), (5, 2, "g", None, None),
                                (6, 5, "c", 3, "33", NIGHT + 1), made=NIGHT + 80_000))
        self.tell({"number": 1, "at": NIGHT + 90_000, "restored": NIGHT})
        self.keeper.catch_up()
        self.keeper.take_night()
        rows = self.rows()
        self.assertEqual((rows["a"], rows["b"]), (self.A, {"size": 3, "when": then // 1000}))
        self.assertEqual(self.rows("")["f"], {"when": then // 1000})
        # (no moment is later than the backup)
        self.assertEqual(self.rows("f/g")["c"], {"size": 3, "before": NIGHT // 1000})

    def test_a_restore_within_a_night(self) -> None:
        """The copy of that night is of another room, though root looks at it after the restore."""
        self.add(line("bob", "PUT", "/doc/f/a", 204, 3))
        self.rows()
        self.tell({"number": 1, "at": NIGHT + 60_000, "restored": NIGHT - 500_000})
        self.keeper.catch_up()
        later = (3, 2, "a", 99, "77")
        self.assertEqual(self.night(F, later, made=NIGHT + 120_000)["a"],
                         {"before": NIGHT // 1000 - 500})
        self.assertEqual(self.night(F, A, at=NIGHT + 61_000)["a"]["size"], 3)

    def copied(self, *names: str, since: float = 1e12) -> list[int | None]:
        self.keeper.catch_up()
        return [self.keeper.in_copy(tuple(way), int(since * 1000)).get(name)
                for *way, name in (one.split("/") for one in names)]

    def test_where_it_stood_in_the_copy(self) -> None:
        self.add(line("bob", "PUT", "/doc/f/a", 204, 3), line("bob", "PUT", "/doc/f/b", 204, 3))
        self.assertEqual(self.copied("f/a"), [None])
        now = time.time() + 9
        self.night(F, A, B, at=int(now * 1000))
        self.assertEqual(self.copied("f", "f/a", "f/b", "f/none"), [None, 3, 4, None])
        # What moves stands there as before; what is new or changed doesn't.
        self.add(line("bob", "POST", "/move/f/a", 204, 9, '{"to":"/f/c"}', at=now + 60),
                 line("bob", "PUT", "/doc/f/a", 201, 3, at=now + 61),
                 line("bob", "POST", "/doc/f/b", 204, 3, at=now + 62))
        self.assertEqual(self.copied("f/c", "f/a", "f/b"), [3, None, None])
        # For who asked the room before, it isn't what stood there.
        self.assertEqual(self.copied("f/c", since=now + 60), [None])
        self.add(line("bob", "POST", "/move/f", 204, 9, '{"to":"/h"}', at=now + 70))
        self.assertEqual(self.copied("h/c", since=now + 71), [3])
        self.assertEqual(self.copied("h/c", since=now + 70), [None])
        self.add(line("bob", "POST", "/move/h", 204, 9, '{"to":"/f"}', at=now + 80))
        self.assertEqual(self.copied("f/c"), [3])
        # Nor what changed since the next one was made.
        later: list[Object] = [(12, 0, "f", None, None), (13, 12, "a", 3, "11"),
                               (14, 12, "b", 6, "22"), (15, 12, "c", 3, "11")]
        self.write(self.list_of(*later, at=int(now * 1000) + 60_500))
        self.keeper.take_night()
        self.assertEqual(self.copied("f/c", "f/a", "f/b"), [15, None, None])

    def test_what_nobody_vouches_for(self) -> None:
        self.add(line("bob", "PUT", "/doc/f/a", 204, 3))
        self.rows()
        at = int(time.time() * 1000) + 9000
        self.night(F, A, B, at=at)
        self.assertEqual(self.copied("f/a"), [3])
        # A door that is killed, while the machine goes on, loses nothing.
        self.begin("who")
        self.assertEqual(self.copied("f/a"), [3])
        self.keeper.stop()
        os.unlink(self.at("mark"))
        self.begin("who")
        self.assertEqual(self.copied("f/a"), [3], "a clean stop of the machine")

        def cut_off() -> None:
            os.unlink(self.at("mark"))
            self.begin("who")

        def tear() -> None:
            self.add(line("bob", "PUT", "/doc/f/z")[:50] + b"\n")

        def damage() -> None:
            self.keeper.close()
            with open(self.at("changes/dates.db"), "wb") as file:
                file.write(b"x" * 9000)
            self.begin("who")

        def restore() -> None:
            self.tell({"number": 1, "at": int(time.time() * 1000) + 20_000, "restored": 0})
        for turn, harm in enumerate((cut_off, tear, damage, restore)):
            with mock.patch.object(time, "time", return_value=at / 1000 + turn * 1000 + 900):
                harm()
                self.assertEqual(self.copied("f/a"), [None], harm.__name__)
                # Until the list of a copy that is made later.
                self.night(F, A, B, at=at + (turn + 1) * 1_000_000)
                self.assertEqual(self.copied("f/a"), [3], harm.__name__)

    def test_a_clock_that_was_ahead(self) -> None:
        now, year = time.time(), 365 * 86_400
        tear = line("bob", "PUT", "/doc/f/z")[:50] + b"\n"

        def clock(seconds: float) -> Any:
            return mock.patch.object(time, "time", return_value=now + seconds)

        def night(seconds: float) -> list[int | None]:
            with clock(seconds):
                self.night(F, A, B, at=int((now + seconds) * 1000) - 1000)
                return self.copied("f/a")
        self.rows()
        self.assertEqual(night(year), [3])
        # Nothing of a copy of then counts, nor what it hides: a change that nobody saw.
        with clock(10):
            self.assertEqual(self.copied("f/a"), [None])
            self.add(tear)
            self.assertEqual(self.copied("f/a"), [None])
        self.assertEqual(night(20), [3])
        # One that nobody saw then ends with the next night but one.
        with clock(2 * year):
            self.add(tear)
            self.assertEqual(self.copied("f/a"), [None])
        self.assertEqual([night(30), night(40)], [[None], [3]])
        # A little before a copy of a clock that was set back since.
        with clock(35):
            self.add(tear)
            self.assertEqual(self.copied("f/a"), [None])
        # And changes count after a restore of then.
        with clock(year):
            self.tell({"number": 1, "at": int((now + year) * 1000), "restored": 0})
            self.keeper.catch_up()
        self.add(line("bob", "PUT", "/doc/f/b", 204, 7, at=now + 50))
        with clock(60):
            self.assertEqual(self.rows()["b"]["when"], int(now + 50))
        self.assertEqual([night(70), night(80)], [[None], [3]])

    def test_words_that_are_none(self) -> None:
        self.add(line("bob", "PUT", "/doc/f/a", 204, 3))
        with open(self.at("seen.told"), "wb") as file:
            file.write(b'\n[]\n{"number":1}\n{"number":"x"}\n\xff\n{"number":2,"at":1,"forget":7}\n'
                       b'{"number":3,"at":1,"changed":"../x"}\n{"number":4,"at":9e99,"forget":"b"')
        self.assertEqual(self.rows()["a"], self.A)

    def test_old_names(self) -> None:
        now = time.time()
        self.begin("who", 90)
        self.add(line("bob", "PUT", "/doc/f/a", 204, 3, at=now - 91 * 86400),
                 line("eve", "PUT", "/doc/f/b", 204, 3, at=now - 89 * 86400))
        self.rows()
        self.keeper.tidy()
        self.assertEqual(self.rows()["a"], {"size": 3, "when": int(now - 91 * 86400)})
        self.assertEqual(self.rows()["b"]["who"], "eve")


if __name__ == "__main__":
    unittest.main()
