"""Lines of changes that come in another order than the changes."""
import json
import sqlite3
import unittest
from typing import Any
from unittest import mock

from dated_door import NOW, Dated, line
from rooms_services.door.changes import order
from rooms_services.door.changes.store import Store


def between(begin: float, end: float, method: str, target: str, status: int = 204, to: str = ""
            ) -> bytes:
    """As nginx writes it, of what was asked for between two moments."""
    told = json.loads(line("eve", method, target, status, 9, json.dumps({"to": to}) if to else "",
                           NOW + end))
    return json.dumps({**told, "r": f"{end - begin:.3f}"}, separators=(",", ":")).encode() + b"\n"


class Orders(Dated):
    def setUp(self) -> None:
        super().setUp()
        self.add(line("bob", "PUT", "/doc/f/s", 201, 5), line("eve", "PUT", "/doc/f/p", 201, 4),
                 line("bob", "PUT", "/doc/f/g/c", 201, 3))

    def known(self, *path: str) -> dict[str, int | None]:
        return {name: known.size for name, known in self.keeper.children(path, 1 << 60).items()
                if not known.is_folder}

    def test_a_line_that_comes_late(self) -> None:
        """eve's own document left a place before the one came there that she may move and not
        read: that one's date isn't told where hers is."""
        self.add(between(1.0, 1.01, "POST", "/move/f/s", to="/f/p"),
                 between(0.99, 2.0, "POST", "/move/f/p", to="/f/q"))
        self.assertEqual(self.known("f"), {})

    def test_one_after_the_other(self) -> None:
        self.add(between(1.0, 1.01, "POST", "/move/f/p", to="/f/q"),
                 between(1.01, 1.02, "POST", "/move/f/s", to="/f/p"),
                 between(1.018, 1.03, "POST", "/move/f/p", to="/f/s"))
        self.assertEqual(self.known("f"), {"q": 4, "s": 5})

    def test_beside_a_folder_that_moves(self) -> None:
        """What comes into it at the same moment isn't known, and all else is."""
        for begin, one, other in (1.0, "g", "h"), (10.0, "h", "g"):
            into: tuple[Any, ...] = "PUT", f"/doc/f/{one}/new", 201
            moves: tuple[Any, ...] = "POST", f"/move/f/{one}", 204, f"/f/{other}"
            early, late = (moves, into) if begin == 1.0 else (into, moves)
            self.add(between(begin, begin + 0.01, *early), between(begin - 0.01, begin + 1, *late))
            self.assertEqual((self.known("f", other), self.known("f", one)), ({"c": 3}, {}))

    def test_at_other_places(self) -> None:
        self.add(between(1.0, 1.01, "POST", "/move/f/s", to="/f/sp"),
                 between(0.99, 2.0, "POST", "/move/f/p", to="/f/q"),
                 between(1.0, 2.1, "PUT", "/doc/f/g/c"), between(1.0, 2.2, "PUT", "/doc/f/g/c"))
        self.assertEqual((self.known("f"), self.known("f", "g")), ({"sp": 5, "q": 4}, {"c": 9}))

    def test_a_clock_that_is_set_back(self) -> None:
        self.add(between(3600.0, 3600.01, "POST", "/move/f/s", to="/f/r"),
                 between(1.0, 1.01, "POST", "/move/f/r", to="/f/q"))
        self.assertEqual(self.known("f"), {"p": 4, "q": 5})

    def test_lines_that_come_again(self) -> None:
        """Where the disk was full, each of them is looked at twice."""
        with mock.patch.object(Store, "commit", side_effect=sqlite3.OperationalError("full")):
            self.add(between(1.0, 1.1, "POST", "/move/f/p", to="/f/q"))
            self.assertEqual(self.known("f"), {})
        self.assertEqual(self.known("f"), {"s": 5, "q": 4})

    def test_more_than_is_remembered(self) -> None:
        with mock.patch.object(order, "MOST", 2):
            self.add(*(between(1.0, 1.01 + number / 1000, "PUT", f"/doc/f/g/{number}", 201)
                       for number in range(3)), between(0.99, 2.0, "POST", "/move/f/p", to="/f/q"))
            self.assertEqual(self.known("f"), {"s": 5})
            self.add(between(2.1, 2.2, "POST", "/move/f/s", to="/f/q"))
            self.assertEqual(self.known("f"), {"q": 5})


if __name__ == "__main__":
    unittest.main()
