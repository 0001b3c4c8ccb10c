"""A door that searches texts, over a room in memory: its nights, and who keeps their texts."""
import json
import os
import socket
import threading
import time
from unittest import mock
from urllib.parse import quote

from dated_door import Dated
from rooms_services import listening
from rooms_services.door.changes.keeper import Keeper
from rooms_services.door.search.reading import Reading
from rooms_services.door.search.search import Texts
from rooms_services.document_texts import extract, feed, keeper, night, nights
from rooms_services.document_texts.sink import State
from test_store import copy

Told = dict[str, object]


class Searching(Dated):
    """Documents are read in this process."""

    def setUp(self) -> None:
        super().setUp()
        self.read: list[bytes] = []
        for where, name, what in ((nights, "FOLDER", self.at("texts")),
                                  (feed, "text_of", self._text_of)):
            patch = mock.patch.object(where, name, what)
            patch.start()
            self.addCleanup(patch.stop)
        os.makedirs(self.at("texts/office"))
        self.room.objects.clear()
        self.room.objects[()] = None
        self.searches("keeper")

    def _text_of(self, data: bytes, *_: object) -> tuple[State, str]:
        self.read.append(data)
        return extract.read(data)

    def searches(self, name: str) -> None:
        """By the keeper at that socket, which is made."""
        at = socket.socket(socket.AF_UNIX)
        at.bind(self.at(name))
        at.listen(64)
        threading.Thread(target=listening.serve, daemon=True, args=(
            at, 16, 1e9, keeper.Keeper().one)).start()
        self.door.texts = Texts("office", self.at(name), Reading("nowhere"))

    def begin(self, shows: str, days: int = 0) -> None:
        super().begin(shows, days)
        assert isinstance(self.keeper, Keeper)

    def make_night(self, at: float | None = None, scans: night.Read | None = None) -> int:
        """Of the room as it is, once all its lines are taken. Its moment, in milliseconds."""
        self.keeper.catch_up()
        time.sleep(0.003)
        moment = int((at or time.time()) * 1000)
        tree = {"/" + "/".join(path): body for path, body in sorted(self.room.objects.items())
                if path}
        numbers = copy(self.at("copied"), tree)
        night.Night("office", extract.read, 60.0, 60.0 if scans else 0.0, scans).make(
            self.at("copied"), moment, "2026-11-30.020000")
        rows = []
        for path, body in tree.items():
            above, _, name = path.rpartition("/")
            rows.append((numbers[path], numbers[above] if above else 0, name,
                         None if body is None else len(body), None))
        with open(self.at("seen.new"), "w", encoding="utf-8") as out:
            out.write(f"{moment} {moment}\n" + "".join(f"{json.dumps(row)}\n" for row in rows)
                      + f"{len(rows)}\n")
        os.replace(self.at("seen.new"), self.at("seen.night"))
        self.keeper.catch_up()
        self.keeper.take_night()
        # (what is done in the same millisecond would be taken for what the night has)
        time.sleep(0.003)
        self.read.clear()
        return moment

    def search(self, words: str, path: str = "", user: str = "alice") -> tuple[int, Told]:
        status, said = self.told(f"/door/search/{path}?{quote(words)}", user)
        assert isinstance(said, dict)
        return status, said

    def found(self, words: str, path: str = "", user: str = "alice") -> dict[str, int]:
        status, said = self.search(words, path, user)
        assert status == 200, (status, said)
        found = said["found"]
        assert isinstance(found, list)
        return {row["path"]: row["count"] for row in found}

    def asked(self, words: str, user: str) -> list[str]:
        """What the room was asked for that."""
        self.room.seen.clear()
        self.search(words, user=user)
        return self.room.seen[:]
