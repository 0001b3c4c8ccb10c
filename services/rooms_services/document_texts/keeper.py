"""Says which documents of a room contain words, as the last night found them: the service
rooms-texts. A room's door asks, with the numbers of documents that somebody may read, and never
says who. It asks no room, reaches no network, and reads no backup.

A line of JSON comes, and a line of JSON goes; both name the room, and the copy by its moment:
  {"do":"match","numbers":[..],"words":[..]} -> {"empty":N,"hits":[[NUMBER,COUNT]..],"night":..,
  "unknown":[..]}
  {"do":"sums","numbers":[..]} -> {"sums":[..]}
  {"do":"parts","numbers":[..]} -> {"parts":[[PART ..]..]}
and {"none":true} where it has no texts of this night."""
import json
import os
import socket
import threading
from collections import OrderedDict

from rooms_admin.room import names

from .. import listening
from . import folding, nights
from .store import NoStore, Store

# Connections; seconds after which it ends, and for which somebody may say nothing; rooms that are
# open; bytes of a line.
MOST, IDLE, SILENT, OPEN, LONGEST = 16, 120.0, 60.0, 4, 4 << 20


class Keeper:
    def __init__(self) -> None:
        self._mutex = threading.Lock()
        self._open: OrderedDict[str, Store] = OrderedDict()

    def _store(self, room: str, at: int) -> Store:
        """What was removed meanwhile isn't answered from."""
        place = nights.place(room, at)
        with self._mutex:
            for one in [one for one in self._open if not os.path.isdir(one)]:
                del self._open[one]
            store = self._open.pop(place, None) or Store(place)
            self._open[place] = store
            while len(self._open) > OPEN:
                self._open.popitem(last=False)
            return store

    def answer(self, told: dict[str, object]) -> dict[str, object]:
        room, at, numbers = told["room"], told["copy"], told["numbers"]
        if not isinstance(room, str) or not names.is_room(room) or not isinstance(at, int) \
                or not isinstance(numbers, list):
            raise ValueError("no question")
        try:
            store = self._store(room, at)
        except NoStore:
            return {"none": True}
        if told["do"] == "sums":
            return {"sums": store.sums(map(int, numbers))}
        if told["do"] == "parts":
            return {"parts": store.parts(map(int, numbers))}
        words = told["words"]
        if told["do"] != "match" or not isinstance(words, list) or not (
                0 < len(words) <= folding.MOST_WORDS):
            raise ValueError("no question")
        hits, unknown, empty = store.match([str(one).encode() for one in words],
                                           map(int, numbers))
        return {"empty": empty, "hits": hits, "night": store.night, "unknown": unknown}

    def one(self, connection: socket.socket) -> None:
        """What isn't understood ends the connection."""
        connection.settimeout(SILENT)
        with connection.makefile("rwb") as both:
            while (line := both.readline(LONGEST)).endswith(b"\n"):
                try:
                    said = self.answer(json.loads(line))
                except (ValueError, KeyError, TypeError, RecursionError):
                    return
                both.write(json.dumps(said).encode() + b"\n")
                both.flush()


def run() -> int:
    os.umask(0o077)
    os.chdir("/")
    listening.serve(listening.handed(), MOST, IDLE, Keeper().one)
    return 0
