#!/usr/bin/env python3
"""Conditional writes by the door beside plain ones straight at the room, of several clients at
once: whether there is an order in which each was done at one moment between its request and its
answer.

  at_once.py PROGRAM FOLDER SEED REQUESTS CLIENTS [kill]

Each written value is one of its kind. A success of 'If-Match: V' says that V was the value directly
before: so values form chains that stand whole. A 412 is a read of the value that it names. In a
chain the moments are chosen as early as they can be, and no chain may lie within the time of
another one (zones of Gibbons and Korach). With 'kill' the door is killed now and then: what got no
answer may have been done. By hand: 1 20000 8, and 2 8000 8 kill."""
import bisect
import hashlib
import http.client
import json
import random
import sys
import threading
import time
from collections import Counter, defaultdict
from typing import NamedTuple

from lab import ALL, PATIENCE, Lab, Said

DOCUMENTS = tuple(f"d{number}" for number in range(5))
NEVER = 1e9
GONE = (OSError, http.client.HTTPException)
WAYS = (("matched", 40), ("stale", 6), ("put", 14), ("get", 16), ("drive", 12), ("if", 6),
        ("drive put", 6))


class Event(NamedTuple):
    document: str
    # w: written; c: written if `before` was there; r: read; t: a 412 that names this tag.
    kind: str
    value: bytes
    before: bytes
    begin: float
    end: float
    is_sure: bool = True


def tag(value: bytes) -> str:
    return hashlib.sha256(value).hexdigest()[:32]


class Client:
    def __init__(self, lab: Lab, seed: str, events: list[Event], counts: Counter[str]) -> None:
        self.lab = lab
        self.seed = seed
        self.chance = random.Random(seed)
        self.events, self.counts = events, counts
        self.user = self.chance.choice(("alice", "bob", "root"))
        self.known: dict[str, bytes] = {}
        self.number = 0
        self.is_up = threading.Event()
        self.is_up.set()

    def look(self, document: str) -> bytes:
        begin = time.monotonic()
        if self.chance.random() < 0.5:
            status, told, body = self.lab.at_door(self.user, "GET", f"/door/doc/{document}")
            assert told["ETag"] == f'"{tag(body)}"'
        else:
            status, _, body = self.lab.in_room(self.user, "GET", f"/doc/{document}")
        assert status == 200, status
        self.events.append(Event(document, "r", body, b"", begin, time.monotonic()))
        return body

    def write(self, way: str, document: str, value: bytes, before: bytes) -> Said:
        if way == "put":
            return self.lab.in_room(self.user, "PUT", f"/doc/{document}", value)
        named = f'"{tag(before)}"'
        conditions: dict[str, dict[str, str]] = {
            "matched": {"If_Match": named}, "stale": {"If_Match": named},
            "drive": {"If_Match": named}, "if": {"If": f"([{named}])"}, "drive put": {}}
        where = "/door/doc" if way in ("matched", "stale") else "/drive"
        return self.lab.at_door(self.user, "PUT", f"{where}/{document}", value,
                                **conditions[way])

    def one(self) -> None:
        document = self.chance.choice(DOCUMENTS)
        way = self.chance.choices([one for one, _ in WAYS], [often for _, often in WAYS])[0]
        before = b""
        if way == "stale":
            before = self.known.get(document, b"")
        elif way not in ("put", "drive put"):
            before = self.known[document] = self.look(document)
        if way == "get" or way == "stale" and not before:
            return
        self.number += 1
        value = f"{self.seed}.{self.number}".encode() + b"x" * self.chance.choice((0, 0, 9, 60_000))
        kind = "w" if way in ("put", "drive put") else "c"
        begin = time.monotonic()
        try:
            status, _, body = self.write(way, document, value, before)
        except GONE:
            status, body = 502, b""
            time.sleep(0.1)
        self.counts[f"{way} {status}"] += 1
        if status in (502, 503, 504):
            self.events.append(Event(document, kind, value, before, begin, NEVER, False))
        elif status in (201, 204):
            self.events.append(Event(document, kind, value, before, begin, time.monotonic()))
            self.known[document] = value
        elif way in ("matched", "stale"):
            assert status == 412, (way, status, body)
            named = json.loads(body)["tag"].strip('"')
            assert named != tag(before), "a 412 names the tag that was asked for"
            self.events.append(Event(document, "t", named.encode(), b"", begin, time.monotonic()))
        else:
            assert status == 412, (way, status, body)

    def some(self, count: int) -> None:
        for _ in range(count):
            # (a door takes a while to start, and what is asked meanwhile tries nothing)
            self.is_up.wait(PATIENCE)
            try:
                self.one()
            except GONE:
                self.counts["no answer to a look"] += 1
                time.sleep(0.1)
            except AssertionError as fault:
                self.counts[f"wrong: {fault!r}"[:200]] += 1


class Order:
    """Of one document."""

    def __init__(self, events: list[Event]) -> None:
        self.faults: list[object] = []
        writes = {one.value: one for one in events if one.kind in "wc"}
        by_tag = {tag(value).encode(): value for value in writes}
        self.reads: defaultdict[bytes, list[tuple[float, float]]] = defaultdict(list)
        for one in events:
            value = by_tag.get(one.value) if one.kind == "t" else one.value
            if one.kind in "rt" and (value is None or value not in writes):
                self.faults.append(("a value that nobody wrote", one))
            elif one.kind in "rt" and value is not None:
                self.reads[value].append((one.begin, one.end))
        self.writes = self._done(writes)
        self.after = {one.before: one.value for one in self.writes.values() if one.kind == "c"}
        if len(self.after) < sum(one.kind == "c" for one in self.writes.values()):
            self.faults.append("two were written over the same value")

    def _done(self, writes: dict[bytes, Event]) -> dict[bytes, Event]:
        """What got no answer was done if somebody saw it, or if something was written over it."""
        seen = set(self.reads) | {one.before for one in writes.values()
                                  if one.kind == "c" and one.is_sure}
        while True:
            found = {value: one for value, one in writes.items() if one.is_sure or value in seen}
            more = {one.before for one in found.values() if one.kind == "c"} - seen
            if not more:
                return found
            seen |= more

    def chains(self) -> list[list[bytes]]:
        found = []
        for value, one in self.writes.items():
            if one.kind == "w":
                chain = [value]
                while chain[-1] in self.after:
                    chain.append(self.after[chain[-1]])
                found.append(chain)
        if sum(map(len, found)) != len(self.writes):
            self.faults.append("something was written over what wasn't there")
        return found

    def _in_order(self, chain: list[bytes]) -> None:
        moment = float("-inf")
        for value in chain:
            one = self.writes[value]
            moment = max(moment, one.begin)
            if moment > one.end:
                self.faults.append(("no moment for", one))
            for begin, end in self.reads[value]:
                if max(begin, moment) > end:
                    self.faults.append(("seen before it was written", one))
            if value in self.after:
                moment = max([moment, *(begin for begin, _ in self.reads[value])])

    def look(self) -> None:
        zones = []
        for chain in self.chains():
            self._in_order(chain)
            times = [(self.writes[value].begin, self.writes[value].end) for value in chain]
            times += [one for value in chain for one in self.reads[value]]
            first, last = min(end for _, end in times), max(begin for begin, _ in times)
            zones.append((min(first, last), max(first, last), first < last, chain[0]))
        # Those that were there for sure between two moments; the others can be put anywhere.
        sure = sorted(zone for zone in zones if zone[2])
        for one, two in zip(sure, sure[1:]):
            if two[0] < one[1]:
                self.faults.append(("two values at once", one, two))
        begins = [zone[0] for zone in sure]
        for zone in zones:
            place = bisect.bisect_right(begins, zone[0]) - 1
            if not zone[2] and place >= 0 and zone[1] < sure[place][1]:
                self.faults.append(("written within the time of another value", zone, sure[place]))


def play(lab: Lab, seed: str, requests: int, clients: int, kills: bool
         ) -> tuple[list[Event], Counter[str]]:
    lab.must("PUT", "/dacl/", f"list:a\nA:fd:root:{ALL}\nA:fd:EVERYONE@:rwaxct\n")
    events: list[Event] = []
    counts: Counter[str] = Counter()
    for document in DOCUMENTS:
        value = f"first {document}".encode()
        lab.must("PUT", f"/doc/{document}", value)
        events.append(Event(document, "w", value, b"", -2, -1))
    others = [Client(lab, f"{seed}.{number}", events, counts) for number in range(clients)]
    threads = [threading.Thread(target=one.some, args=(requests // clients,)) for one in others]
    for thread in threads:
        thread.start()
    chance = random.Random(seed)
    while kills and any(thread.is_alive() for thread in threads):
        time.sleep(chance.uniform(0.1, 0.8))
        for one in others:
            one.is_up.clear()
        lab.kill_door()
        lab.start_door()
        for one in others:
            one.is_up.set()
        counts["kills"] += 1
    for thread in threads:
        thread.join()
    last = Client(lab, "last", events, counts)
    for document in DOCUMENTS:
        last.look(document)
    return events, counts


def main() -> int:
    program, folder, seed = sys.argv[1:4]
    requests, clients = map(int, sys.argv[4:6])
    with Lab(program, folder) as lab:
        events, counts = play(lab, seed, requests, clients, "kill" in sys.argv)
        sound = lab.subcommand("verify")
    faults: list[object] = [one for one in counts if one.startswith("wrong")]
    for document in DOCUMENTS:
        order = Order([one for one in events if one.document == document])
        order.look()
        faults += order.faults
    print(dict(sorted(counts.items())), sound)
    for fault in faults[:10]:
        print("wrong:", str(fault)[:300])
    print(f"{len(events)} events, {len(faults)} wrong")
    done = sum(count for word, count in counts.items() if word.endswith(("201", "204", "412")))
    return 1 if faults or sound != b"sound\n" or done < requests // 4 else 0


if __name__ == "__main__":
    sys.exit(main())
