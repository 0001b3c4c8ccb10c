#!/usr/bin/env python3
"""Kills of the door in the middle of MOVE and COPY over folders and documents: whatever the moment,
the next look finds one thing or the other, each whole.

  cut_off.py PROGRAM FOLDER SEED ROUNDS"""
import http.client
import json
import random
import sys
import threading
import time
from collections import Counter

from lab import ALL, Bulk, Lab, target

COUNT = 12
KINDS = (("MOVE", "folder"), ("COPY", "folder"), ("MOVE", "document"), ("COPY", "nothing"))
Shape = dict[str, bytes | None]


def shape(lab: Lab, top: str) -> Shape:
    """What is at a path and below it."""
    status, _, body = lab.in_room("root", "GET", f"/doc/{target(top)}")
    if status == 404:
        return {}
    if status == 200:
        return {"": body}
    found: Shape = {"": None}
    for row in _names(lab, top):
        found |= {f"/{row}{below}": bytes_ for below, bytes_ in shape(lab, f"{top}/{row}").items()}
    return found


def _names(lab: Lab, folder: str) -> list[str]:
    return [row["name"] for row in json.loads(lab.must("GET", f"/folder/{target(folder)}"))]


def fill(bulk: Bulk, top: str, word: str) -> None:
    bulk.make(top)
    bulk.make(f"{top}/in")
    for number in range(COUNT):
        bulk.make(f"{top}{'/in' if number % 2 else ''}/{number}", f"{word} {number}".encode())


def one(lab: Lab, number: int, chance: random.Random) -> str:
    """The name of a fault, or what came of it."""
    method, over = KINDS[number % len(KINDS)]
    top = f"/k{number}"
    bulk = Bulk(lab.room)
    bulk.make(top)
    fill(bulk, f"{top}/s", "new")
    if over == "folder":
        fill(bulk, f"{top}/t", "old")
    elif over == "document":
        bulk.make(f"{top}/t", b"old")
    bulk.close()
    source, before = shape(lab, f"{top}/s"), shape(lab, f"{top}/t")

    def go() -> None:
        try:
            lab.at_door("alice", method, f"/drive{top}/s", Destination=f"/drive{top}/t")
        except (OSError, http.client.HTTPException):
            pass
    thread = threading.Thread(target=go)
    thread.start()
    time.sleep(0.1 * chance.random() ** 2)
    lab.kill_door()
    thread.join()
    lab.start_door()
    status = lab.at_door("bob", "PROPFIND", "/drive/", Depth="0")[0]
    if status != 207:
        return f"wrong: the next look is answered {status}"
    left = [name for name in _names(lab, top) if name not in ("s", "t")]
    now = shape(lab, f"{top}/s"), shape(lab, f"{top}/t")
    undone, done = (source, before), ({} if method == "MOVE" else source, source)
    if left or now not in (undone, done):
        return f"wrong: {method} over {over}: beside it {left}, at its place {len(now[1])} objects"
    return f"{method} over {over}: {'done' if now == done else 'undone'}"


def main() -> int:
    program, folder, seed = sys.argv[1:4]
    chance = random.Random(seed)
    counts: Counter[str] = Counter()
    with Lab(program, folder) as lab:
        lab.must("PUT", "/dacl/", f"list:a\nA:fd:root:{ALL}\nA:fd:EVERYONE@:rwaxctdD\n")
        for number in range(int(sys.argv[4])):
            counts[one(lab, number, chance)] += 1
        sound = lab.subcommand("verify")
    for word, count in sorted(counts.items()):
        print(count, word)
    return 1 if sound != b"sound\n" or any(word.startswith("wrong") for word in counts) else 0


if __name__ == "__main__":
    sys.exit(main())
