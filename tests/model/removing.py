#!/usr/bin/env python3
"""Every case of who may remove what, by the program: removing.py PROGRAM. Prints a line of JSON for
each: what /can/ says of d at the object and of D and w at its folder, and the reply to the request
that removes it, {"own":..,"above":..,"status":..,"said":..}."""
from __future__ import annotations

import json
import os
import shutil
import sys
import tempfile
from collections.abc import Iterator

from against import GROUP, MESSAGES, OWNER, Play, Program
from every import deletions
from messages import Request
from room import new_room
from steps import Ask, Step

# What is asked before an object goes, and it itself.
AROUND = 3


def replies(received: bytes) -> Iterator[tuple[int, str]]:
    at = 0
    while at < len(received):
        end = received.index(b"\r\n\r\n", at) + 4
        head = received[at:end].decode()
        length = head.partition("Content-Length: ")[2].partition("\r")[0] or "0"
        at = end + int(length)
        yield int(head.split()[1]), received[end:at].decode()


def asked(step: Ask) -> list[bytes]:
    if step.request.word != "Remove":
        return [step.request.message(step.user)]
    path = step.request.path
    looks = (Request("Can", path, rights="d"), Request("Can", path[:-1], rights="Dw"))
    return [one.message(step.user) for one in (*looks, step.request)]


def sent(program: Program, steps: list[Step]) -> Iterator[tuple[int, str]]:
    """All replies to what removes something, each behind those to the two looks."""
    parts = [(step, asked(step)) for step in steps if isinstance(step, Ask)]
    while parts:
        size = sum(1 for count in range(len(parts)) if count * AROUND < MESSAGES)
        now, parts = parts[:size], parts[size:]
        found = replies(program.exchange(b"".join(one for _, each in now for one in each)))
        for _, each in now:
            got = [next(found) for _ in each]
            if len(each) == AROUND:
                yield from got


def main(path: str) -> None:
    folder = tempfile.mkdtemp()
    program = Program(os.path.abspath(path))
    os.chdir(folder)
    try:
        play = Play(program)
        steps = list(deletions(new_room(OWNER, GROUP)))
        for one in steps:
            if not isinstance(one, Ask):
                play.step(one)
        found = sent(program, steps)
        for own, above, removed in zip(found, found, found):
            print(json.dumps({"own": json.loads(own[1]), "above": json.loads(above[1]),
                              "status": removed[0], "said": json.loads(removed[1] or "{}")}))
    finally:
        os.chdir("/")
        shutil.rmtree(folder)


if __name__ == "__main__":
    if len(sys.argv) != 2:
        sys.exit(__doc__)
    main(sys.argv[1])
