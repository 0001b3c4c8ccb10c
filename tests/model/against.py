#!/usr/bin/env python3
"""Plays steps over the program and over the room of this folder, and compares each reply byte by
byte, then the dump, the records and `verify`:

    against.py PROGRAM random SEED ROOMS     rooms at random, some 1,200 requests each
    against.py PROGRAM every [NAME]          every case of a rule, or of all
    against.py PROGRAM planted SEED          each mistake of planted.py has to be seen

The steps of a random room that differ are made as few as suffice, and printed; the status is 1."""
from __future__ import annotations

import os
import shutil
import socket
import subprocess
import sys
import tempfile
import threading
import time
from collections.abc import Callable, Iterable, Iterator
from itertools import chain
from random import Random

import planted
from acl import text_of
from chance import steps_at_random
from every import EVERY
from messages import shown
from room import new_room
from steps import Ask, Members, Reset, Step, Steps

OWNER, GROUP = "root", "staff"
MESSAGES = 9000  # of one connection, which may have 10,000
SHRINK_SECONDS = 60


class Program:
    """The program, over a file in the present folder."""

    def __init__(self, path: str):
        self.path = path

    def run(self, *words: str, text: str = "") -> str:
        ran = subprocess.run([self.path, *words], input=text.encode(), timeout=300,
                             capture_output=True)
        return (ran.stdout + ran.stderr).decode()

    def fresh(self) -> None:
        for name in ("F", "F-wal", "S"):
            if os.path.lexists(name):
                os.remove(name)
        said = self.run("init", "F", OWNER, GROUP)
        if said != "ready\n":
            sys.exit(f"init: {said}")

    def exchange(self, sent: bytes) -> bytes:
        """What comes back over one connection to a server of its own."""
        with subprocess.Popen([self.path, "serve", "F", "--socket", "S"],
                              stdout=subprocess.PIPE) as server:
            assert server.stdout
            server.stdout.readline()
            with socket.socket(socket.AF_UNIX) as at:
                at.settimeout(300)
                at.connect("S")
                sender = threading.Thread(target=sends, args=(at, sent))
                sender.start()
                received = b"".join(iter(lambda: at.recv(1 << 16), b""))
                sender.join()
        return received


def sends(at: socket.socket, sent: bytes) -> None:
    try:
        at.sendall(sent)
        at.shutdown(socket.SHUT_WR)
    except OSError:
        pass  # then a reply is missing, which is told


class Differs(Exception):
    """The first difference, in words."""


class Play:
    """Both rooms, and the requests that wait to be sent over one connection."""

    def __init__(self, program: Program):
        self.program, self.room = program, new_room(OWNER, GROUP)
        self.waiting: list[tuple[Ask, bytes]] = []
        self.asked = 0
        program.fresh()

    def step(self, step: Step) -> None:
        if isinstance(step, Ask):
            self.waiting.append((step, step.act(self.room).message()))
            self.asked += 1
            if len(self.waiting) == MESSAGES:
                self.send()
            return
        self.send()
        if isinstance(step, Members):
            self.replace(step)
        elif step.fits(self.room):
            self.reset(step)

    def send(self) -> None:
        if not self.waiting:
            return
        sent = b"".join(ask.request.message(ask.user) for ask, _ in self.waiting)
        received, at = self.program.exchange(sent), 0
        for ask, wanted in self.waiting:
            if received[at:at + len(wanted)] != wanted:
                raise Differs(f"{ask}\n  wanted {wanted[:400]!r}\n"
                              f"  got    {received[at:at + 400]!r}")
            at += len(wanted)
        if received[at:]:
            raise Differs(f"after all replies: {received[at:at + 400]!r}")
        self.waiting.clear()

    def replace(self, step: Members) -> None:
        with open("members", "w", encoding="utf-8") as file:
            file.write("group,user\n" + "".join(f"{one},{user}\n" for one, user in step.pairs))
        said = self.program.run("groups", "F", "members")
        if not said.startswith("groups "):
            raise Differs(f"{step}: {said}")
        step.act(self.room)

    def reset(self, step: Reset) -> None:
        request = step.request
        said = self.program.run("reset", "F", shown(request.path), request.which,
                                text=text_of(request.flags, request.entries))
        if said != "done\n":
            raise Differs(f"{step}: {said}")
        step.act(self.room)

    def end(self) -> None:
        self.send()
        records = self.program.run("audit", "F").splitlines()[1:]
        without_moment = [line.split(",", 1)[1] for line in records]
        for what, got, wanted in (
                ("dump", self.program.run("dump", "F").splitlines(), self.room.dump().splitlines()),
                ("records", without_moment, self.room.records),
                ("verify", [self.program.run("verify", "F")], ["sound\n"])):
            for number, (left, right) in enumerate(zip(got, wanted), 1):
                if left != right:
                    raise Differs(f"{what}, line {number}\n  wanted {right}\n  got    {left}")
            if len(got) != len(wanted):
                raise Differs(f"{what}: {len(got)} lines in place of {len(wanted)}")


def play(program: Program, steps: Iterable[Step]) -> str:
    """The first difference, or nothing."""
    playing = Play(program)
    try:
        for one in steps:
            playing.step(one)
        playing.end()
    except Differs as said:
        return str(said)
    return ""


def made(steps: Steps) -> list[Step]:
    """The steps as the room that grows by them suggests them."""
    room, done = new_room(OWNER, GROUP), []
    for one in steps(room):
        one.act(room)
        done.append(one)
    return done


def shrunk(program: Program, steps: list[Step]) -> list[Step]:
    """Leaves out what the difference doesn't need: halves, quarters, and so on to single steps."""
    until, size = time.monotonic() + SHRINK_SECONDS, len(steps) // 2
    while size and time.monotonic() < until:
        at, less = 0, False
        while at < len(steps) and time.monotonic() < until:
            fewer = steps[:at] + steps[at + size:]
            if play(program, fewer):
                steps, less = fewer, True
            else:
                at += size
        size = size if less and size == 1 else size // 2
    return steps


def rooms(seed: str, number: int) -> Iterator[list[Step]]:
    for one in range(number):
        random = Random(f"{seed} {one}")
        yield made(lambda room: steps_at_random(random, room))


def asked_in(steps: list[Step]) -> int:
    return sum(isinstance(one, Ask) for one in steps)


def at_random(program: Program, seed: str, number: str) -> None:
    asked = 0
    for steps in rooms(seed, int(number)):
        asked += asked_in(steps)
        if play(program, steps):
            steps = shrunk(program, steps)
            said = play(program, steps)
            print(f"seed {seed}: {len(steps)} steps suffice", *steps, said, sep="\n")
            sys.exit(1)
    print(f"{number} rooms, {asked} requests, 0 differ")


def every(program: Program, name: str = "") -> None:
    for one in [name] if name else EVERY:
        steps = made(EVERY[one])
        said = play(program, steps)
        if said:
            print(f"{one}: {said}")
            sys.exit(1)
        print(f"{one}: {asked_in(steps)} requests, 0 differ")


def seen(program: Program, seed: str) -> None:
    """The mistakes are made in this room, so the program is what differs from it."""
    unseen = [name for name, mistake in planted.MISTAKES.items()
              if not is_seen(program, mistake, seed)]
    print(f"{len(planted.MISTAKES)} mistakes, {len(unseen)} unseen", *unseen)
    sys.exit(bool(unseen))


def is_seen(program: Program, mistake: planted.Mistake, seed: str) -> bool:
    for steps in chain(rooms(seed, 1), map(made, EVERY.values())):
        with planted.made(mistake):
            if play(program, steps):
                return True
    return False


MODES: dict[str, Callable[..., None]] = {"random": at_random, "every": every, "planted": seen}


def main(path: str, mode: str, *words: str) -> None:
    program = Program(os.path.abspath(path))
    folder = tempfile.mkdtemp()
    try:
        os.chdir(folder)
        MODES[mode](program, *words)
    finally:
        os.chdir("/")
        shutil.rmtree(folder)


if __name__ == "__main__":
    if len(sys.argv) < 3:
        sys.exit(__doc__)
    main(*sys.argv[1:])
