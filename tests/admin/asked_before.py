"""For tests: the question that rooms-admin makes of a room's lists, on rooms at random, against
what came of the change: asked_before.py PROGRAM SEED ROOMS."""
import csv
import io
import os
import shutil
import sys
import tempfile
from random import Random

# Here another module is called as one of the model.
sys.path[0] = os.path.join(os.path.dirname(os.path.realpath(__file__)), "..", "model")

from against import Program  # noqa: E402
from would import HEADER, Change, Counts, Kept, Rooms, Said, Wrong, judge, moves, sets  # noqa: E402

from rooms_admin.lists import dump  # noqa: E402
from rooms_admin.lists.would import moved, outcomes_of, question, set_list  # noqa: E402

# How many objects weren't asked, for each question.
alike: list[int] = []


def asked(kept: Kept, change: Change) -> Said:
    path, *lines = (line.encode() for line in change.lines)
    at = path.split(b" ", 1)[1]
    if change.to is None:
        to, wanted = at, set_list(at, b"\n".join(lines) + b"\n")
    else:
        to = change.to.encode()
        wanted = moved(at, to)
    rows = (line.encode() + b"\n" for line in kept.runs("dump", "F").splitlines())
    made = question(dump.whole(rows, "the dump"), at, to, wanted)
    if made is None:
        raise Wrong(f"{at!r} isn't there")
    alike.append(sum(map(len, made.alike.values())))
    text = io.StringIO()
    table = csv.writer(text)
    table.writerow(HEADER)
    for row in outcomes_of(made, kept.runs("would", text=made.text().decode())):
        table.writerow([("yes" if one else "no") if isinstance(one, bool) else one for one in row])
    return Said(text.getvalue())


def compare(kept: Kept, change: Change, counts: Counts) -> None:
    """Whoever is named elsewhere alone is any other name here."""
    said, before = asked(kept, change), kept.reviewed
    kept.makes(change)
    rooms = Rooms(before, kept.reviewed, change)
    judge(said, rooms, {user: user for user in rooms.users() & said.users}, counts)
    for user in rooms.users() - said.users:
        judge(said, rooms, {"*": user}, counts)


def main(path: str, seed: str, number: str) -> None:
    counts, folder = Counts(), tempfile.mkdtemp()
    program = Program(os.path.abspath(path))
    os.chdir(folder)
    try:
        for one in range(int(number)):
            kept = Kept(program, Random(f"{seed} {one}"))
            for what, make in (("lists", sets), ("moves", moves)) * 3:
                change = next((found for found in (make(kept) for _ in range(60))
                               if found and len(found.requests) == 1), None)
                if change:
                    compare(kept, change, counts)
                    counts.trees[what] = counts.trees.get(what, 0) + 1
        print(f"{counts.told()}; {sum(alike)} alike")
    except Wrong as wrong:
        sys.exit(str(wrong))
    finally:
        os.chdir("/")
        shutil.rmtree(folder)


main(*sys.argv[1:])
