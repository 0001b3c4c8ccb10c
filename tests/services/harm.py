#!/usr/bin/env python3
"""What users who work together can have the door take: documents at long paths, of long names, with
long lists, that four of them look at at once, and locks. Its memory is measured at its highest.

  harm.py PROGRAM FOLDER COUNT MEGABYTES

By hand: 40000 768, as its unit has it."""
import http.client
import os
import sys
import threading
import time

from lab import ALL, LOCK, Bulk, Lab, target

USERS = ("alice", "bob", "carol", "dave")
# A name of many bytes, of which one letter makes Python keep four bytes for each.
WIDE = "\U0001d538" + "x" * 200


def deep_of(lab: Lab) -> str:
    bulk = Bulk(lab.room, "alice")
    path = ""
    for _ in range(14):
        path += "/" + "x" * 250
        bulk.make(path)
    bulk.close()
    return path


def fill(lab: Lab, deep: str, count: int) -> None:
    bulk = Bulk(lab.room, "alice")
    bulk.make("/wide")
    for number in range(count):
        bulk.make(f"{deep}/{number}", b"")
        bulk.make(f"/wide/{number}{WIDE}", b"")
        if number % 10 == 0:
            bulk.ask("PUT", f"/dacl/wide/{target(f'{number}{WIDE}')}", "list:ap\n" + "".join(
                f"A::u{one}.{number}:r\n" for one in range(60)) + "A::EVERYONE@:rwaxctC\n")
    bulk.close()


def at_once(lab: Lab, method: str, address: str, **fields: str) -> str:
    """By four users, of whom each may do one such thing at a time."""
    statuses: list[int] = []
    lengths: list[int] = []

    def one(user: str) -> None:
        try:
            status, _, body = lab.at_door(user, method, address, **fields)
        except http.client.IncompleteRead as cut:
            # It took too long, and has no end.
            status, body = 507, cut.partial
        statuses.append(status)
        lengths.append(len(body))
    began = time.monotonic()
    threads = [threading.Thread(target=one, args=(user,)) for user in USERS]
    for thread in threads:
        thread.start()
    for thread in threads:
        thread.join()
    now, most = lab.megabytes()
    print(f"{method} {address[:20]}: {sorted(statuses)}, {max(lengths, default=0) >> 10} kB, "
          f"{time.monotonic() - began:.1f} s; {now} MB, at most {most} MB", flush=True)
    return "" if statuses and set(statuses) <= {200, 207, 413, 507} else f"{address}: {statuses}"


def lock(lab: Lab) -> str:
    owner = LOCK.replace("</D:lockinfo>", f"<D:owner>{'o' * 1900}</D:owner></D:lockinfo>")
    times = []
    for number in range(400):
        began = time.monotonic()
        status = lab.at_door(f"u{number // 200}", "LOCK", f"/drive/wide/n{number}{'y' * 200}",
                             owner, Depth="0")[0]
        times.append(time.monotonic() - began)
        if status != 201:
            return f"LOCK {number}: {status}"
    status = lab.at_door("u0", "LOCK", "/drive/wide/one-more", owner, Depth="0")[0]
    size = os.path.getsize(f"{os.path.dirname(lab.door)}/locks")
    print(f"400 locks, the last in {max(times[-20:]) * 1000:.0f} ms; {size >> 10} kB")
    return "" if status == 503 and size < 400 * 8000 else f"one lock more: {status}, {size} bytes"


def main() -> int:
    program, folder = sys.argv[1:3]
    count, limit = map(int, sys.argv[3:5])
    with Lab(program, folder) as lab:
        lab.must("PUT", "/dacl/", f"list:a\nA:fd:root:{ALL}\nA:fd:EVERYONE@:rwaxctC\n")
        deep = deep_of(lab)
        fill(lab, deep, count)
        faults = [at_once(lab, "GET", f"/door/{word}") for word in (
            f"closed/{target(deep)}", "closed/wide", "find/?zzz", "find/?1", "below/", "zip/")]
        faults += [at_once(lab, "PROPFIND", f"/drive/{path}", Depth="1") for path in (
            target(deep), "wide")]
        faults.append(lock(lab))
        most = lab.megabytes()[1]
    faults = [one for one in faults if one]
    for fault in faults:
        print("wrong:", fault)
    print(f"at most {most} MB of {limit}")
    return 1 if faults or most > limit else 0


if __name__ == "__main__":
    sys.exit(main())
