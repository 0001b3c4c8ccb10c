"""For tests: asks who opens nights for more than it may do, as its judge: for each of several
nights all the time, and by connections that say nothing.

    loaded.py SECONDS NIGHT ..

prints 'N tasks, M MB, K open, A answered, B busy, S silent': how many tasks and how much memory its
user's processes had at most, how many nights were open at once, and what was answered."""
import collections
import glob
import os
import pwd
import socket
import sys
import threading
import time

PLACE, USER = "/run/rooms-nights/socket", "rooms-night"
ASKING, SILENT = 24, 80


class Load:
    def __init__(self, nights: list[str]) -> None:
        self.nights = nights
        self.ends = False
        self.lock = threading.Lock()
        self.said: collections.Counter[str] = collections.Counter()
        self.most = {"tasks": 0, "kilobytes": 0, "open": 0}

    def count(self, word: str) -> None:
        with self.lock:
            self.said[word] += 1

    def ask(self, number: int) -> None:
        while not self.ends:
            number += 1
            with socket.socket(socket.AF_UNIX) as at:
                try:
                    at.settimeout(60)
                    at.connect(PLACE)
                    at.sendall(f"open office {self.nights[number % len(self.nights)]}\n".encode())
                    self.count(at.recv(300).decode().split(" ")[0].strip() or "ended")
                except OSError:
                    self.count("refused")

    def wait(self) -> None:
        """Until it is closed."""
        while not self.ends:
            with socket.socket(socket.AF_UNIX) as at:
                try:
                    at.settimeout(60)
                    at.connect(PLACE)
                    at.recv(1)
                    self.count("silent")
                except OSError:
                    time.sleep(0.1)

    def look(self) -> None:
        user = pwd.getpwnam(USER).pw_uid
        tasks = kilobytes = 0
        for place in glob.glob("/proc/[0-9]*"):
            try:
                if os.stat(place).st_uid != user:
                    continue
                with open(f"{place}/status", encoding="ascii", errors="replace") as lines:
                    told = dict(line.split(":", 1) for line in lines)
            except OSError:
                continue
            tasks += int(told.get("Threads", 0))
            kilobytes += int(told.get("RssAnon", "0 kB").split()[0])
        found = {"tasks": tasks, "kilobytes": kilobytes,
                 "open": len(glob.glob("/run/rooms-nights/open/*/socket"))}
        self.most = {name: max(self.most[name], number) for name, number in found.items()}


def main() -> None:
    seconds, *nights = sys.argv[1:]
    load = Load(nights)
    threads = [threading.Thread(target=load.ask, args=(one,)) for one in range(ASKING)]
    threads += [threading.Thread(target=load.wait) for _ in range(SILENT)]
    for one in threads:
        one.start()
    until = time.monotonic() + float(seconds)
    while time.monotonic() < until:
        load.look()
        time.sleep(0.05)
    load.ends = True
    for one in threads:
        one.join()
    most, said = load.most, load.said
    print(f"{most['tasks']} tasks, {most['kilobytes'] >> 10} MB, {most['open']} open, "
          f"{said['ready']} answered, {said['busy']} busy, {said['silent']} silent")


main()
