"""For tests: what one process of a unit sees of another one of the same user.

    beside.py SOCKET    asks two of them at the unit's socket, which has this file in the place of
                        its program; prints what the second one sees of the first
    beside.py           in that place"""
import os
import socket
import sys
import time


def asked(place, word):
    at = socket.socket(socket.AF_UNIX)
    at.settimeout(30)
    at.connect(place)
    at.sendall(word)
    return at


def seen(pid):
    for name, look in (("environ", read), ("mem", opened), ("maps", read), ("fd", os.listdir),
                       ("root/tmp", os.listdir), ("cwd", os.readlink)):
        try:
            look(f"/proc/{pid}/{name}")
            print(f"sees {name}")
        except OSError:
            pass


def read(path):
    with open(path, "rb") as source:
        source.read(1)


def opened(path):
    os.close(os.open(path, os.O_RDONLY))


def is_like_this(pid):
    try:
        return pid != os.getpid() and os.stat(f"/proc/{pid}").st_uid == os.getuid()
    except OSError:
        return False


if len(sys.argv) > 1:
    first = asked(sys.argv[1], b"stay\n")
    assert first.recv(6) == b"ready\n"
    with asked(sys.argv[1], b"look\n") as second:
        while part := second.recv(4096):
            sys.stdout.write(part.decode())
elif sys.stdin.readline() == "stay\n":
    print("ready", flush=True)
    time.sleep(60)
else:
    print("looks")
    for one in map(int, filter(str.isdigit, os.listdir("/proc"))):
        if is_like_this(one):
            seen(one)
