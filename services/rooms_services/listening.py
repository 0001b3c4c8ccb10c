"""A service at the socket that systemd has made for it: nginx waits there while it starts, and it
ends when nobody has asked for a while."""
import os
import socket
import threading
import time
from collections.abc import Callable

# The number of the first file that systemd hands over.
_FIRST = 3
# Seconds between two looks whether anything is left to do.
_TICK = 5.0
# Of a thread, most of which no memory is taken for. With much less, what somebody has put into one
# another ten thousand times, as JSON, ends the process, and isn't refused: Python counts on it.
STACK = 4 << 20


def handed() -> socket.socket:
    """The socket of this service's unit."""
    return handed_by_kind()[0]


def handed_by_kind(kinds: tuple[int, ...] = ()) -> list[socket.socket]:
    """All of them; of several kinds those of the kind named first come first."""
    count = os.environ.get("LISTEN_FDS", "")
    if not count.isdigit() or not 1 <= int(count) <= max(1, len(kinds)):
        raise SystemExit("no socket of systemd's: its unit starts this")
    found = []
    for number in range(_FIRST, _FIRST + int(count)):
        os.set_inheritable(number, False)
        found.append(socket.socket(fileno=number))
    return sorted(found, key=lambda one: kinds.index(one.family)) if kinds else found


def serve(listener: socket.socket, most: int, idle: float,
          one: Callable[[socket.socket], None], is_needed: Callable[[], bool] = lambda: False
          ) -> None:
    """A thread for each connection, up to so many: more wait in the socket. It goes on until nobody
    has come for `idle` seconds, and nothing else needs it."""
    free = threading.BoundedSemaphore(most)

    def answer(connection: socket.socket) -> None:
        try:
            with connection:
                one(connection)
        except OSError:
            pass  # Whoever asked is gone.
        finally:
            free.release()

    threading.stack_size(STACK)
    listener.settimeout(_TICK)
    last = time.monotonic()
    while True:
        free.acquire()
        try:
            connection, _ = listener.accept()
        except TimeoutError:
            free.release()
            if time.monotonic() - last > idle and not is_needed():
                return
            continue
        last = time.monotonic()
        threading.Thread(target=answer, args=(connection,), daemon=True).start()
