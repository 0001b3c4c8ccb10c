"""What systemd does for rooms-would.socket: answer_would.py SOCKET MOST PROGRAM starts the program
for each question, and kills it after ten seconds. Behind a whole answer stands its version, as by
rooms-would@.service. More than MOST at once get no answer."""
import functools
import os
import select
import socket
import subprocess
import sys
import threading

SECONDS = 10
REFUSED = 2  # the last status of a whole answer

place, most, program = sys.argv[1], int(sys.argv[2]), sys.argv[3]
free = threading.BoundedSemaphore(most)


@functools.cache
def version() -> bytes:
    return subprocess.run([program, "--version"], stdout=subprocess.PIPE,
                          stderr=subprocess.STDOUT).stdout


def answer(connection: socket.socket) -> None:
    at = connection.fileno()
    ran = subprocess.Popen([program, "would"], stdin=at, stdout=at, stderr=at)
    ended = os.pidfd_open(ran.pid)
    if not select.select([ended], [], [], SECONDS)[0]:
        ran.kill()
    os.close(ended)
    if 0 <= ran.wait() <= REFUSED:
        connection.sendall(version())


def answer_in_turn(connection: socket.socket) -> None:
    with connection:
        if free.acquire(blocking=False):
            try:
                answer(connection)
            finally:
                free.release()


listener = socket.socket(socket.AF_UNIX)
listener.bind(place)
os.chmod(place, 0o666)
listener.listen(64)
while True:
    threading.Thread(target=answer_in_turn, args=(listener.accept()[0],), daemon=True).start()
