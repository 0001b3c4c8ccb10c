"""What systemd does for a socket without Accept: activated.py SOCKET MODE COMMAND .. makes it, and
starts the command whenever somebody waits there and none runs. The command gets it as file 3. A
line is printed for each start: the number of its process."""
import os
import select
import signal
import socket
import subprocess
import sys

place, mode, words = sys.argv[1], int(sys.argv[2], 8), sys.argv[3:]
os.umask(0o777 & ~mode)
listener = socket.socket(socket.AF_UNIX)
listener.bind(place)
listener.listen(128)
if listener.fileno() != 3:
    os.dup2(listener.fileno(), 3)
os.set_inheritable(3, True)
signal.signal(signal.SIGTERM, lambda *_: sys.exit(0))
running = None
try:
    while True:
        select.select([3], [], [])
        running = subprocess.Popen(words, close_fds=False, env={**os.environ, "LISTEN_FDS": "1"})
        print(running.pid, flush=True)
        running.wait()
finally:
    if running and running.poll() is None:
        running.terminate()
        running.wait()
