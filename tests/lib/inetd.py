"""What systemd does for a socket with Accept=yes: inetd.py SOCKET MOST COMMAND .. starts the
command for each connection, with that as standard input and output, and refuses more than MOST at
once."""
import os
import socket
import subprocess
import sys

place, most, words = sys.argv[1], int(sys.argv[2]), sys.argv[3:]
listener = socket.socket(socket.AF_UNIX)
listener.bind(place)
os.chmod(place, 0o666)
listener.listen(64)
running: list[subprocess.Popen[bytes]] = []
while True:
    connection, _ = listener.accept()
    running = [one for one in running if one.poll() is None]
    with connection:
        if len(running) < most:
            running.append(subprocess.Popen(words, stdin=connection, stdout=connection))
