"""A request by TLS and HTTP/2 whose answer its sender doesn't take: those to others stand before it
on the same connection, and fill that. It goes on until there is no more standard input.

    unread.py AUTHORITY PORT USER:PASSWORD LARGE METHOD TARGET"""
import base64
import socket
import sys
import time

import http2

authority, port, user, large, method, target = sys.argv[1:]
MANY = 12
plain = socket.socket()
plain.setsockopt(socket.SOL_SOCKET, socket.SO_RCVBUF, 4096)
plain.connect(("127.0.0.1", int(port)))
line = http2.context_of(authority).wrap_socket(plain, server_hostname="rooms.example")
key = base64.b64encode(user.encode()).decode()


def ask(stream, method, target):
    head = http2.head_of((":method", method), (":scheme", "https"), (":path", target),
                         (":authority", "rooms.example"), ("authorization", f"Basic {key}"))
    line.sendall(http2.frame(http2.HEADERS, http2.END | http2.WHOLE, stream, head))


line.sendall(http2.PREFACE)
for turn in range(MANY):
    ask(2 * turn + 1, "GET", large)
time.sleep(1)
ask(2 * MANY + 1, method, target)
sys.stdin.read()
line.close()
