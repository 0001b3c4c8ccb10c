"""A request by TLS and HTTP/2 that its sender takes back before all of it is there:

    taken_back.py AUTHORITY PORT USER:PASSWORD TARGET"""
import base64
import socket
import struct
import sys
import time

import http2

authority, port, user, target = sys.argv[1:]
CANCEL = 8
plain = socket.create_connection(("127.0.0.1", int(port)))
line = http2.context_of(authority).wrap_socket(plain, server_hostname="rooms.example")
key = base64.b64encode(user.encode()).decode()
head = http2.head_of((":method", "PUT"), (":scheme", "https"), (":path", target),
                     (":authority", "rooms.example"), ("authorization", f"Basic {key}"),
                     ("content-length", "300"))
line.sendall(http2.PREFACE + http2.frame(http2.HEADERS, http2.WHOLE, 1, head)
             + http2.frame(http2.DATA, 0, 1, b"abc"))
time.sleep(1)
line.sendall(http2.frame(http2.RESET, 0, 1, struct.pack(">I", CANCEL)))
time.sleep(0.5)
line.close()
