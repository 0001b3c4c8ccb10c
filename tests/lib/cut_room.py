"""For tests: a room that ends when it has done what it was asked, before it says so.

    cut_room.py SOCKET FILE    adds a line to the file for each request but that of /can/"""
import os
import socket
import sys

listener = socket.socket(socket.AF_UNIX)
listener.bind(sys.argv[1])
listener.listen(128)
while True:
    peer, _ = listener.accept()
    got = b""
    while b"\r\n\r\n" not in got and (part := peer.recv(65536)):
        got += part
    method, target = (got.split(b" ", 2) + [b"", b""])[:2]
    if target.startswith(b"/can/"):
        peer.sendall(b"HTTP/1.1 200 OK\r\nContent-Length: 2\r\n\r\n{}")
        peer.recv(1)
    elif target:
        with open(sys.argv[2], "ab") as done:
            done.write(b"%b %b\n" % (method, target))
        os.abort()
    peer.close()
