"""HTTP over a socket in the file system."""
import http.client
import socket
import struct


class AtSocket(http.client.HTTPConnection):
    """A connection to a socket in the file system, whoever made it: systemd made that of a door."""

    def __init__(self, path: str, timeout: float) -> None:
        super().__init__("localhost", timeout=timeout)
        self.path = path

    def connect(self) -> None:
        self.sock = socket.socket(socket.AF_UNIX)
        self.sock.settimeout(self.timeout)
        self.sock.connect(self.path)


class AtServer(AtSocket):
    """A connection to a room's server, which makes its socket itself. While it is started anew, a
    socket of systemd's is there, where others wait: to whom is told what is so, it is as if nobody
    listened."""

    def connect(self) -> None:
        super().connect()
        process, _, _ = struct.unpack("=3i", self.sock.getsockopt(
            socket.SOL_SOCKET, socket.SO_PEERCRED, 12))
        if process == 1:
            self.close()
            raise ConnectionRefusedError("the server is started anew")
