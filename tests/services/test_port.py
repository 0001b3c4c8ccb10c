"""Who has made a connection to a room's port, by the kernel and by its list."""
import os
import socket
import struct
import unittest
from concurrent.futures import ThreadPoolExecutor
from unittest import mock

from rooms_services import port

# As in linux/netlink.h.
INET_DIAG = 4


class Made(unittest.TestCase):
    def setUp(self) -> None:
        self.listener, self.client = self.made(), self.made()
        self.listener.bind(("127.0.0.1", 0))
        self.listener.listen()
        self.client.bind(("127.0.0.1", 0))
        self.client.connect(self.listener.getsockname())
        self.connection, _ = self.listener.accept()
        self.addCleanup(self.connection.close)
        self.asking = self.made(socket.AF_NETLINK, socket.SOCK_RAW, INET_DIAG)

    def made(self, *kind: int) -> socket.socket:
        one = socket.socket(*kind)
        self.addCleanup(one.close)
        return one

    def maker(self, kernel: port.Kernel | None, place: str = "/none") -> int:
        with mock.patch.object(port, "CONNECTIONS", place):
            return port.maker(self.connection, kernel)

    def test_the_kernel_says_it(self) -> None:
        """The list, which any account makes long, isn't read."""
        kernel = port.Kernel(self.asking, self.listener)
        self.assertTrue(kernel.answers)
        self.assertEqual(self.maker(kernel), os.getuid())
        with ThreadPoolExecutor(8) as pool:
            said = pool.map(lambda _: self.maker(kernel), range(200))
            self.assertEqual(set(said), {os.getuid()})

    def test_one_that_has_ended_is_nobodys(self) -> None:
        """To the kernel it is root's; or of whoever listens where it came from."""
        kernel = port.Kernel(self.asking, self.listener)
        self.client.close()
        self.assertEqual(self.maker(kernel), -1)
        other = self.made()
        other.bind(("127.0.0.1", 0))
        other.listen()
        self.assertTrue(kernel._said(port._ends(other.getsockname(), ("127.0.0.1", 9))))
        self.assertEqual(kernel.maker(port._ends(other.getsockname(), ("127.0.0.1", 9))), -1)

    def test_what_another_process_had_asked(self) -> None:
        """Which was killed, and has left the answer."""
        for number in (1, 2):
            asks = struct.pack(port._ASKS, socket.AF_INET, socket.IPPROTO_TCP, 0, bytes(36), 0)
            self.asking.sendto(struct.pack(port._HEAD, 16 + len(asks), port._BY_FAMILY,
                                           port._REQUEST, number, 0) + asks, (0, 0))
        self.assertEqual(self.maker(port.Kernel(self.asking, self.listener)), os.getuid())

    def test_where_the_kernel_says_nothing(self) -> None:
        silent = mock.Mock(**{"sendto.side_effect": ConnectionRefusedError})
        kernel = port.Kernel(silent, self.listener)
        self.assertFalse(kernel.answers)
        for one in (kernel, None):
            self.assertEqual(self.maker(one, "/proc/self/net/tcp"), os.getuid())
        self.client.close()
        self.assertEqual(self.maker(None, "/proc/self/net/tcp"), -1)


if __name__ == "__main__":
    unittest.main()
