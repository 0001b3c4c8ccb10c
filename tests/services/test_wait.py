"""Who waits for a room's server, and where the way to it leads."""
import os
import socket
import stat
import tempfile
import threading
import time
import unittest
from contextlib import suppress
from unittest import mock

from rooms_admin.cli.report import Stop
from rooms_admin.host import locks, mail
from rooms_admin.room import awaited, server, waits, way
from rooms_services import listening as services, wait

ASKED = b"PUT /doc/f HTTP/1.1\r\nContent-Length: 1048576\r\n\r\n" + b"x" * 1_048_576
DONE = b"HTTP/1.1 204 No Content\r\n\r\n"


def listening(path: str) -> socket.socket:
    at = socket.socket(socket.AF_UNIX)
    at.bind(path)
    at.listen(64)
    at.settimeout(20)
    return at


def all_of(at: socket.socket) -> bytes:
    """Until it ends, also where it wasn't read to its end."""
    got = b""
    with suppress(ConnectionResetError):
        while part := at.recv(1 << 16):
            got += part
    return got


class Over(unittest.TestCase):
    """A room whose server isn't there yet, and who waits for it."""

    def setUp(self) -> None:
        folder = tempfile.TemporaryDirectory()
        self.addCleanup(folder.cleanup)
        self.run_ = folder.name
        for name in ("rooms-wait", "rooms-server", "rooms-server/office"):
            os.mkdir(f"{self.run_}/{name}")
        patch = mock.patch.object(locks, "RUN", self.run_)
        patch.start()
        self.addCleanup(patch.stop)
        self.place = f"{self.run_}/rooms/office/socket"
        self.own = f"{self.run_}/rooms-wait/office"
        self.waiting = self.closed_later(listening(self.own))
        self.way = wait.Way(self.place, self.own, 30.0)
        threading.Thread(target=self._accept, daemon=True).start()

    def closed_later(self, at: socket.socket) -> socket.socket:
        self.addCleanup(at.close)
        return at

    def _accept(self) -> None:
        while True:
            try:
                caller, _ = self.waiting.accept()
            except OSError:
                return
            threading.Thread(target=self._one, args=(caller,), daemon=True).start()

    def _one(self, caller: socket.socket) -> None:
        with caller:
            wait.one(caller, self.way)

    def server(self) -> socket.socket:
        """One that listens; the way doesn't lead there yet."""
        place = way.socket_of("office")
        if os.path.exists(place):
            os.unlink(place)
        return self.closed_later(listening(place))

    def asking(self, asked: bytes = b"") -> socket.socket:
        at = self.closed_later(socket.socket(socket.AF_UNIX))
        at.settimeout(20)
        at.connect(self.place)
        with suppress(BrokenPipeError):
            at.sendall(asked)
        return at


class Waiting(Over):
    def test_each_is_passed_on_once(self) -> None:
        self.assertTrue(way.to_waiting("office"))
        callers = [self.asking(b"%d" % turn) for turn in range(9)]
        room = self.server()
        time.sleep(0.1)
        self.assertTrue(way.to_server("office"))
        got = []
        for _ in callers:
            peer, _ = room.accept()
            got.append(peer.recv(100))
            peer.sendall(DONE)
            peer.close()
        self.assertEqual(sorted(got), [b"%d" % turn for turn in range(9)])
        self.assertEqual([all_of(one) for one in callers], [DONE] * 9)
        room.settimeout(0.2)
        self.assertRaises(TimeoutError, room.accept)

    def test_a_whole_document(self) -> None:
        way.to_waiting("office")
        caller = self.closed_later(socket.socket(socket.AF_UNIX))
        caller.connect(self.place)
        sending = threading.Thread(target=caller.sendall, args=(ASKED,))
        sending.start()
        room = self.server()
        way.to_server("office")
        peer, _ = room.accept()
        got = b""
        while len(got) < len(ASKED):
            got += peer.recv(1 << 16)
        sending.join()
        self.assertEqual(got, ASKED)
        peer.sendall(DONE)
        caller.shutdown(socket.SHUT_WR)
        self.assertEqual(peer.recv(1), b"")
        peer.close()
        self.assertEqual(all_of(caller), DONE)

    def test_an_answer_before_all_is_read(self) -> None:
        way.to_waiting("office")
        room = self.server()
        way.to_server("office")
        caller, back = socket.socketpair()
        self.closed_later(back)
        passing = threading.Thread(target=self._one, args=(caller,))
        passing.start()
        peer, _ = room.accept()
        peer.sendall(DONE)
        peer.close()
        self.assertEqual(all_of(back), DONE)
        passing.join(20)
        self.assertFalse(passing.is_alive())

    def test_what_was_sent_is_sent_to_nobody_else(self) -> None:
        way.to_waiting("office")
        caller = self.asking(b"DELETE /object/f")
        first = self.server()
        way.to_server("office")
        peer, _ = first.accept()
        self.assertEqual(peer.recv(100), b"DELETE /object/f")
        # It ends before it says that this was done.
        first.close()
        way.to_waiting("office")
        second = self.server()
        way.to_server("office")
        peer.close()
        self.assertEqual(all_of(caller), b"")
        second.settimeout(0.2)
        self.assertRaises(TimeoutError, second.accept)

    def test_one_that_never_comes(self) -> None:
        self.way = wait.Way(self.place, self.own, 3.0)
        way.to_waiting("office")
        began = time.monotonic()
        self.assertEqual(all_of(self.asking(b"x")), b"")
        self.assertTrue(2.0 < time.monotonic() - began < 20)
        # The time counts from when it went: who comes later waits no more.
        began = time.monotonic()
        self.assertEqual(all_of(self.asking(b"x")), b"")
        self.assertLess(time.monotonic() - began, 2.0)
        # One that was started meanwhile, and fails again, begins no new time.
        way.to_waiting("office")
        began = time.monotonic()
        self.assertEqual(all_of(self.asking(b"x")), b"")
        self.assertLess(time.monotonic() - began, 2.0)

    def test_a_clock_that_is_set_ends_no_wait(self) -> None:
        """As at a machine's start; ahead, and back again."""
        way.to_waiting("office")
        for ahead, wanted in ((0, 0), (90, 0), (-90, -90)):
            now = time.time() + ahead
            with mock.patch.object(time, "time", lambda: now):
                self.assertAlmostEqual(self.way._gone(), wanted, delta=20)

    def test_one_that_is_stopped(self) -> None:
        way.to_waiting("office")
        caller = self.asking(b"x")
        began = time.monotonic()
        way.close("office")
        self.assertEqual(all_of(caller), b"")
        self.assertLess(time.monotonic() - began, 15.0)
        self.assertRaises(FileNotFoundError, self.asking)
        way.close("office")

    def test_nothing_but_a_socket_gets_the_name(self) -> None:
        self.assertFalse(way.to_server("office"))
        place = way.socket_of("office")
        os.symlink(self.own, place)
        self.assertFalse(way.to_server("office"))
        os.unlink(place)
        open(place, "w").close()
        self.assertFalse(way.to_server("office"))
        os.unlink(place)
        self.assertFalse(way.to_server("invoices"))
        self.server()
        self.assertTrue(way.to_server("office"))
        self.assertTrue(way.to_server("office"))
        self.assertEqual(os.listdir(os.path.dirname(self.place)), ["socket"])
        self.assertEqual(stat.S_IMODE(os.stat(os.path.dirname(self.place)).st_mode), 0o710)

    def leaves(self, jobs: str, mark: bool = False) -> list[tuple[str, ...]]:
        """What is asked of systemd when a server is to end."""
        asked = []

        def systemctl(*words: str) -> tuple[int, str]:
            asked.append(words)
            return 0, jobs

        place = server.mark_of("rooms@office")
        if mark:
            open(place, "w").close()
        with mock.patch.object(server, "systemctl", systemctl):
            awaited.leave("office")
        if mark:
            os.unlink(place)
        return [words for words in asked if words[0] == "stop"]

    def leads_to(self) -> str:
        try:
            found = os.stat(self.place).st_ino
        except FileNotFoundError:
            return ""
        return "waiting" if found == os.stat(self.own).st_ino else "server"

    def test_a_server_that_has_ended(self) -> None:
        """Nobody waits for one that ended before it answered anybody. (No process has the
        number.)"""
        with mock.patch.dict(os.environ, MAINPID=str(1 << 30)), self.assertRaises(Stop):
            awaited.arrive("office")
        self.assertEqual(self.leads_to(), "")

    def test_a_server_that_never_comes(self) -> None:
        """Systemd starts it again and again, which is no failure to it: that is told, and once."""
        told: list[str] = []

        def ends(*rows: tuple[float, int]) -> None:
            for now, count in rows:
                with mock.patch.object(time, "monotonic", return_value=now):
                    self.leaves("")
                self.assertEqual(len(told), count, now)

        with mock.patch.object(mail, "warn", told.append):
            ends((1.0, 0), (30.0, 0), (31.5, 1), (99.0, 1))
            # One that somebody stops isn't missed, and one that comes back may go again.
            self.leaves("7 rooms@office.service stop running")
            ends((200.0, 1), (229.0, 1), (231.0, 2))
        self.assertEqual(told, ["rooms@office.service"] * 2)
        self.server()
        with mock.patch.object(awaited, "_answer", return_value=(200, b"{}")):
            awaited.arrive("office")
        self.assertFalse(os.path.exists(f"{self.run_}/rooms-down.office"))

    def test_a_server_that_takes_long(self) -> None:
        told: list[str] = []
        self.server()
        with mock.patch.object(mail, "warn", told.append), \
                mock.patch.object(awaited, "_answer", side_effect=[None] * 4 + [(200, b"{}")]), \
                mock.patch.object(time, "monotonic", side_effect=[5.0, 94.0, 96.0, 200.0]):
            awaited.arrive("office")
        self.assertEqual(told, ["rooms@office.service"])

    def answering(self) -> threading.Thread:
        """A server that has whom to answer before the question of who leaves."""
        room = self.server()
        way.to_server("office")
        self.asking(b"GET /doc/f HTTP/1.1\r\n\r\n")

        def answer() -> None:
            for _ in range(3):
                peer, _ = room.accept()
                self.said.append(peer.recv(100)[:8])
                peer.sendall(b"HTTP/1.1 200 OK\r\nContent-Length: 2\r\n\r\n{}")
                peer.close()
            room.close()

        self.said: list[bytes] = []
        going = threading.Thread(target=answer)
        going.start()
        return going

    def test_who_asked_before_is_answered(self) -> None:
        going = self.answering()
        self.assertEqual(self.leaves("7 rooms@office.service restart running"), [])
        going.join(20)
        self.assertEqual(self.said, [b"GET /doc", b"GET /can", b"GET /can"])
        self.assertEqual(self.leads_to(), "waiting")
        # A kill: it is as if it had been told before.
        self.assertEqual(self.leaves(""), [])
        self.assertEqual(self.leads_to(), "")

    def test_a_verb_stops_it(self) -> None:
        going = self.answering()
        self.assertEqual(self.leaves("7 rooms@office.service stop running", mark=True), [])
        going.join(20)
        self.assertEqual(self.leads_to(), "waiting")

    def test_somebody_stops_it(self) -> None:
        going = self.answering()
        self.assertEqual(self.leaves("6 rooms@office-two.service start waiting\n"
                                     "7 rooms@office.service stop running"), [
            ("stop", "--no-block", "rooms-door@office.socket", "rooms-door@office",
             "rooms-wait@office.socket")])
        going.join(20)
        self.assertEqual(self.leads_to(), "")

    def test_a_server_that_hangs_keeps_nobody(self) -> None:
        self.server()
        way.to_server("office")
        with mock.patch.object(waits, "LAST", 0.3):
            began = time.monotonic()
            self.leaves("7 rooms@office.service restart running")
        self.assertLess(time.monotonic() - began, 5)
        self.assertEqual(self.leads_to(), "waiting")


class Idle(Over):
    def becomes(self, wanted: bool) -> None:
        ends = time.monotonic() + 20
        while self.way.is_any() != wanted and time.monotonic() < ends:
            time.sleep(0.01)
        self.assertEqual(self.way.is_any(), wanted)

    def test_it_stays_while_somebody_waits(self) -> None:
        with mock.patch.object(services, "serve") as serve:
            wait.serve(self.waiting, self.way)
        self.assertEqual(serve.call_args.args[4], self.way.is_any)
        way.to_waiting("office")
        self.becomes(False)
        caller = self.asking(b"x")
        self.becomes(True)
        room = self.server()
        way.to_server("office")
        peer, _ = room.accept()
        self.assertEqual(peer.recv(100), b"x")
        self.assertTrue(self.way.is_any())
        peer.sendall(DONE)
        peer.close()
        self.assertEqual(all_of(caller), DONE)
        self.becomes(False)


if __name__ == "__main__":
    unittest.main()
