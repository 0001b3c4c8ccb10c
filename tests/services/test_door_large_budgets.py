"""What documents of more than 1 MiB may take while they come, of one user and of all."""
import unittest
from unittest import mock

from rooms_services.door.large import arriving
from rooms_services.door.large.arriving import Arrivals, Arriving
from rooms_services.door.large.pieces import Uploads
from rooms_services.room import parts
from rooms_services.room.answers import Answer, Stop


class Budgets(unittest.TestCase):
    def setUp(self) -> None:
        self.now = 0.0
        self.arrivals = self.of_all(largest=1000)

    def of_all(self, largest: int) -> Arrivals:
        found = Arrivals(largest=largest, clock=lambda: self.now)
        self.addCleanup(found.clear)
        return found

    def refused(self, status: int, user: str, size: int = 900) -> None:
        with self.assertRaises(Stop) as stop:
            self.arrivals.begin(user, size, 100, 0.0)
        self.assertEqual(stop.exception.status, status)

    def begin(self, user: str, size: int = 900) -> Arriving:
        one = self.arrivals.begin(user, size, 100, 0.0)
        self.arrivals.add(one, size, 0.0)
        return one

    def test_of_one_user(self) -> None:
        own = [self.begin("pat") for _ in range(arriving.EACH)]
        self.refused(429, "pat")
        self.begin("bob")
        self.now = 20.0
        self.arrivals.begin("pat", 900, 100, 0.0)
        self.assertEqual([one.is_over for one in own], [True, *[False] * (arriving.EACH - 1)])

    def test_of_all(self) -> None:
        arrivals = self.of_all(1_000_000)
        for number in range(arriving.ALL):
            arrivals.begin(f"u{number}", 900, 100, 0.0)
        with self.assertRaises(Stop) as stop:
            arrivals.begin("bob", 900, 100, 0.0)
        self.assertEqual(stop.exception.status, 503)

    def test_bytes_of_all(self) -> None:
        """What has come counts, not what was said: who sends nothing keeps none from others."""
        some = [self.begin(f"u{number}") for number in range(8)]
        for number in range(8, 40):
            self.arrivals.begin(f"u{number}", 900, 100, 0.0)
        last = self.arrivals.begin("last", 900, 100, 0.0)
        with self.assertRaises(Stop) as stop:
            self.arrivals.add(last, 900, 0.0)
        self.assertEqual(stop.exception.status, 503)
        self.assertEqual(self.arrivals.count()[1], 7200)
        self.now = 20.0
        self.arrivals.hold(some[0])
        self.arrivals.add(last, 900, 0.0)
        # (those that have nothing are the slowest as much as the others)
        self.assertTrue(some[1].is_over)
        self.assertFalse(some[0].is_over)
        self.assertLessEqual(self.arrivals.count()[1], 8000)

    def test_two_who_fill_it(self) -> None:
        """Each has half of what the others leave, and everybody one document."""
        for user, places in ("pat", 4), ("bob", 2), ("ella", 1), ("alice", 1):
            for _ in range(places):
                self.begin(user, 1000)
            with self.assertRaises(Stop) as stop:
                self.begin(user, 1000)
            self.assertIn(stop.exception.status, (429, 503))
        self.assertEqual(self.arrivals.count()[1], 8000)

    def test_what_is_never_ended(self) -> None:
        one, size = self.begin("pat"), 200_000_000
        long = self.of_all(size)
        other = long.begin("pat", size, 100, 0.0)
        self.now = parts.SECONDS + 1
        for each in (self.arrivals, long):
            each.forget()
        self.assertEqual((one.is_over, other.is_over), (True, False))
        self.now = size / parts.SLOWEST + 1
        long.forget()
        self.assertEqual((self.arrivals.count(), long.count()), ((0, 0), (0, 0)))

    def test_who_comes_forward_stays(self) -> None:
        brisk, slow = (self.arrivals.begin(user, 900, 100, 0.0) for user in ("pat", "bob"))
        for _ in range(8):
            self.now += 1.0
            self.arrivals.add(brisk, 100, 0.0)
            self.arrivals.add(slow, 1, 0.0)
        self.assertEqual((brisk.is_slow(self.now), slow.is_slow(self.now)), (False, True))

    def test_answers_that_are_kept(self) -> None:
        uploads = Uploads(self.arrivals)
        with mock.patch("rooms_services.door.large.pieces.LARGEST", 500), \
                mock.patch("rooms_services.door.large.pieces.ENDED", 3), \
                mock.patch("rooms_admin.room.in_parts.LARGEST", 500):
            names = [self._whole(uploads) for _ in range(5)]
            told = []
            for name in names:
                try:
                    told.append(uploads.finish("pat", name, ("d",), lambda _: Answer(500)).status)
                except Stop as stop:
                    told.append(stop.status)
        self.assertEqual(told, [404, 404, 201, 201, 201])

    def _whole(self, uploads: Uploads) -> str:
        name = uploads.begin("pat", 900)
        uploads.put("pat", name, "1", bytes(500))
        uploads.put("pat", name, "2", bytes(400))
        said = uploads.finish("pat", name, ("d",), lambda one: Answer(
            201 if one.reader()(900) == bytes(900) else 500))
        self.assertEqual(said.status, 201)
        return name


if __name__ == "__main__":
    unittest.main()
