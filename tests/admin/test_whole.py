"""What of a copy of a backup counts as whole."""
import contextlib
import io
import os
import shutil
import unittest

from rooms_admin.host import safe
from rooms_admin.backup import backups
from rooms_admin.cli.report import Refused
from test_backups import Folder


class Whole(Folder):
    """A backup with a log, and copies of it that were cut off."""

    def made(self) -> tuple[str, str]:
        """As a night leaves it, and the place of a copy."""
        place = f"{self.backups}/office/2026-11-20.040000"
        os.makedirs(place, 0o700)
        backups.begin(place)
        self.first = os.stat(f"{place}/files-of-run").st_ino
        for name, size in (("office.rooms", 8192), ("office.rooms-wal", 5000)):
            with open(f"{place}/{name}", "wb") as made:
                made.write(b"SQLite format 3\0\x10\0" + bytes(10) + b"\0\0\0\2" + bytes(size - 32))
        with safe.opened(safe.own_folder(place)) as within:
            backups.give_number(within, 7, "office.rooms")
        self.assertEqual(self.counts(), (7, []))
        return place, f"{self.backups}/office/2026-11-20.040001"

    def counts(self) -> tuple[int, list[str]]:
        found = backups.look(self.room)
        return (found.backups[-1].number if found.backups else -1,
                [one.partition(" ")[2] for one in found.wrong])

    def copied(self, source: str, target: str, *names: str) -> None:
        """Without times, as many programs and disks do; the source is gone."""
        os.mkdir(target, 0o700)
        for name in names:
            shutil.copyfile(f"{source}/{name}", f"{target}/{name}")
        shutil.rmtree(source)

    def test_a_copy_by_numbers_of_the_disk_has_the_list_first(self) -> None:
        place, copy = self.made()
        self.assertEqual(os.stat(f"{place}/files-of-run").st_ino, self.first)
        self.copied(place, copy, "files-of-run", "office.rooms")
        wrong = f"whole: {copy}: office.rooms-wal has 0 of 5000 bytes"
        self.assertEqual(self.counts(), (-1, [wrong]))
        with self.assertRaisesRegex(Refused, "not whole: .*office.rooms-wal has 0 of 5000 bytes"):
            backups.find(self.room, copy)

    def test_without_times_all_but_the_log(self) -> None:
        place, copy = self.made()
        self.copied(place, copy, "files-of-run", "office.rooms", "run")
        os.utime(f"{copy}/files-of-run", (0, 0))
        self.assertEqual(self.counts()[0], -1)

    def test_cut_off_in_a_file(self) -> None:
        place, _ = self.made()
        os.utime(f"{place}/files-of-run", (0, 0))
        for name, size in (("office.rooms-wal", 3000), ("office.rooms", 5000)):
            os.truncate(f"{place}/{name}", size)
            self.assertIn(f"{name} has {size} of ", self.counts()[1][0])
        os.truncate(f"{place}/files-of-run", 0)
        self.assertEqual(self.counts()[1], [f"whole: {place}: files-of-run is empty"])

    def test_whoever_looked_into_it_has_brought_in_the_log(self) -> None:
        place, _ = self.made()
        os.unlink(f"{place}/office.rooms-wal")
        with open(f"{place}/office.rooms", "r+b") as room:
            room.seek(5000)
            room.write(b"changed")
        os.utime(f"{place}/office.rooms", (0, 0))
        self.assertEqual(self.counts(), (7, []))
        # It says itself how many pages of 4,096 bytes it has.
        with open(f"{place}/office.rooms", "r+b") as room:
            room.seek(28)
            room.write(b"\0\0\0\1")
            room.truncate(4096)
        self.assertEqual(self.counts(), (7, []))

    def test_one_that_has_nothing_of_a_run_is_told(self) -> None:
        bare = self.backup("2026-11-21.040000")
        for place, wanted in ((bare, f"no number: {bare} is of an early version, or"),
                              (self.made()[0], ""), (self.home, "")):
            said = io.StringIO()
            with contextlib.redirect_stderr(said):
                backups.tell_bare(place)
            self.assertIn(wanted, said.getvalue())
            self.assertEqual(bool(wanted), bool(said.getvalue()))


if __name__ == "__main__":
    unittest.main()
