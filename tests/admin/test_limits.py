"""How much a room may have, and what is told of one that has too much for its machine."""
import argparse
import contextlib
import dataclasses
import io
import os
import resource
import struct
import subprocess
import sys
import types
import typing
import unittest
import unittest.mock
from unittest.mock import patch

sys.path.insert(0, os.path.join(os.path.dirname(__file__), "..", "..", "admin"))

from rooms_admin.cli import report  # noqa: E402
from rooms_admin.host import root  # noqa: E402
from rooms_admin.room import fullness, limit, needs, server, settings, size  # noqa: E402
from rooms_admin.passwords import passwords  # noqa: E402
from rooms_admin.site import connections, template  # noqa: E402
from rooms_admin.backup import night, texts  # noqa: E402
from rooms_admin.directory import groups  # noqa: E402
from rooms_admin.check import watched  # noqa: E402
from rooms_admin.room.needs import Need  # noqa: E402
from test_backups import Folder  # noqa: E402

# Nothing follows from these copies.
NOTHING = night.Beside(lambda place, version: [], lambda room: ("", False), [])


class Night(Folder):
    def night(self, status: int, text: str, word: str) -> list[str]:
        run = night.Night(self.room, NOTHING)
        run.kept = self.backup("2026-11-30.040000", 1)
        with patch.object(run, "on_copy", return_value=(status, b"", text)), \
                contextlib.redirect_stderr(io.StringIO()):
            run.write_text("records.csv", word)
        return run.failures

    def test_very_many_records_are_named(self) -> None:
        """Where the program has no memory for them, and where it is killed for it."""
        for status, text in ((3, "fault: memory, with MEMORY=100"), (-9, "")):
            told, = self.night(status, text, "audit")
            self.assertIn("each record takes 525 bytes of memory; the backup ", told)
        for status, text, word in ((3, "fault: database", "audit"), (-9, "", "dump")):
            told, = self.night(status, text, word)
            self.assertNotIn("record takes", told)
        self.assertEqual(self.night(0, "", "audit"), [])


class Review(Folder):
    def test_rows_without_end(self) -> None:
        """Names in lists times folders: whoever manages a folder decides how many."""
        endless = f"{self.home}/endless"
        with open(endless, "x", encoding="ascii") as made:
            made.write("#!/bin/sh\nexec yes '/a,folder,bob,r,no'\n")
        os.chmod(endless, 0o755)
        run = night.Night(self.settings("office", PROGRAM=endless), NOTHING)
        run.kept = self.backup("2026-11-30.040000", 1)
        run.copied, run.memory = f"{self.home}/copy", 100
        with open(run.copied, "w", encoding="ascii"), \
                contextlib.redirect_stderr(io.StringIO()):
            run.write_text(texts.REVIEW, "review", "/")
        self.assertIn(f"it wrote more than 32 MB; the backup {run.kept} is sound, but it has no "
                      "review.csv", run.failures[0])
        self.assertNotIn(texts.REVIEW, os.listdir(run.kept))


class Needs(Folder):
    """What nights have measured."""

    def setUp(self) -> None:
        super().setUp()
        os.makedirs(f"{self.home}/proc")
        self.has(0, 0)
        for module, name, value in ((needs, "FOLDER", f"{self.home}/var/lib/rooms-need"),
                                    (root, "ROOT", self.home),
                                    (limit, "_allowed", lambda room, unit: self.allowed[unit]),
                                    (limit, "_count", lambda: 1)):
            patched = patch.object(module, name, value)
            patched.start()
            self.addCleanup(patched.stop)
        self.allowed: dict[str, int | None] = {"rooms@office": 1024, "rooms.slice": None}

    def has(self, memory: int, swap: int) -> None:
        with open(f"{self.home}/proc/meminfo", "w", encoding="ascii") as file:
            file.write(f"MemTotal: {memory << 10} kB\nSwapTotal:       {swap << 10} kB\n")

    def test_they_are_kept(self) -> None:
        self.assertEqual((needs.all_of("office"), needs.last("office")), ([], None))
        first, second = Need("2026-11-29.040000", 40, 95), Need("2026-11-30.040000", 49, 282)
        for one in (first, second):
            before = needs.stamp("office")
            needs.put("office", one)
            self.assertNotEqual(needs.stamp("office"), before)
        self.assertEqual(needs.all_of("office"), [first, second])
        self.assertEqual(needs.of_night("office", first.night), first)
        # An hourly copy is no night.
        self.assertEqual(needs.of_night("office", "2026-11-29.130000"), second)
        self.assertEqual(needs.all_of("invoices"), [])
        with patch.object(needs, "_MOST", 3):
            for number in range(9):
                needs.put("office", Need(f"2026-12-0{number}.040000", number, 1))
        self.assertEqual([one.used for one in needs.all_of("office")], [6, 7, 8])
        self.assertEqual(os.stat(needs.FOLDER).st_mode & 0o777, 0o755)

    def test_what_is_no_line_says_nothing(self) -> None:
        os.makedirs(needs.FOLDER)
        with open(f"{needs.FOLDER}/office", "wb") as file:
            file.write(b"\xff\n2026-11-30.040000 x 1\n2026-11-30.040000 49 282 1\n"
                       b"2026-11-30.040000 49 282\n2026-11-30.040000 123456789 1\n")
        self.assertEqual(needs.all_of("office"), [Need("2026-11-30.040000", 49, 282)])

    def test_records_count(self) -> None:
        """By the table of what starts were seen to take: documents need what their bytes say, a
        million records 282 MB for 49, and 4.3 millions more than there is."""
        self.assertEqual(limit.that_starts(self.room), 816)
        for used, memory, most in ((404, 540, 816), (200, 331, 816), (1, 30, 816), (10, 47, 816),
                                   (49, 282, 49 + (1024 - 32 - 282) // 2),
                                   (223, 1117, 223 - 63), (10, 5000, 1)):
            needs.put("office", Need("2026-11-30.040000", used, memory))
            self.assertEqual(limit.that_starts(self.room), most)
        # It counts in a given LIMIT no more than bytes do.
        self.room.limit = "500"
        self.assertEqual(limit.of(self.room), 500)
        self.allowed["rooms@office"] = None
        self.assertEqual(limit.that_starts(self.room), None)

    def seen(self, used: int) -> list[tuple[int, str]]:
        with patch.object(size.Used, "look", return_value=used << 20), \
                patch.object(watched, "_space", return_value=(0, "space")):
            return watched.see_disk(self.room)[1:]

    def test_the_check(self) -> None:
        self.assertEqual(self.seen(400), [(0, "400 of 816 MB in use")])
        needs.put("office", Need("2026-11-30.040000", 223, 1117))
        self.assertEqual(self.seen(223), [
            (2, "with 223 MB in use rooms@office may not start again: its MemoryMax is enough for "
             "160 MB, and a start with the 223 MB of last night took 1117"),
            (2, "223 of 160 MB in use")])

    def test_swap_that_is_missing(self) -> None:
        self.has(2000, 0)
        self.assertEqual(self.seen(600), [(0, "600 of 816 MB in use")])
        self.has(1500, 0)
        told = (1, "the nightly run needs 793 MB beside the server: 342 MB of swap are missing")
        self.assertEqual(self.seen(600), [told, (0, "600 of 816 MB in use")])
        self.has(1500, 400)
        self.assertEqual(len(self.seen(600)), 1)
        # Records have what the night took, and twice what came since.
        needs.put("office", Need("2026-11-30.040000", 49, 282))
        self.has(800, 0)
        self.assertEqual(self.seen(59)[0], (
            1, "the nightly run needs 302 MB beside the server: 60 MB of swap are missing"))

    def test_a_watch_goes_by_a_night(self) -> None:
        with patch.object(fullness, "Reader"), patch.object(fullness, "FOLDER", self.home):
            watch = fullness.Watch(self.room)
            self.assertEqual(watch.limit, 816)
            needs.put("office", Need("2026-11-30.040000", 49, 282))
            with patch.object(watch.used, "look", return_value=0):
                watch.look()
            self.assertEqual(watch.limit, 404)

    def test_a_night_writes_it_down(self) -> None:
        run = night.Night(self.room, NOTHING)
        run.date = "2026-11-30.040000"
        run.kept = self.backup(run.date, 1)
        with open(f"{run.kept}/office.rooms", "wb") as file:
            file.write(struct.pack(">16sH10xI4xI", b"SQLite format 3\0", 4096, 2560, 0))
        with patch.object(resource, "getrusage") as took:
            took.return_value.ru_maxrss = 50 << 10
            run.note_need()
        self.assertEqual(needs.all_of("office"), [Need(run.date, 10, 50)])
        self.assertEqual(run.failures, [])
        os.unlink(f"{needs.FOLDER}/office")
        os.rmdir(needs.FOLDER)
        open(needs.FOLDER, "w").close()
        with contextlib.redirect_stderr(io.StringIO()):
            run.note_need()
        self.assertIn("rooms-need can't be written: ", run.failures[0])


class Noted(Folder):
    def test_a_watch_asks_nobody(self) -> None:
        """What systemd says of a server's memory is written down for it, in whatever order."""
        room = dataclasses.replace(self.settings("office"), limit="")
        for noted, wanted in (
                ("MemoryMax=1073741824\nId=rooms@office.service\n\nId=rooms.slice\n"
                 "MemoryMax=infinity\n", 816),
                ("Id=rooms@office.service\nMemoryMax=infinity\n\nMemoryMax=2147483648\n"
                 "Id=rooms.slice\n", None)):
            with open(f"{self.home}/{room.name}", "w", encoding="ascii") as out:
                out.write(noted)
            with patch.object(limit, "_NOTED", self.home), patch.object(root, "ROOT", self.home), \
                    patch.object(os, "geteuid", lambda: 65534), \
                    patch.object(limit, "systemctl", side_effect=AssertionError):
                self.assertEqual(limit.of(room), wanted)


class Holders(Folder):
    def test_files_of_other_accounts_are_not_looked_at(self) -> None:
        """Any account has as many open as it wants, and the server rests meanwhile."""
        nobody = 65534
        with open(self.room.file, "wb") as file:
            for user in [os.geteuid(), *[nobody] * (os.geteuid() == 0)]:
                child = subprocess.Popen(["sleep", "60"], stdin=file, user=user)
                self.assertEqual(server.has_open(child.pid, self.room.file), user != nobody)
                child.kill()
                child.wait()


class Guests(Folder):
    """Somebody came into the directory by the name of a guest: each would be the other."""

    def asked(self) -> typing.Any:
        def search(_base: str, _whole: bool, filter_: str, _wanted: list[str]) -> list[typing.Any]:
            found = types.SimpleNamespace(values={"uid": ["Eve"]})
            return [found] if "(uid=eve)" in filter_ else []
        return types.SimpleNamespace(where=types.SimpleNamespace(base="", name="uid"),
                                     quoted=str, search=search)

    def letting(self, lets: bool) -> settings.Room:
        return dataclasses.replace(self.settings("office"), passwords="directory", guests=lets)

    def test_they_get_no_group(self) -> None:
        run = groups.Run(self.letting(True), argparse.Namespace(dry_run=False, force=False),
                         contextlib.ExitStack())
        with patch.object(passwords, "users", return_value={"eve", "pat"}):
            self.assertEqual(run.without_guests(self.asked(), {("hr", "eve"), ("hr", "bob")}),
                             {("hr", "bob")})
            self.assertRegex(run.failures[0], "^two passwords: eve of office are in the directory")
            self.assertEqual(run.doubled, ["eve"])
            run.room = self.letting(False)
            self.assertEqual(run.without_guests(self.asked(), {("hr", "eve")}), {("hr", "eve")})

    def test_they_keep_what_they_have(self) -> None:
        """As where an office lets guests in and has left passwords of before in the file."""
        now = {("hr", "eve"), ("hr", "bob"), ("hr", "kim"), ("staff", "eve")}
        for stay, going in ((["eve"], {("hr", "kim")}), ([], {("hr", "kim"), ("hr", "eve")})):
            self.assertEqual(groups.compare(now, {("hr", "bob"), ("hr", "ann")}, {"hr": "h"}, stay),
                             ({("hr", "ann")}, going, now - {("hr", one) for one in (
                                 "eve", "bob", "kim") if one not in stay}))

    def test_check_says_it(self) -> None:
        site = types.SimpleNamespace(shown=[self.letting(True), self.letting(False)])
        with patch.object(passwords, "users", return_value={"eve"}), \
                patch.object(template, "gather", return_value=site), \
                patch.object(settings, "directory", return_value=None), \
                patch.object(watched, "Directory", lambda _: self.asked()):
            (level, said), = watched.see_guests()
        self.assertEqual((level, said[:20]), (2, "two passwords: eve o"))


class Typed(unittest.TestCase):
    def test_the_end_of_what_is_typed(self) -> None:
        """Ctrl-D where a password is asked for."""
        with patch("getpass.getpass", side_effect=EOFError), \
                contextlib.redirect_stderr(io.StringIO()), \
                self.assertRaises(report.Interrupted):
            report.secret("New password of greta: ")


class ManyPasswords(Folder):
    def test_users_of_a_file_that_is_full_can_go(self) -> None:
        file, line = f"{self.home}/passwords", b"$2y$05$" + b"x" * 53
        rows = b"".join(b"user%06d:%s\n" % (one, line) for one in range(116000))
        for data in (rows + b"#" * ((8 << 20) - len(rows) - 1) + b"\n", rows[:7 << 20] * 2):
            with open(file, "wb") as made:
                made.write(data)
            with self.assertRaisesRegex(report.Refused, "too many passwords: .* more than 8 MB"):
                passwords.put_lines(file, {"dana": line})
            self.assertEqual(passwords.put_lines(file, {"user000007": None}), {"user000007"})
            self.assertNotIn("user000007", passwords.users(file))
            passwords.put_lines(file, {"user000008": line[:-1]})


class Connections(unittest.TestCase):
    def test_those_of_one_address_fit_into_a_quarter_of_the_memory(self) -> None:
        with patch.object(connections, "of_process", return_value=768), \
                patch.object(connections, "_processes", return_value=4):
            for gigabytes, most in ((1, 170), (2, 341), (4, 682), (16, 1536)):
                pages = {"SC_PAGE_SIZE": 4096, "SC_PHYS_PAGES": gigabytes << 18}
                with patch.object(os, "sysconf", pages.__getitem__):
                    self.assertEqual(connections.most("", settings.Front()), most)
                    self.assertEqual(connections.most("/image", settings.Front()), 1536)
                    own = settings.Front(connections="2000")
                    self.assertEqual(connections.most("", own), 2000)


if __name__ == "__main__":
    unittest.main()
