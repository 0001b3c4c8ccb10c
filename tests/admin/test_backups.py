"""Which backups count, and whose the program is that works on copies of them."""
import argparse
import contextlib
import dataclasses
import io
import os
import sys
import tempfile
import time
import unittest
import unittest.mock
from collections.abc import Iterator
from typing import IO

sys.path.insert(0, os.path.join(os.path.dirname(__file__), "..", "..", "admin"))

from rooms_admin.host import safe, tempdirs, waiting  # noqa: E402
from rooms_admin.room import program, published, server, settings  # noqa: E402
from rooms_admin.passwords import passwords  # noqa: E402
from rooms_admin.backup import backups, hours, texts  # noqa: E402
from rooms_admin.lists import dump  # noqa: E402
from rooms_admin.people import known, members, offered  # noqa: E402
from rooms_admin.directory import groups  # noqa: E402
from rooms_admin.backup import verb_backups, verb_latest  # noqa: E402
from rooms_admin.cli.report import Refused, Stop  # noqa: E402
from rooms_admin.backup.backups import Backup  # noqa: E402


class Folder(unittest.TestCase):
    """A room office, with BACKUPS in a folder of its own."""

    def setUp(self) -> None:
        made = tempfile.TemporaryDirectory()
        self.addCleanup(made.cleanup)
        self.home = made.name
        self.backups = f"{made.name}/backups"
        os.mkdir(self.backups, 0o700)
        self.room = self.settings("office")

    def settings(self, name: str, **more: str) -> settings.Room:
        path = f"{self.home}/{name}.conf"
        values = {"FILE": f"{self.home}/{name}.rooms", "BACKUPS": self.backups,
                  "PROGRAM": "/bin/true", **more}
        with open(path, "w", encoding="ascii") as file:
            file.write("".join(f"{one}={value}\n" for one, value in values.items()))
        return settings.room(path)

    def backup(self, name: str, number: object = "", room: str = "office", own: bool = True,
               lists: str = "") -> str:
        place = f"{self.backups}/{room}/{name}" if own else f"{self.backups}/{name}"
        os.makedirs(place, 0o700, exist_ok=True)
        for file, text in ((f"{room}.rooms", "x"), ("run", f"number {number}\n" if number else ""),
                           ("lists.txt", lists)):
            if text:
                with open(f"{place}/{file}", "w", encoding="ascii") as made:
                    made.write(text)
        return place


class Hours(Folder):
    """Hourly copies, by when they were made."""

    def made(self, name: str, at: float, number: int) -> Backup:
        place = self.backup(f"hours/{name}", number)
        os.utime(f"{place}/run", (at, at))
        return hours.found(self.room).backups[-1]

    def in_berlin(self) -> None:
        """Where clocks go back for an hour at the end of October."""
        zone = unittest.mock.patch.dict(os.environ, {"TZ": "CET-1CEST,M3.5.0,M10.5.0/3"})
        zone.start()
        time.tzset()
        self.addCleanup(time.tzset)
        self.addCleanup(zone.stop)

    def test_one_is_due_after_an_hour(self) -> None:
        self.assertTrue(hours.is_due([], 0))
        at = 1_793_613_600
        made = self.made(time.strftime("%F.%H%M%S", time.localtime(at)), at, 1)
        for after, is_due in ((0, False), (3599, False), (3600, True), (-59, False), (-61, True)):
            self.assertEqual(hours.is_due([made], at + after), is_due, after)

    def test_an_hour_that_a_night_has_twice(self) -> None:
        """Its name is the same in both; none is due in the next minutes of either."""
        self.in_berlin()
        for number, at in ((1, 1_792_888_200), (2, 1_792_891_800)):
            made = self.made("2026-10-25.023000", at, number)
            self.assertEqual(backups.made(made), at)
            self.assertFalse(hours.is_due([made], at + 300))
            self.assertTrue(hours.is_due([made], at + 3600))

    def test_when_a_name_says_that_it_was_made(self) -> None:
        """One answer for all: the hours, the check, the nights that users see. A copy that was
        brought here may have other times."""
        self.in_berlin()
        for name, wanted in (("2026-10-25.023000", [1_792_888_200, 1_792_891_800]),
                             ("2026-10-25.033000", [1_792_895_400]), ("2026-03-29.023000", []),
                             ("2026-02-30.000000", []), ("9999-99-99.999999", []), ("x", [])):
            self.assertEqual(backups.moments(name), wanted, name)
        brought = self.made("2026-10-25.033000", 1_800_000_000, 3)
        self.assertEqual(backups.made(brought), 1_792_895_400)
        os.unlink(f"{brought.place}/run")
        twice = Backup(0, "2026-10-25.023000", brought.above)
        self.assertEqual(backups.made(twice), 1_792_888_200)

    def test_one_without_a_number(self) -> None:
        place = self.backup("hours/2026-11-02.100000")
        os.utime(place, (1_000_000, 1_000_000))
        self.assertTrue(hours.is_due(hours.found(self.room).backups, time.time() + 1e8))

    def test_what_they_want(self) -> None:
        """A further one is made before the oldest goes, and only beside as much again."""
        with open(self.room.file, "w", encoding="ascii") as file:
            file.truncate(1000)
        for kept, wanted in ((0, 4000), (1, 3000), (2, 2000), (3, 2000), (9, 2000)):
            self.room.hours = 3
            copies = [Backup(number, "x", "/") for number in range(kept)]
            self.assertEqual(hours.wants(self.room, copies), wanted + hours.SPARE, kept)


class Found(Folder):
    def here(self, pairs: set[dump.Pair], when: str = "") -> known.Known:
        return known.here(self.room, pairs, known.newest_backup(self.room),
                          backups.moments(when)[0] if when else None)

    def test_a_room_has_a_folder_of_its_own(self) -> None:
        self.assertEqual(backups.folder(self.room), f"{self.backups}/office")
        # As rooms-admin add names it.
        self.assertEqual(backups.below("/srv/rooms/invoices/", "invoices"), "/srv/rooms/invoices")
        self.assertEqual(backups.below("/", "invoices"), "/invoices")
        for odd in ("/etc/rooms/..conf", "/etc/rooms/...conf", "/etc/rooms/.conf"):
            self.assertEqual(settings.name_of(odd), "room")

    def test_no_room_sees_those_of_another(self) -> None:
        """Two rooms with one BACKUPS, as docs/backup.md says: a later night of the other one is not
        the newest of this one, in both places."""
        invoices = self.settings("invoices")
        for own in (False, True):
            mine = self.backup(f"2026-01-0{1 + own}.040000", 1 + own, own=own, lists="member a b\n")
            self.backup(f"2026-01-0{1 + own}.040001", 7 + own, "invoices", own=own,
                        lists="member c d\n")
            self.assertEqual(backups.newest(self.room, "lists.txt"), f"{mine}/lists.txt")
            with texts.of_last(self.room, texts.LISTS) as lists:
                self.assertEqual(dump.members(lists), {("a", "b")})
        self.assertEqual([one.number for one in backups.look(invoices).backups], [7, 8])
        self.assertEqual(backups.look(self.room).wrong, [])

    def test_last_night_is_one_for_all(self) -> None:
        """Where the newest backup has no lists they are made anew, whoever asks, and nobody goes by
        those of a night before it."""
        self.backup("2026-01-01.040000", 7, lists="member a b\n")
        self.backup("2026-01-02.040000", 8)

        @contextlib.contextmanager
        def made(_room: object, folder: str, name: str) -> Iterator[IO[bytes]]:
            self.assertEqual((os.path.basename(folder), name), ("2026-01-02.040000", texts.LISTS))
            yield io.BytesIO(b"member c d\n")
        run = groups.Run(self.room, argparse.Namespace(dry_run=True, force=False),
                         contextlib.ExitStack())
        with (unittest.mock.patch.object(texts, "_made", made),
              unittest.mock.patch.object(server, "state", return_value="active"),
              unittest.mock.patch.object(published, "FOLDER", f"{self.home}/web"),
              contextlib.redirect_stderr(io.StringIO())):
            with texts.of_last(self.room, texts.LISTS) as lists:
                self.assertEqual(dump.members(lists), {("c", "d")})
            self.assertEqual(known.newest(self.room).members, {("c", "d")})
            self.assertEqual(run.known(), {("c", "d")})

    def test_who_is_in_which_group_is_known_once(self) -> None:
        """What user changes groups sees at once, until there is another file, or a newer backup."""
        self.backup("2026-01-01.040000", 7, lists="member staff alice\n")
        run = groups.Run(self.room, argparse.Namespace(dry_run=False, force=False),
                         contextlib.ExitStack())
        both = {("staff", "alice"), ("staff", "bob")}
        with open(self.room.file, "wb"), \
                unittest.mock.patch.object(server, "state", return_value="active"), \
                unittest.mock.patch.object(published, "FOLDER", f"{self.home}/web"):
            self.assertEqual((run.known(), known.newest(self.room).members),
                             (None, {("staff", "alice")}))
            with unittest.mock.patch.object(members, "change",
                                            return_value="joined 1, left 0, members 2"), \
                    unittest.mock.patch.object(passwords, "password_files", return_value=[]):
                self.assertEqual(known.change(self.room, {("staff", "alice")}, both, set()), both)
                self.assertIsNone(known.kept(self.room))
                for room in (dataclasses.replace(self.room, people=it) for it in ("no", "names")):
                    self.assertEqual(offered.write(room, self.here(both)), [])
                    self.assertEqual((run.known(), known.newest(room).members), (both, both))
            # What isn't of this file is no news for groups.
            known.keep(self.room, known.Known({("a", "b")}, 0))
            self.assertIsNone(run.known())
            with unittest.mock.patch.object(members, "change", side_effect=Stop("no")), \
                    self.assertRaises(Stop):
                known.change(self.room, set(), both, set())
            self.assertIsNone(known.kept(self.room))
            known.try_to_keep(self.room, self.here(both, "2026-01-01.050000"))
            self._another_file(run)
            self.assertEqual(run.known(), both)
            self.backup("2026-01-02.040000", 8, lists="member a night\n")
            self.assertEqual(run.known(), {("a", "night")})
            # Of an earlier version, without numbers.
            for name in ("2026-01-01.040000", "2026-01-02.040000"):
                os.unlink(f"{self.backups}/office/{name}/run")
            known.try_to_keep(self.room, self.here(both, "2026-01-02.050000"))
            self.assertEqual(run.known(), both)
            self.backup("2026-01-03.040000", 0, lists="member a later\n")
            self.assertEqual(run.known(), {("a", "later")})

    def _another_file(self, run: groups.Run) -> None:
        """In the place of the room's, for a while: of it only the backup is known."""
        os.replace(self.room.file, f"{self.room.file}.before")
        with open(self.room.file, "wb"):
            self.assertEqual((run.known(), known.newest(self.room).members),
                             (None, {("staff", "alice")}))
        os.replace(f"{self.room.file}.before", self.room.file)

    def test_an_earlier_version_kept_what_was_known(self) -> None:
        self.backup("2026-01-01.040000", 7, lists="member staff alice\n")
        with unittest.mock.patch.object(server, "state", return_value="active"), \
                unittest.mock.patch.object(published, "FOLDER", f"{self.home}/web"):
            known.keep(self.room, self.here(set()))
            path = f"{self.home}/web/office/{known.FILE}"
            for first, wanted in ((" after 7", {("a", "b")}), (" after 6", {("staff", "alice")}),
                                  ("", {("a", "b")})):
                with open(path, "w", encoding="ascii") as file:
                    file.write(f"group,user{first}\na,b\n")
                os.utime(path, (0, 0) if first else None)
                self.assertEqual(known.newest(self.room).members, wanted, first)

    def test_those_of_an_earlier_version_count(self) -> None:
        old = self.backup("2026-03-01.040000", 3, own=False)
        new = self.backup("2026-03-02.040000", 4)
        self.assertEqual([one.place for one in backups.look(self.room).backups], [old, new])
        for word in ("2026-03-01.040000", old):
            self.assertEqual(backups.find(self.room, word), old)
        self.assertEqual(backups.find(self.room, "latest"), new)

    def test_the_newest_is_not_the_one_with_the_latest_name(self) -> None:
        """After a clock was set back: each that asks gets the same."""
        ahead = self.backup("2026-12-25.040000", 4, lists="member a old\n")
        newest = self.backup("2026-12-01.040000", 5, lists="member a new\n")
        os.utime(f"{ahead}/lists.txt", (4e9, 4e9))
        self.assertEqual(backups.find(self.room, "latest"), newest)
        self.assertEqual(backups.newest(self.room, "lists.txt"), f"{newest}/lists.txt")
        with unittest.mock.patch.object(server, "state", return_value="active"), \
                unittest.mock.patch.object(published, "FOLDER", f"{self.home}/web"):
            self.assertEqual(known.newest(self.room).members, {("a", "new")})
            # What is known since counts more, whatever the clock says.
            known.keep(self.room, self.here({("a", "newest")}))
            self.assertEqual(known.newest(self.room).members, {("a", "newest")})
            self.backup("2026-12-02.040000", 6, lists="member a night\n")
            self.assertEqual(known.newest(self.room).members, {("a", "night")})
        said = io.StringIO()
        given = argparse.Namespace(room=self.room.conf, file="lists.txt")
        with contextlib.redirect_stdout(said):
            self.assertEqual(verb_latest.run(given), 0)
        self.assertEqual(said.getvalue(), f"{self.backups}/office/2026-12-02.040000/lists.txt\n")
        given.file = "no-such.tar"
        self.assertRaises(Refused, verb_latest.run, given)

    def test_one_that_is_wrong_keeps_none_from_being_found(self) -> None:
        good = self.backup("2026-01-02.040000", 5)
        with open(f"{self.backups}/office/2026-01-01.040000", "w", encoding="ascii"):
            pass
        os.symlink(good, f"{self.backups}/office/2026-01-03.040000")
        # What a taken server had left of a folder that was its own for a while.
        os.chmod(self.backup("2026-01-04.040000", 6), 0o777)
        os.chmod(f"{self.backup('2026-01-05.040000', 7)}/office.rooms", 0o666)
        found = backups.look(self.room)
        self.assertEqual([one.place for one in found.backups], [good])
        self.assertEqual([one.removeprefix(f"no backup: {self.backups}/office/2026-01-0")
                          for one in found.wrong],
                         ["1.040000 has the name of one, and is no folder",
                          "3.040000 has the name of one, and is no folder",
                          "4.040000 is not root's alone",
                          "5.040000/office.rooms is not root's alone"])
        said = io.StringIO()
        with contextlib.redirect_stderr(said):
            self.assertEqual(backups.find(self.room, "latest"), good)
        self.assertEqual(said.getvalue().count(": no backup: "), 4)
        said = io.StringIO()
        with contextlib.redirect_stdout(said), contextlib.redirect_stderr(io.StringIO()):
            given = argparse.Namespace(room=self.room.conf, json=False, wanted="")
            self.assertEqual(verb_backups.run(given), 1)
        self.assertEqual(said.getvalue(), f"     5      1 MB  {good}  without records.csv, "
                         "lists.txt, review.csv\n")

    def test_numbers_that_no_run_has_given(self) -> None:
        """The largest one made each later backup the oldest: a night removed the last good one."""
        good = self.backup("2026-01-02.040000", 5)
        for number in ("999999999", "1000000000", "999999000", "-1", "06"):
            bad = self.backup("2026-01-03.040000", number)
            found = backups.look(self.room)
            self.assertEqual(found.wrong,
                             [f"bad number: {bad}/run is no number that a run has given"])
            self.assertEqual(found.backups[-1].place, good)
            self.assertEqual(max(one.number for one in found.backups), 5)
        os.unlink(f"{bad}/run")
        os.symlink(f"{good}/run", f"{bad}/run")
        self.assertEqual(len(backups.look(self.room).wrong), 1)
        os.unlink(f"{bad}/run")
        os.mkfifo(f"{bad}/run")
        self.assertEqual(len(backups.look(self.room).wrong), 1)
        os.unlink(f"{bad}/run")
        self.backup("2026-01-03.040000", 7)
        self.assertIn("numbers jump: ", backups.jump(backups.look(self.room)))
        self.backup("2026-01-03.040000", 6)
        self.assertEqual(backups.jump(backups.look(self.room)), "")

    def test_a_disk_that_knows_no_modes(self) -> None:
        """Such as vfat: each account would read the key of the site."""
        makes = os.mkdir
        with unittest.mock.patch.object(os, "mkdir", lambda place, _: makes(place, 0o755)):
            with self.assertRaises(OSError) as said:
                backups.make_closed(f"{self.backups}/part")
        self.assertIn("umask=0077", str(said.exception))
        self.assertEqual(os.listdir(self.backups), [])
        backups.make_closed(f"{self.backups}/part")

    def test_a_word_is_a_name_in_backups_and_no_folder_here(self) -> None:
        """Root may stand in a folder of somebody else's."""
        os.makedirs(f"{self.home}/here/evil")
        with open(f"{self.home}/here/evil/office.rooms", "w", encoding="ascii"):
            pass
        before = os.getcwd()
        os.chdir(f"{self.home}/here")
        self.addCleanup(os.chdir, before)
        self.assertRaises(Refused, backups.find, self.room, "evil")
        self.assertEqual(backups.find(self.room, "./evil"), f"{os.getcwd()}/evil")

    def test_a_disk_that_hangs_holds_nobody(self) -> None:
        with unittest.mock.patch.object(waiting, "PATIENCE", 0.2), \
                unittest.mock.patch.object(os, "listdir", lambda _: time.sleep(60)):
            for look in (backups.newest, backups.find):
                with self.assertRaises(waiting.Hangs) as said:
                    look(self.room, "latest")
                self.assertEqual(str(said.exception), f"{self.backups} doesn't answer within 0 s: "
                                 "does its disk hang?")


class Copies(Folder):
    """The program on a copy: here it is a script."""

    def program(self, text: str) -> settings.Room:
        os.chmod(self.home, 0o755)
        path = f"{self.home}/program"
        with open(path, "w", encoding="ascii") as file:
            file.write(f"#!/bin/sh\n{text}\n")
        os.chmod(path, 0o755)
        return self.settings("office", PROGRAM=path)

    def run_on_copy(self, text: str, into: int | None = None, stdin: bytes = b""
                    ) -> tuple[int, bytes, str]:
        room = self.program(text)
        with tempdirs.folder("rooms-test") as made:
            with open(f"{made}/room", "w", encoding="ascii") as file:
                file.write("x")
            os.chmod(made, 0o755)
            return program.on_copy(room, f"{made}/room", ["dump", "/"], 0, into, stdin)

    def test_nobody_has_what_root_holds(self) -> None:
        """What is written gets to root's file by a pipe: nothing that goes on has it."""
        with tempfile.TemporaryFile() as target:
            done = self.run_on_copy("echo $* of room; cat; readlink /proc/self/fd/1\n"
                                    "(sleep 30; echo late) & echo e >&2; exit 3",
                                    target.fileno(), b"in\n")
            target.seek(0)
            self.assertRegex(target.read(), rb"\Adump ./room / of room\nin\npipe:\[\d+\]\n\Z")
        self.assertEqual(done, (3, b"", "e"))

    @unittest.skipUnless(os.geteuid() == 0, "only root has the choice")
    def test_nothing_of_it_goes_on(self) -> None:
        os.chown(self.home, 65534, 65534)
        user = program.user_of_copies(self.program(""))[0]
        self.assertNotEqual(user, 0)
        before = self.processes(user)
        self.run_on_copy("setsid sleep 30 </dev/null >/dev/null 2>&1 &\n(sleep 30 & sleep 30) &")
        self.assertEqual(self.processes(user) - before, set())

    @staticmethod
    def processes(user: int) -> set[str]:
        found = set()
        for one in os.listdir("/proc"):
            with contextlib.suppress(OSError):
                if one.isdigit() and os.stat(f"/proc/{one}").st_uid == user:
                    found.add(one)
        return found

    def test_more_than_a_pipe_holds(self) -> None:
        status, out, _ = self.run_on_copy("head -c 9000000 /dev/zero")
        self.assertEqual((status, len(out)), (0, 9000000))

    @unittest.skipUnless(os.geteuid() == 0, "only root has the choice")
    def test_it_is_no_user_of_a_server(self) -> None:
        os.chown(self.home, 65534, 65534)
        room = self.program("id -u; id -g; id -G")
        self.assertEqual(room.owner, 65534)
        user, group = program.user_of_copies(room)
        self.assertNotIn(user, (0, 65534))
        self.assertNotIn(group, (0, 65534))
        self.assertEqual(self.run_on_copy("id -u; id -g; id -G")[1].split(),
                         [str(one).encode() for one in (user, group, group)])


class Own(Folder):
    def test_files_that_others_may_write_are_not_read(self) -> None:
        place = self.backup("2026-01-01.040000", 1, lists="member a b\n")
        with safe.own_file(f"{place}/lists.txt") as source:
            self.assertEqual(source.read(), b"member a b\n")
        os.symlink("lists.txt", f"{place}/link")
        os.mkfifo(f"{place}/fifo")
        with open(f"{place}/open", "w", encoding="ascii"):
            os.chmod(f"{place}/open", 0o622)
        for name in ("link", "fifo", "open", "nothing"):
            with self.assertRaises(OSError), safe.own_file(f"{place}/{name}"):
                pass
        os.chmod(place, 0o777)
        with self.assertRaises(OSError), safe.own_file(f"{place}/lists.txt"):
            pass


if __name__ == "__main__":
    unittest.main()
