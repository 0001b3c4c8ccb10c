"""What KEEP of a room's settings lets go, also where a clock jumps, and what is known by a copy
where a backup was put in the room's place meanwhile."""
import argparse
import contextlib
import datetime
import io
import os
import sys
import time
import unittest
import unittest.mock

sys.path.insert(0, os.path.join(os.path.dirname(__file__), "..", "..", "admin"))

from test_backups import Folder  # noqa: E402
from rooms_admin.backup import backups, hours, tidying  # noqa: E402
from rooms_admin.backup.backups import Backup  # noqa: E402
from rooms_admin.cli.report import Interrupted, Refused, Stop  # noqa: E402
from rooms_admin.directory import groups  # noqa: E402
from rooms_admin.host import locks, safe  # noqa: E402
from rooms_admin.machine_tar import restore_machine  # noqa: E402
from rooms_admin.people import ended, known, offered  # noqa: E402
from rooms_admin.room import forms, published, settings  # noqa: E402
from rooms_admin.room.keep import Keep, read  # noqa: E402

KEEP = Keep(14, 8, 12, 5)


class Nights(unittest.TestCase):
    """What EARLIER_FROM can be."""

    def test_a_night_that_there_can_be(self) -> None:
        for good in ("", "2026-11-20", "2026-11-20.030000", "2024-02-29"):
            self.assertTrue(forms.is_night(good), good)
        for bad in ("2026-11", "2026-13-40", "2026-02-29", "2026-11-20.", "2026-11-20.250000",
                    "2026-11-20.03", "2026-1-2", "2026-11-20 ", " 2026-11-20", "2026-11-2\n",
                    "\uff12026-11-20", "today"):
            self.assertFalse(forms.is_night(bad), bad)


class Goes(Folder):
    def test_the_oldest_go(self) -> None:
        one, two, three = (Backup(n, f"2026-01-0{n}.040000", "/b") for n in (1, 2, 3))
        self.assertEqual(tidying.beyond([one, two, three], Keep(2), "2026-01-04.040000"),
                         [one, two])
        self.assertEqual(tidying.beyond([one, two, three], Keep(9), "2026-01-04.040000"), [])
        self.assertEqual(tidying.beyond([], Keep(1), "2026-01-04.040000"), [])

    def test_nothing_younger_than_what_stays(self) -> None:
        """A lower number on the youngest one doesn't make it go; nor does a clock set back."""
        one, two = (Backup(n, f"2026-01-0{n}.040000", "/b") for n in (1, 2))
        young = Backup(0, "2026-01-03.040000", "/b")
        self.assertEqual(tidying.beyond([young, one, two], Keep(2), "2026-01-04.040000"), [one])
        self.assertEqual(tidying.beyond([young, one, two], Keep(3), "2026-01-04.040000"), [])
        self.assertEqual(tidying.beyond([one, two, young], Keep(1), "2025-12-01.040000"), [])

    def test_weeks_months_and_years(self) -> None:
        """Night after night for six years: the last nights, and the last one of each period."""
        keep = read("14 nights 8 weeks 12 months 5 years")
        self.assertEqual(keep, Keep(14, 8, 12, 5))
        day, left = datetime.date(2020, 1, 1), list[Backup]()
        for number in range(1, 2193):
            name = f"{day}.040000"
            for one in tidying.beyond(left, keep, name):
                left.remove(one)
            left.append(Backup(number, name, "/b"))
            day += datetime.timedelta(1)
        self.assertEqual(day, datetime.date(2026, 1, 1))
        nights = [f"2025-12-{n}" for n in range(18, 32)]
        # Sundays, which end a week; the ends of months and of years.
        weeks = ["2025-11-16", "2025-11-23", "2025-11-30", "2025-12-07", "2025-12-14", "2025-12-21",
                 "2025-12-28"]
        ends = (31, 28, 31, 30, 31, 30, 31, 31, 30, 31, 30)
        months = [f"2025-{month:02}-{last}" for month, last in enumerate(ends, 1)]
        years = ["2021-12-31", "2022-12-31", "2023-12-31", "2024-12-31"]
        self.assertEqual([one.name[:10] for one in left],
                         sorted({*nights, *weeks, *months, *years}))

    def test_what_keep_may_say(self) -> None:
        for text, wanted in (("30", Keep(30)), ("0", Keep(0)), ("7 nights", Keep(7)),
                             ("2 nights 3 years", Keep(2, years=3)),
                             ("10 nights 4 weeks 6 months", Keep(10, 4, 6))):
            self.assertTrue(settings.of_kind(settings.Room)["keep"].fits(text), text)
            self.assertEqual(read(text), wanted)
        for text in ("", "-1", "1 nights 2 weeks", "0 nights", "8 weeks", "30 weeks 2 nights",
                     "30 nights 0 weeks", "30 nights, 2 weeks", "30 nights 2 weeks 2 weeks",
                     "1234567", "30 nights "):
            self.assertFalse(settings.of_kind(settings.Room)["keep"].fits(text), text)

    def test_a_name_that_is_no_day_stays_alone(self) -> None:
        odd = Backup(1, "2026-13-45.040000", "/b")
        two = Backup(2, "2026-01-02.040000", "/b")
        self.assertEqual(tidying.beyond([odd, two], Keep(2, 1), "2026-01-03.040000"), [])

    def test_what_was_cut_off_is_told_and_what_cannot_be_read_is_not(self) -> None:
        os.makedirs(f"{self.backups}/office/2026-01-01.040000.part", 0o700)
        os.makedirs(f"{self.backups}/2026-01-01.040000.part", 0o700)
        at = self.backup("2026-01-02.040000.part")
        with open(f"{self.backups}/office/2026-01-03.040000", "w", encoding="ascii"):
            pass
        cut = self.backup("2026-01-04.040000", 5)
        with open(f"{cut}/unfinished", "w", encoding="ascii"):
            pass
        # One that was going: of it there are lists and a number left.
        with (unittest.mock.patch.object(os.path, "lexists", side_effect=[True, KeyboardInterrupt]),
              self.assertRaises(KeyboardInterrupt)):
            tidying.remove(self.room, self.backup("2026-01-05.040000", 4, lists="x\n"), "")
        with unittest.mock.patch.object(locks, "RUN", self.home):
            told = tidying.left(self.room, at)
        self.assertEqual(sorted(told), [
            *(f"interrupted: an earlier run was cut off, and left no backup of 2026-01-0{day}"
              ".040000; what it had copied is removed" for day in (1, 5)),
            "interrupted: an earlier run was cut off, and the backup of 2026-01-04.040000 may lack "
            "a part of what is written beside it"])
        self.assertEqual(sorted(os.listdir(f"{self.backups}/office")), [
            "2026-01-02.040000.part", "2026-01-03.040000", "2026-01-04.040000"])
        # In BACKUPS itself it may be another room's.
        self.assertEqual(sorted(os.listdir(self.backups)), ["2026-01-01.040000.part", "office"])


class Machines(unittest.TestCase):
    """What restore --machine --start does of the rest."""

    def test_who_ends_it_ends_all_of_it(self) -> None:
        tar = unittest.mock.Mock()
        tar.files = {}
        tar.rooms.return_value = ["etc/rooms/hr.conf", "etc/rooms/office.conf"]
        tar.lines.return_value = ["rooms@office.service"]
        for states, starts in (("activating", True), ("inactive", False)):
            with unittest.mock.patch.object(restore_machine, "server") as server, \
                    unittest.mock.patch.object(restore_machine, "commands") as commands, \
                    unittest.mock.patch.object(restore_machine, "ComingBack"), \
                    unittest.mock.patch.object(restore_machine.settings, "room") as room, \
                    unittest.mock.patch.object(restore_machine.restoring, "restore_room",
                                               side_effect=Interrupted("interrupted")) as put:
                room.return_value.file = "/none/F"
                server.state.return_value = states
                with self.assertRaises(Interrupted):
                    restore_machine.start_all(tar)
                self.assertEqual(put.call_args.args[:4],
                                 ("/etc/rooms/hr.conf", "latest", starts, True))
                commands.shown.assert_not_called()


class Clocks(unittest.TestCase):
    """Six years of nights before."""

    def setUp(self) -> None:
        self.left: list[Backup] = []
        day = datetime.date(2020, 1, 1)
        while day < datetime.date(2026, 12, 1):
            self.night(f"{day}.040000")
            day += datetime.timedelta(1)

    def night(self, name: str) -> tuple[list[Backup], str]:
        """What goes in it, as far as its clock is believed, and what is told of that."""
        gone = tidying.beyond(self.left, KEEP, name)
        ahead = tidying.ahead(self.left, KEEP, name) if gone else ""
        gone = [] if ahead else gone
        self.left = [*(one for one in self.left if one not in gone),
                     Backup(len(self.left) + 1, name, "/b")]
        return gone, ahead

    def test_one_that_is_ahead_has_nothing_go(self) -> None:
        """Each night of a later year would take the place of an earlier one."""
        for year in range(2027, 2033):
            gone, ahead = self.night(f"{year}-12-01.040000")
            self.assertEqual(gone, [])
            self.assertIn(f"the clock says {year}-12-01, and the last backup before is of ", ahead)

    def december(self) -> list[str]:
        for day in range(1, 29):
            self.assertEqual(self.night(f"2026-12-{day:02}.040000")[1], "")
        return [one.name for one in self.left]

    def test_what_it_made_takes_no_place_afterwards(self) -> None:
        before = list(self.left)
        wanted = self.december()
        self.left = before
        self.night("2031-07-01.040000")
        self.assertEqual(sorted(self.december()), [*wanted, "2031-07-01.040000"])

    def test_a_week_is_believed(self) -> None:
        gone, ahead = self.night("2026-12-07.040000")
        self.assertTrue(gone)
        self.assertEqual(ahead, "")

    def test_nights_alone_go_by_their_number(self) -> None:
        self.assertEqual(tidying.ahead(self.left, Keep(30), "2036-01-01.040000"), "")
        self.assertEqual(tidying.ahead([], KEEP, "2036-01-01.040000"), "")


class Restored(Folder):
    def test_a_night_says_nothing_of_a_file_that_came_meanwhile(self) -> None:
        """Whoever was a member that night would stay unseen by groups until the next one."""
        with open(self.room.file, "wb"):
            if known.which_file(self.room).endswith((" 0", " -")):
                self.skipTest("no disk that knows when a file came")
        run = groups.Run(self.room, argparse.Namespace(dry_run=False, force=False),
                         contextlib.ExitStack())
        for name, wanted in ((time.strftime("%F.%H%M%S", time.localtime(time.time() + 60)),
                              {("staff", "alice")}), ("2026-01-01.040000", None)):
            place = self.backup(name, 7, lists="member staff alice\n")
            with (unittest.mock.patch.object(published, "FOLDER", f"{self.home}/web"),
                  unittest.mock.patch.object(offered.locks, "lock",
                                             lambda *_: contextlib.nullcontext()),
                  open(f"{place}/lists.txt", "rb") as lists):
                self.assertEqual(offered.nightly(self.room, lists, place), [])
                self.assertEqual(run.known(), wanted, name)
                os.unlink(f"{self.home}/web/office/{known.FILE}")

    def test_a_night_says_nothing_of_what_changed_since_its_copy(self) -> None:
        """Whoever joined meanwhile and is then taken out in the directory would stay: groups would
        look at members of before they joined."""
        run = groups.Run(self.room, argparse.Namespace(dry_run=False, force=False),
                         contextlib.ExitStack())
        alice, bob = ("staff", "alice"), ("staff", "bob")
        before = known.newest_backup(self.room)
        place = self.backup(time.strftime("%F.%H%M%S", time.localtime(time.time() - 60)), 7,
                            lists="member staff alice\n")
        with (open(self.room.file, "wb"), open(f"{place}/lists.txt", "rb") as lists,
              unittest.mock.patch.object(published, "FOLDER", f"{self.home}/web"),
              unittest.mock.patch.object(offered.locks, "lock",
                                         lambda *_: contextlib.nullcontext())):
            known.keep(self.room, known.here(self.room, {alice, bob}, before))
            self.assertEqual(run.known(), {alice, bob})
            self.assertEqual(offered.nightly(self.room, lists, place), [])
            self.assertEqual(run.known(), {alice, bob})
            with (unittest.mock.patch.object(known.members, "change", side_effect=Stop("cut off")),
                  self.assertRaises(Stop)):
                known.change(self.room, {alice, bob}, set(), {bob})
            self.assertEqual(offered.nightly(self.room, lists, place), [])
            self.assertIsNone(run.known())


class Hour(Folder):
    def test_its_name_says_when_it_was_begun(self) -> None:
        """Another machine may take long to get it: what was saved meanwhile isn't in it."""
        self.room.hours = 2
        source = f"{self.home}/standby"
        os.mkdir(source, 0o700)
        os.makedirs(backups.folder(self.room))
        with open(f"{source}/{self.room.base}", "wb"):
            pass
        began = time.time() - 1800
        with unittest.mock.patch.object(hours, "SPARE", 0):
            hours.keep(self.room, source, began)
        made = hours.found(self.room).backups
        self.assertEqual([one.name for one in made],
                         [time.strftime("%F.%H%M%S", time.localtime(began))])


class Whole(Folder):
    def test_one_that_came_without_its_log_is_none(self) -> None:
        """As where copying it was cut off: the file alone is the room of weeks ago."""
        before = self.backup("2026-01-01.040000", 7)
        place = self.backup("2026-01-02.040000")
        log = f"{place}/{self.room.base}-wal"
        with open(log, "wb") as file:
            file.write(b"x" * 1000)
        with safe.opened(safe.folder(place)) as within:
            backups.give_number(within, 8, self.room.base)
        self.assertEqual(backups.find(self.room, "latest"), place)
        os.truncate(log, 999)
        for has, breaks in ((999, lambda: os.unlink(log)), (0, lambda: None)):
            why = f"not whole: {place}: {os.path.basename(log)} has {has} of 1000 bytes"
            self.assertEqual(backups.look(self.room).wrong, [why])
            with contextlib.redirect_stderr(io.StringIO()) as said:
                self.assertEqual(backups.find(self.room, "latest"), before)
            self.assertIn(why, said.getvalue())
            for word in (place, "2026-01-02.040000"):
                self.assertRaisesRegex(Refused, f"^{why}$", backups.find, self.room, word)
            breaks()
        # The program has looked into it there, and brought the log into the file, if it wasn't.
        with open(log, "wb") as file:
            file.write(b"x" * 41)
        self.assertEqual(backups.find(self.room, "latest"), place)
        os.unlink(log)
        with open(f"{place}/{self.room.base}", "wb") as file:
            file.write(b"y")
        self.assertEqual(backups.find(self.room, "latest"), place)

    def test_nor_is_one_without_its_file(self) -> None:
        before = self.backup("2026-01-01.040000", 7)
        place = self.backup("2026-01-02.040000")
        with safe.opened(safe.folder(place)) as within:
            backups.give_number(within, 8, self.room.base)
        os.unlink(f"{place}/{self.room.base}")
        empty = f"{os.path.dirname(place)}/2026-01-03.040000"
        os.mkdir(empty, 0o700)
        found = backups.look(self.room)
        self.assertEqual([one.place for one in found.backups], [before])
        self.assertEqual(found.wrong, [
            f"not whole: {place}: {self.room.base} has 0 of 1 bytes",
            f"not whole: {empty}: it is empty"])
        # One of before FILE was another is none of this file.
        with safe.opened(safe.folder(empty)) as within:
            backups.give_number(within, 9, "other.rooms")
        self.assertEqual(len(backups.look(self.room).wrong), 1)


class LastDay(Folder):
    def test_which_day_the_last_backup_is_of(self) -> None:
        """By the number that each run gave, whatever the clock said."""
        self.assertIsNone(ended.last_day(self.room))
        for number, name in ((1, "2036-01-01.040000"), (2, "2026-11-28.040000"),
                             (3, "2026-11-29.040000")):
            place = self.backup(name, number)
        self.assertEqual(str(ended.last_day(self.room)), "2026-11-29")
        self.assertEqual(str(ended.last_day(self.room, place)), "2026-11-28")


if __name__ == "__main__":
    unittest.main()
