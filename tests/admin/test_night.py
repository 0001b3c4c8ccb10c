"""A night beside what hinders it: what it does even so, and what it tells."""
import contextlib
import io
import os
import re
import tempfile
import unittest
from collections.abc import Callable
from unittest.mock import patch

from rooms_admin.cli import report
from rooms_admin.cli.report import Refused, Stop
from rooms_admin.host import locks, mail
from rooms_admin.room import program, server, settings
from rooms_admin.backup import backups, dates, night, restoring, texts
from rooms_admin.people import ended
from rooms_admin.machine_tar import machine_tar
from rooms_admin.site import certificates
from test_backups import Folder

DEPLOY = os.path.join(os.path.dirname(__file__), "..", "..", "deploy")


class Units(unittest.TestCase):
    def test_a_run_that_is_killed_as_a_whole_starts_what_it_stopped(self) -> None:
        """The process that would do so is of the same unit."""
        for verb, unit in (("backup", "nightly"), ("groups", "directory")):
            with open(f"{DEPLOY}/systemd/rooms-{unit}@.service", encoding="ascii") as file:
                text = file.read()
            ran = re.findall(r"^Exec([A-Za-z]+)=/usr/local/sbin/rooms-admin (.*)$", text, re.M)
            self.assertEqual(ran, [("Start", f"{verb} --room %i"),
                                   ("StopPost", "groups --after --room %i")], unit)


class Night(Folder):
    """The program is a script; the room has one page."""

    def run_of(self, script: str, *lacks: tuple[str, str]) -> night.Night:
        place = f"{self.home}/program"
        with open(place, "w", encoding="ascii") as made:
            made.write(f"#!/bin/sh\n{script}\n")
        os.chmod(place, 0o755)
        os.chmod(self.home, 0o755)
        self.asked: list[str] = []

        def asks(_room: object, _source: object, kept: str) -> list[str]:
            self.asked.append(kept)
            return []
        beside = night.Beside(lambda place, version: [], lambda room: ("", False),
                              [(name, asks, text) for name, text in lacks])
        run = night.Night(self.settings("office", PROGRAM=place), beside)
        run.kept = self.backup("2026-11-30.040000", 1)
        run.copied, run.memory = f"{self.home}/copy", 100
        with open(run.copied, "w", encoding="ascii"):
            pass
        return run

    def test_a_review_without_end_keeps_nothing_from_being_done(self) -> None:
        """Who manages some folder decides how much there is to be compared."""
        run = self.run_of("test $1 = verify || test $1 = audit || test $1 = dump || exec sleep 99")
        done: list[str] = []

        def does(name: str) -> object:
            return patch.object(run, name, lambda *_: done.append(name))
        with contextlib.ExitStack() as patched:
            for name in ("copy_room", "keep_copy", "write_machine", "remove_old"):
                patched.enter_context(does(name))  # type: ignore[arg-type]
            for module, what in ((program, "SECONDS"), (backups, "begin")):
                patched.enter_context(patch.object(
                    module, what, 1 if what == "SECONDS" else lambda _: None))
            patched.enter_context(patch.object(dates, "keep", lambda *_: ""))
            patched.enter_context(patch.object(run.dates, "look", lambda *_: ""))
            patched.enter_context(contextlib.redirect_stderr(io.StringIO()))
            run.part, run.date = f"{run.kept}.part", "2026-11-30.040001"
            run.back_up(contextlib.ExitStack())
        self.assertEqual(done, ["copy_room", "keep_copy", "write_machine", "remove_old"])
        self.assertEqual(len(run.failures), 1, run.failures)
        self.assertIn(": it took more than 0 minutes; the backup ", run.failures[0])
        self.assertEqual(set(os.listdir(run.kept)) & {*texts.PRINTED, "unfinished"},
                         {texts.RECORDS, texts.LISTS})

    def test_what_isnt_done_without_a_text_is_told(self) -> None:
        """A text may lack for as long as a user wants, such as by folders inside one another."""
        run = self.run_of("", (texts.LISTS, "no access ended"), (texts.REVIEW, "no places"))
        with open(f"{run.kept}/{texts.REVIEW}", "w", encoding="ascii"), \
                contextlib.redirect_stderr(io.StringIO()):
            run.for_users()
        self.assertEqual((self.asked, run.failures),
                         ([run.kept], ["there is no lists.txt: no access ended"]))

    def test_a_damaged_room_does_not_fill_the_disk_of_backups(self) -> None:
        """Each night has one more copy of it. What isn't a run's stays, and keeps no other."""
        good = self.backup("2026-10-01.040000", 1)
        for day in range(1, 8):
            self.backup(f"2026-11-0{day}.040000.unsound")
        with open(f"{self.backups}/office/2026-11-02.040000.unsound/mine", "w", encoding="ascii"):
            pass
        run = self.run_of("echo unsound; exit 1")
        run.date, run.part = "2026-11-08.040000", self.backup("2026-11-08.040000.part")
        with open(self.room.file, "w", encoding="ascii"), \
                contextlib.redirect_stderr(io.StringIO()), contextlib.ExitStack() as owned, \
                self.assertRaisesRegex(Stop, "^verify of the copy failed, status 1: unsound; it "):
            run.keep_copy(owned, 2)
        self.assertEqual(sorted(os.listdir(os.path.dirname(good))), [
            "2026-10-01.040000", "2026-11-02.040000.unsound.part", "2026-11-06.040000.unsound",
            "2026-11-07.040000.unsound", "2026-11-08.040000.unsound", "2026-11-30.040000"])
        self.assertEqual(len(run.failures), 1)
        self.assertIn("has more in it than a copy", run.failures[0])


class Ended(Folder):
    """An access that is over, in a room of one page; the program is a script."""
    LISTS = ("folder a b /c\ndacl\nlist:\nA:fd:eve:rxtc\n"
             "A:g:until.2026-01-01.read.u.eve@alice:\nsacl\nlist:\n")

    def told(self, state: str) -> list[str]:
        place = f"{self.home}/program"
        with open(place, "w", encoding="ascii") as made:
            made.write(f"#!/bin/sh\nif [ $1 = dump ]; then printf %s '{self.LISTS}'; else\n"
                       f"{{ echo $*; cat; }} >{self.home}/done; fi\n")
        os.chmod(place, 0o755)
        room = self.settings("office", PROGRAM=place)
        with open(room.file, "wb"), tempfile.TemporaryFile() as lists, \
                patch.object(server, "state", return_value=state), \
                patch.object(server, "systemctl", return_value=(0, "")), \
                patch.object(locks, "RUN", self.home), \
                contextlib.redirect_stdout(io.StringIO()), \
                contextlib.redirect_stderr(io.StringIO()):
            lists.write(self.LISTS.encode())
            lists.flush()
            return ended.take_back(room, lists, None)

    def test_of_a_room_that_is_not_served(self) -> None:
        self.assertEqual(self.told("inactive"), [])
        with open(f"{self.home}/done", encoding="ascii") as done:
            self.assertRegex(done.read(), r"^reset \S+/office.rooms /c dacl\nlist:\n"
                             r"A:g:ended.\d{4}-\d\d-\d\d.read.u.eve@alice:\n$")

    def test_of_one_whose_server_does_not_start(self) -> None:
        """Its line has a mail of its own."""
        for state in ("failed", "activating"):
            told, = self.told(state)
            self.assertTrue(told.startswith("not taken back: 1 lists have accesses that are over: "
                                            f"rooms@office is '{state}', and "), told)
        self.assertFalse(os.path.exists(f"{self.home}/done"))


class Latest(Folder):
    """machine.tar of which room, whoever names none."""

    def made(self, room: str, name: str) -> str:
        place = f"{self.backup(name, 7, room)}/machine.tar"
        with open(place, "w", encoding="ascii"):
            return place

    def found(self) -> tuple[str, str]:
        with contextlib.redirect_stderr(io.StringIO()) as said:
            return machine_tar.find(self.room.conf, "latest"), said.getvalue()

    def test_it_is_of_the_machines_last_night(self) -> None:
        invoices = self.made("invoices", "2026-11-29.040100")
        self.assertEqual(self.found(), (invoices, ""))
        office = self.made("office", "2026-11-29.040000")
        self.assertEqual(self.found(), (office, ""))
        # Office's nights fail from here on, and it may have none any more.
        newest = self.made("invoices", "2026-11-30.040100")
        place, said = self.found()
        self.assertEqual(place, newest)
        self.assertIn(f"not of office, whose last one is {os.path.dirname(office)}: ", said)
        self.assertEqual(machine_tar.find(self.room.conf, "2026-11-29.040000"), office)

    def test_a_newer_one_is_told(self) -> None:
        self.made("office", "2026-11-28.040000")
        place = os.path.dirname(self.made("invoices", "2026-11-30.040100"))
        tar = machine_tar.Tar("x.tar", {"machine/about": "date 2026-11-28T04:00:00Z"}, {
            f"etc/rooms/{name}.conf": machine_tar.File() for name in ("office", "invoices")})
        told, = machine_tar.lacking(self.room.conf, tar)
        self.assertTrue(told.startswith("newer than x.tar: that of invoices, "), told)
        self.assertTrue(told.endswith(f": rooms-admin restore --machine {place}"), told)


class Mounted(Folder):
    def test_a_restore_waits_for_the_rooms_own_disk(self) -> None:
        os.mkdir(f"{self.home}/etc")
        with open(f"{self.home}/etc/fstab", "w", encoding="ascii") as table:
            table.write(f"UUID=none {self.home} ext4 nofail 0 2\n")
        place = self.backup("2026-11-30.040000", 7)
        before = sorted(os.listdir(self.home))
        with patch.dict(os.environ, ROOMS_ROOT=self.home), \
                patch.object(locks, "lock", lambda *_: contextlib.nullcontext()), \
                patch.object(server, "systemctl", return_value=(3, "inactive")):
            both: list[Callable[..., None]] = [restoring.restore_room, restoring.would_restore]
            for does in both:
                with self.assertRaisesRegex(Refused, f"^not mounted: {self.home}, which /etc/fstab "
                                            f"has, so {self.home}, of FILE, isn't on its disk$"):
                    does(self.room.conf, place, True, look=lambda _: None)
        self.assertEqual(sorted(os.listdir(self.home)), before)


class Certificates(Folder):
    def told_by(self, *timers: str) -> list[str]:
        """Which rooms' nights tell of one, where these rooms have nights."""
        def asked(words: list[str]) -> str:
            name = words[2].removeprefix("rooms-nightly@").removesuffix(".timer")
            return "active" if name in timers else "inactive"
        rooms = [self.settings(name) for name in ("bills", "invoices", "office")]
        with patch.object(certificates, "printed", asked), \
                patch.object(certificates, "ROOT", self.home), \
                patch.object(settings, "HOME", self.home), \
                patch.object(os, "geteuid", return_value=0), \
                patch.object(certificates, "see_certificate", lambda one: (1, one)):
            told = [certificates.to_be_told(room)[0] for room in rooms]
        self.assertLessEqual(set(told), {"", "/etc/rooms/machines/b.pem"})
        return [room.name for room, text in zip(rooms, told) if text]

    def test_one_night_tells_of_them(self) -> None:
        """Also of those by which machines know one another, where the site has none here."""
        os.makedirs(f"{self.home}/etc/rooms/machines")
        with open(f"{self.home}/etc/rooms/machines/b.pem", "w", encoding="ascii"):
            pass
        # Office's own run does it also where somebody starts it by hand.
        self.assertEqual(self.told_by("bills", "invoices", "office"), ["office"])
        self.assertEqual(self.told_by("bills", "invoices"), ["bills", "office"])
        self.assertEqual(self.told_by("invoices"), ["invoices", "office"])


class Mail(Folder):
    """Who is told of a unit is sent its newest 40 lines."""

    def test_no_folder_keeps_what_is_said_of_others_out_of_it(self) -> None:
        def folder(path: str, entries: list[str]) -> str:
            return "\n".join([f"folder a b {path}", "dacl", "list:", *entries, "sacl", "list:", ""])
        mine = ["A:fd:eve:rxtcC", "A:g:until.2026-01-01.read.u.eve@alice:"]
        text = "".join([
            *(folder(f"/m/{at}", [f"A:g:until.17-{one}@m:" for one in range(10)] + mine)
              for at in range(100)), folder("/contracts", mine), folder("/z", ["A:g:until.1@m:"])])
        with tempfile.TemporaryFile() as lists, \
                contextlib.redirect_stderr(io.StringIO()) as said, \
                patch.object(mail, "notify") as told, \
                patch.object(locks, "lock", lambda *_: contextlib.nullcontext()):
            lists.write(text.encode())
            lists.seek(0)
            undone = ended.take_back(self.room, lists, None)
            lists.seek(0)
            ended.nightly(self.room, lists, "")
        for lines in (said.getvalue().splitlines()[-30:], undone[:30], told.call_args.args[2]):
            self.assertIn("not taken back: /contracts: ", "\n".join(lines))
        strange = [one for one in undone if one.startswith("not understood: ")]
        self.assertEqual((len(strange), strange[-1]), (11, "not understood: 991 more"))
        self.assertIn("not understood: /z: ", strange[1])

    def test_failures_of_a_unit_come_last(self) -> None:
        run = night.Night(self.room, night.Beside(lambda *_: [], lambda _: ("", False), []))
        with contextlib.redirect_stderr(io.StringIO()):
            run.failed("no disk" + "x" * 999)
        for unit, wanted in (("", []), ("rooms-nightly@office.service", ["no disk" + "x" * 293])):
            with contextlib.redirect_stderr(io.StringIO()) as said, \
                    patch.object(night, "tell"), patch.object(report, "ignore_signals"), \
                    patch.dict(os.environ, ROOMS_UNIT=unit):
                self.assertEqual(run.finish(), 1)
            self.assertEqual([one.partition(": ")[2] for one in said.getvalue().splitlines()],
                             wanted)


if __name__ == "__main__":
    unittest.main()
