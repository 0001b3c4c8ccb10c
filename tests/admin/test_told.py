"""Parts that need no room: what is told and to whom, passwords, and what is left of a verb that is
killed."""
import argparse
import contextlib
import io
import os
import pathlib
import shutil
import signal
import socket
import sys
import tempfile
import time
import unittest
import unittest.mock

from rooms_admin.cli import report, words
from rooms_admin.host import at_socket, changes, locks, mail, waiting
from rooms_admin.room import (fullness, http_client, names, published, server, settings, size,
                              verb_full, verb_rooms)
from rooms_admin.passwords import password_rules, passwords
from rooms_admin.lists import dump
from rooms_admin.people import users, verb_user
from rooms_admin.directory import guests
from rooms_admin.machine_tar import machine
from rooms_admin.site import password_files, template
from rooms_admin.check import finding, verb_check, verb_tell
from rooms_admin.cli.report import Refused, Stop


class Killed(unittest.TestCase):
    def setUp(self) -> None:
        held = tempfile.TemporaryDirectory()
        self.addCleanup(held.cleanup)
        self.begun, self.place = pathlib.Path(held.name, "begun"), pathlib.Path(held.name, "done")

    def begin(self) -> int:
        """A process that would be at work for long, and has to do something after it."""
        process = os.fork()
        if process == 0:
            with server.guarded(self.place.touch):
                self.begun.touch()
                time.sleep(60)
            os._exit(0)
        # What it owes is done before its folder goes.
        self.addCleanup(self.comes, self.place)
        self.addCleanup(os.waitpid, process, 0)
        self.addCleanup(os.kill, process, signal.SIGKILL)
        self.assertTrue(self.comes(self.begun))
        return process

    def comes(self, place: pathlib.Path) -> bool:
        ends = time.monotonic() + 30
        while not place.exists() and time.monotonic() < ends:
            time.sleep(0.05)
        return place.exists()

    def test_a_killed_run_does_what_it_owes(self) -> None:
        process = self.begin()
        self.assertFalse(self.place.exists())
        os.kill(process, signal.SIGKILL)
        self.assertTrue(self.comes(self.place))

    def test_a_key_puts_none_aside(self) -> None:
        process = self.begin()
        os.kill(process, signal.SIGTSTP)
        time.sleep(0.5)
        state = pathlib.Path(f"/proc/{process}/stat").read_text().rpartition(") ")[2][0]
        self.assertEqual(state, "S")

    def test_the_end_does_it_once(self) -> None:
        done: list[int] = []
        with self.assertRaises(Stop), server.guarded(lambda: done.append(os.getpid())):
            raise Stop("failed")
        self.assertEqual(done, [os.getpid()])


class Waiting(unittest.TestCase):
    def test_no_lock_is_kept_by_what_hangs(self) -> None:
        with tempfile.TemporaryDirectory() as run, locks.lock("office", 0, f"{run}/locks"):
            with self.assertRaisesRegex(waiting.Hangs, "/mnt doesn't answer within 0 s"):
                waiting.answer(0.2, lambda: time.sleep(60), "/mnt")
            held = waiting.answer(60, lambda: os.listdir("/proc/self/fd"), "/mnt")
            assert isinstance(held, list)
            self.assertLessEqual(len(held), 5)

    def test_nobody_waits_for_what_hangs(self) -> None:
        """As whoever reads up to its end what a verb prints, such as a monitor of check."""
        held = waiting.answer(60, lambda: [os.readlink(f"/proc/self/fd/{one}") for one in range(3)],
                              "/mnt")
        self.assertEqual(held, [os.devnull] * 3)

    def test_a_pipe_in_the_place_of_a_room(self) -> None:
        """Whoever runs the server may put one there: nobody waits for it."""
        with tempfile.TemporaryDirectory() as at:
            os.mkfifo(f"{at}/F")
            with self.assertRaises(size.NoRoom):
                size.Used().look(f"{at}/F")
            pathlib.Path(at, "G").write_bytes(b"SQLite format 3\0\x10\0" + bytes(10)
                                              + b"\0\0\0\7" + bytes(4) + b"\0\0\0\2")
            os.mkfifo(f"{at}/G-wal")
            self.assertEqual(size.Used().look(f"{at}/G"), 5 * 4096)


class Told(unittest.TestCase):
    def test_nothing_that_a_terminal_obeys(self) -> None:
        self.assertEqual(report.plain("a\x1b]0;x\x07\r\x9b2Kä\u202e\udcff\n\tb"),
                         "a\\x1b]0;x\\x07\\r\\x9b2Kä\\u202e\\udcff\n\tb")
        self.assertEqual(report.line("a\nb"), "a\\nb")
        reply = http_client.Reply(403, b"\x1b[2K\rmade 1204,\nleft out 0")
        self.assertEqual(reply.text(), "403 \\x1b[2Kmade 1204,left out 0")

    def test_a_mail_counts_once_it_went(self) -> None:
        sent: list[str] = []
        given = unittest.mock.Mock(unit="rooms-standby@office.service")
        with tempfile.TemporaryDirectory() as run, \
                unittest.mock.patch.object(locks, "RUN", run), \
                unittest.mock.patch.object(verb_tell, "journal", return_value=[]), \
                unittest.mock.patch.object(shutil, "which", return_value="mail"), \
                unittest.mock.patch.dict(os.environ, MONITOR_SERVICE_RESULT="exit-code"), \
                unittest.mock.patch.object(mail, "deliver") as deliver:
            os.mkdir(f"{run}/rooms-tell")

            def send(to: str, *_: object) -> bool:
                sent.append(to)
                return len(sent) > 1
            deliver.side_effect = send
            with self.assertRaises(Stop):
                verb_tell.run(given)
            self.assertEqual([verb_tell.run(given) for _ in range(2)], [0, 0])
            self.assertEqual(len(sent), 2)

    def test_each_unit_that_asks_for_it(self) -> None:
        """Also sockets, such as that of a room's port, which another program may have."""
        folder = pathlib.Path(__file__).parents[2] / "deploy/systemd"
        units = [one.name.replace("@.", "@office.").removesuffix(".conf")
                 for one in folder.iterdir()
                 if "OnFailure=rooms-tell@" in one.read_text(encoding="utf-8")]
        self.assertIn("rooms-port@office.socket", units)
        with unittest.mock.patch.object(verb_tell, "mail_of", return_value=""):
            for unit in units:
                self.assertEqual(verb_tell.run(argparse.Namespace(unit=unit)), 0, unit)

    def test_each_warning_has_a_name_of_its_own(self) -> None:
        """Systemd starts nothing for a second time while it is at work, as a slow mail is."""
        unit = "rooms-nightly@office.service"
        began: list[str] = []
        with unittest.mock.patch.object(
                mail, "_hand", lambda words, _text: began.append(words[-1])), \
                unittest.mock.patch.dict(os.environ, ROOMS_UNIT=unit):
            for _ in range(3):
                mail.notify("root", "x", ["y"], "warning")
        words = [one.removeprefix("rooms-tell@").removesuffix(".service") for one in began]
        self.assertEqual(len(set(words)), 3)
        self.assertEqual([mail.warned(one) for one in words], [(unit, True)] * 3)
        self.assertEqual(mail.warned(unit), (unit, False))

    def test_addresses(self) -> None:
        for bad in ("http://[x", "http://a b", "ftp://x", "http://", "http:///x", "http://x:99999",
                    f"http://{'a' * 64}.example", "http://a..b", "http://x:y"):
            with self.assertRaisesRegex(Refused, "^bad arguments: the room is an address"):
                http_client.Client(bad, http_client.Caller(), "", False)
        http_client.Client("https://rooms.example/invoices", http_client.Caller(), "", False)

    def test_names_that_no_room_can_have(self) -> None:
        for bad, why in ((b"latin\351.doc", "isn't UTF-8"), (b"a\tb", "a control character"),
                         (b"x" * 256, "more than 255 bytes"), (b"..", "isn't the name")):
            self.assertIn(why, names.why_not(bad))
        self.assertEqual(names.why_not("ä b".encode()), "")


class Printed(unittest.TestCase):
    def test_one_way_for_what_a_terminal_obeys(self) -> None:
        """In lists, in what is told, in the line for monitoring and the one that says which rooms
        there are: never as it is, and never as a sign that says nothing."""
        bad, wanted = "a\u202eb\x1b]0;c", "a\\u202eb\\x1b]0;c"
        self.assertEqual(report.line(bad), wanted)
        self.assertEqual(dump.as_text(bad.encode()), wanted)
        self.assertEqual(verb_check._line([(finding.OK, bad)]), f"rooms OK - {wanted}")
        said = io.StringIO()
        with contextlib.redirect_stderr(said):
            report.say(bad)
            with unittest.mock.patch.object(os, "isatty", return_value=True):
                report.progress(bad)
                report.end_progress()
        self.assertEqual(said.getvalue().count(wanted), 2)
        with (tempfile.TemporaryDirectory() as home,
              unittest.mock.patch.object(settings, "HOME", home),
              unittest.mock.patch.object(server, "systemctl", return_value=(0, "active")),
              contextlib.redirect_stdout(io.StringIO()) as out):
            pathlib.Path(home, "office.conf").write_text(f"FILE=/x\nTITLE={bad}\n",
                                                         encoding="utf-8")
            verb_rooms.run(unittest.mock.Mock(json=False))
        self.assertIn(f"office  {wanted}  active", out.getvalue())


class Flags(unittest.TestCase):
    def test_no_link_is_followed(self) -> None:
        with tempfile.TemporaryDirectory() as at:
            flag, elsewhere = f"{at}/office.full", f"{at}/nologin"
            os.symlink(elsewhere, flag)
            self.assertTrue(fullness._put(flag))
            self.assertFalse(os.path.lexists(elsewhere))
            self.assertFalse(os.path.islink(flag))
            self.assertFalse(fullness._put(flag))

    def test_it_is_not_for_terminals(self) -> None:
        with unittest.mock.patch.object(settings, "room"), \
                unittest.mock.patch.object(sys, "stdout") as shown:
            shown.isatty.return_value = True
            with self.assertRaisesRegex(Refused, "rooms-admin full --look"):
                verb_full.run(unittest.mock.Mock(rooms=[], look=False, json=False))


class Passwords(unittest.TestCase):
    def setUp(self) -> None:
        held = tempfile.TemporaryDirectory()
        self.addCleanup(held.cleanup)
        self.nginx = pathlib.Path(held.name, "etc/nginx")
        self.nginx.mkdir(parents=True)
        root = unittest.mock.patch.object(published, "ROOT", held.name)
        root.start()
        self.addCleanup(root.stop)
        lock = locks.lock

        def here(name: str, seconds: float, is_needed: bool = True
                 ) -> contextlib.AbstractContextManager[None]:
            return lock(name, seconds, f"{held.name}/run", is_needed=is_needed)
        locked = unittest.mock.patch.object(locks, "lock", here)
        locked.start()
        self.addCleanup(locked.stop)

    def put(self, name: str, *rows: str) -> pathlib.Path:
        file = self.nginx / name
        file.write_text("".join(row + "\n" for row in rows))
        return file

    def test_who_leaves_is_in_no_file(self) -> None:
        first = self.put("rooms.htpasswd", "alice:a", "bob:b", "bob.x:c")
        second = self.put("rooms-office.htpasswd", "bob:old", "eve:e")
        other = self.put("rooms-invoices.htpasswd", "bob:i")
        self.assertEqual(passwords.change("office", {"bob": None}), {"bob"})
        self.assertEqual(first.read_text(), "alice:a\nbob.x:c\n")
        self.assertEqual(second.read_text(), "eve:e\n")
        self.assertEqual(passwords.change("invoices", {"bob": b"n"}), {"bob"})
        self.assertEqual(other.read_text(), "bob:n\n")
        self.assertEqual(passwords.password_files("invoices"), [str(other)])

    def test_who_has_one_may_keep_it(self) -> None:
        file = self.put("rooms.htpasswd", "alice:a")
        had = passwords.change("office", {"alice": b"x", "zoe": b"z"}, keeps=True)
        self.assertEqual((had, file.read_text()), ({"alice"}, "alice:a\nzoe:z\n"))
        self.assertEqual(passwords.change("office", {"nobody": None}), set())
        self.assertRegex(passwords.chosen(), "^[a-z2-9]{16}$")
        self.assertNotEqual(passwords.chosen(), passwords.chosen())


class Moved(Passwords):
    """setup moves a room's file while another administrator changes it."""

    def setUp(self) -> None:
        super().setUp()
        self.root = str(self.nginx.parent.parent)
        self.kept = pathlib.Path(self.root + passwords.KEPT)
        for folder in (self.kept, self.nginx / "sites-available"):
            folder.mkdir(parents=True)
        kept = unittest.mock.patch.object(passwords, "FOLDER", str(self.kept))
        kept.start()
        self.addCleanup(kept.stop)
        self.made = changes.Changes(self.root, False)
        self.serves("")

    def serves(self, line: str) -> None:
        (self.nginx / "sites-available/rooms").write_text(line)

    def moves(self, to_keeper: bool) -> list[password_files.Moved]:
        place = settings.Place(name="office", port="8780", own_passwords=to_keeper)
        with contextlib.redirect_stdout(io.StringIO()):
            return password_files.move(self.made, template.Site(settings.Front(), [place], ""))

    def test_who_is_shut_out_stays_so(self) -> None:
        """Whatever nginx says of its files, and however far the move is."""
        for line in ("", '    "office /" own;\n'):
            for is_refused in (False, True):
                with self.subTest(line, is_refused=is_refused):
                    old = self.put("rooms.htpasswd", "alice:a", "bob:b")
                    gone = self.moves(True)
                    self.serves(line)
                    self.assertEqual(passwords.change("office", {"bob": None, "eve": b"e"}),
                                     {"bob"})
                    if is_refused:
                        self.made.put_back()
                        self.serves("")
                    else:
                        password_files.finish(self.made, gone)
                    left = old if is_refused else self.kept / "rooms.htpasswd"
                    self.assertEqual(left.read_text(), "alice:a\neve:e\n")
                    self.assertEqual([one.exists() for one in (old, self.kept / old.name)],
                                     [is_refused, not is_refused])
                    (self.kept / old.name).unlink(missing_ok=True)
                    (self.kept / "rooms.first").unlink(missing_ok=True)
                    self.made.forget()
                    self.serves("")

    def test_a_users_own_change_counts(self) -> None:
        kept = self.kept / "rooms.htpasswd"
        kept.write_text("alice:a\nbob:b\n")
        gone = self.moves(False)
        passwords.put_lines(str(kept), {"alice": b"own"})
        password_files.finish(self.made, gone)
        self.assertEqual((self.nginx / "rooms.htpasswd").read_text(), "alice:own\nbob:b\n")
        self.assertFalse(kept.exists())

    def test_which_room_has_a_file(self) -> None:
        for name in ("office", "invoices", "a-b"):
            for file in (passwords.kept_of(name), passwords.old_of(name)):
                self.assertEqual(passwords.room_of(file), name)


class Interruptions(unittest.TestCase):
    def test_what_was_done_is_told(self) -> None:
        self.addCleanup(setattr, report, "_did", None)
        report.did("what nobody asks for")
        self.assertEqual(str(report.interrupted()), "interrupted")
        report.nothing_yet()
        self.assertEqual(str(report.interrupted()), "interrupted: nothing was changed")
        report.did("the list is set")
        report.did("all is well")
        self.assertEqual(str(report.interrupted()),
                         "interrupted: this alone was done: the list is set; all is well")


class Guests(unittest.TestCase):
    """Whom a directory has, and who has a password in a room's file."""

    def look(self, in_file: str, has_guests: bool, is_over: bool = False, first: str = ""
             ) -> list[str]:
        room = settings.Place(name="office", on="", passwords="directory", guests=has_guests)
        with tempfile.TemporaryDirectory() as root, unittest.mock.patch.multiple(
                guests, Directory=unittest.mock.Mock(), doubled=lambda _asked, users: [
                    one for one in sorted(users) if one.lower() in ("alice", "bob")]
        ), unittest.mock.patch.object(passwords, "FOLDER", root + passwords.KEPT):
            kept = pathlib.Path(root + passwords.KEPT)
            for place in (kept, pathlib.Path(root + "/etc/rooms")):
                place.mkdir(parents=True)
            (kept / "rooms.htpasswd").write_text(in_file, encoding="utf-8")
            (kept / "rooms.first").write_text(first, encoding="utf-8")
            pathlib.Path(root + guests.FILE).write_text(
                "URI=ldap://directory.example\nBASE=dc=example\n", encoding="utf-8")
            if is_over:
                return guests.back(root, [room])
            return guests.look(root, settings.Directory(), [room])

    def test_who_signs_in_again_is_told(self) -> None:
        said = ("alice, eve, tim of office can sign in again, by passwords of before, and the "
                "directory hasn't eve, tim; rooms-admin user remove keeps them out")
        self.assertEqual(self.look("alice:x\neve:x\ntim:x\n", False, True), [said])
        self.assertEqual(self.look("eve:x\n", True, True), [])
        self.assertEqual(self.look("", False, True), [])

    def test_who_is_shut_out_is_told(self) -> None:
        told = self.look("alice:x\neve:x\ntim:x\n", False)
        self.assertEqual(len(told), 1)
        self.assertTrue(told[0].startswith("eve, tim of office can't sign in any more"), told)
        self.assertEqual(self.look("alice:x\n", False), [])
        self.assertEqual(self.look("", False), [])

    def test_a_first_password_lets_no_guest_in(self) -> None:
        said = ("kim, lea of office can't sign in, whom the directory hasn't, by a first password: "
                "rooms-admin user add gives guests another one")
        self.assertEqual(self.look("", True, first="kim:x\nlea:x\n"), [said])
        self.assertEqual(self.look("", False, first="kim:x\nbob:x\nlea:x\n"), [said])

    def test_nobody_has_two(self) -> None:
        for name in ("alice", "Alice", "BOB"):
            with self.assertRaisesRegex(Refused, f"^two passwords: {name} of office are in"):
                self.look(f"eve:x\n{name}:x\n", True)
        self.assertEqual(self.look("eve:x\ntim:x\n", True), [])

    def test_what_takes_all_second_ones_away_is_pasted(self) -> None:
        with self.assertRaises(Refused) as refused:
            self.look("bob:x\neve:x\nalice:x\n", True)
        self.assertTrue(str(refused.exception).endswith(
            'then: for name in alice bob; do rooms-admin user remove "$name" --password '
            "--room office; done"), refused.exception)


class Words(unittest.TestCase):
    def typed(self, text: str) -> users.Words:
        """As they are typed."""
        return verb_user.read_words(words.read("user", verb_user, text.split()))

    def test_groups_add_up(self) -> None:
        self.assertEqual(self.typed("add bob --groups a --groups b,c").joins, ["a", "b", "c"])

    def test_of_two_values_none_is_taken(self) -> None:
        for text in ("list --room a --room b", "--room a list -r b", "add --file f --file=g"):
            with self.assertRaisesRegex(Refused, "^bad arguments: --(room|file) stands twice"):
                self.typed(text)

    def test_options_stand_anywhere(self) -> None:
        for given in ("add newbie --groups sales", "add --groups sales newbie",
                      "-r office add --groups sales newbie",
                      "add newbie --groups sales --room office"):
            self.assertEqual(self.typed(given),
                             users.Words("add", "newbie", "office", joins=["sales"]), given)
        self.assertEqual(self.typed("add x --groups a,b").joins, ["a", "b"])
        for given in ("change x --add a,b --drop c", "change --drop c --add a --add b x"):
            self.assertEqual(self.typed(given), users.Words(
                "change", "x", "office", joins=["a", "b"], leaves=["c"]), given)
        self.assertEqual(self.typed("remove -x --to alice --room hr"),
                         users.Words("remove", "-x", "hr", heir="alice"))
        self.assertEqual(self.typed("add x --random --first --groups a"), users.Words(
            "add", "x", "office", joins=["a"], is_first=True, is_random=True))
        self.assertEqual(self.typed("add --file f -r hr"),
                         users.Words("add", "", "hr", file="f"))

    def test_what_is_refused(self) -> None:
        for bad in ("", "add", "remove", "add a b", "add --groups", "add a --groups", "list a",
                    "add a --to b", "remove a --groups b", "add a --groups b --file f",
                    "remove --file f", "add a --groups x,", "add jürgen", "add a -x",
                    "add --file f a", "add --file f --random", "remove a --random", "change a",
                    "change a --add b --drop b", "change a --add b,", "change --add b"):
            with self.assertRaises(Refused, msg=bad):
                self.typed(bad)

    def rows(self, text: str) -> dict[str, set[str]]:
        with tempfile.NamedTemporaryFile() as held:
            held.write(text.encode("utf-8"))
            held.flush()
            return users.rows(held.name)

    def test_files(self) -> None:
        wanted: dict[str, set[str]] = {"dana": {"sales", "staff"}, "eve": set()}
        for good in ("name,groups\ndana,staff,sales\neve\n", "dana,\"staff,sales\"\n\neve,\n",
                     "\ufeffName;Groups\r\ndana;staff sales\r\neve;\r\n",
                     "dana,staff\ndana,sales\neve"):
            self.assertEqual(self.rows(good), wanted, good)
        for bad in ("", "name\n", "dana,jürgen\n", "group,user\nstaff,dana\n", "da na,x\n",
                    "a\nb\n\"c\n"):
            with self.assertRaises(Refused, msg=bad):
                self.rows(bad)


class GivenPasswords(unittest.TestCase):
    def test_what_root_may_give(self) -> None:
        """What a user may not choose, but nothing that can't be typed on another machine."""
        def given(text: str) -> str:
            with unittest.mock.patch("sys.stdin", io.StringIO(text)):
                return passwords.ask("eve")
        for good in ("a", "eve", "x" * 72, "Gr\u00f6\u00dfe 1", "12345"):
            self.assertEqual(given(good + "\n"), good)
            self.assertTrue(password_rules.can_be(good))
        for bad in ("", "x" * 73, "\u00e4" * 37, "a\tb", "Gro\u0308\u00dfe", "\udc80"):
            with self.assertRaisesRegex(Refused, "^bad password: ", msg=ascii(bad)):
                given(bad)
            self.assertEqual(password_rules.fault_of("bob", "old", bad), "form", ascii(bad))
        # One that was given before can be typed as the present one.
        self.assertTrue(password_rules.can_be("Gro\u0308\u00dfe"))
        for why, own in (("short", "9 letters"), ("weak", "password2026"), ("weak", "a bob's own"),
                         ("", "gravel under bridges")):
            self.assertEqual(password_rules.fault_of("bob", "old", own), why, own)


class Sockets(unittest.TestCase):
    def test_what_is_no_socket(self) -> None:
        """A pipe in the place of a server's socket answers nothing, at once."""
        with tempfile.TemporaryDirectory() as at:
            os.mkfifo(f"{at}/socket")
            asked = at_socket.AtSocket(f"{at}/socket", 5)
            with contextlib.closing(asked), self.assertRaises(OSError):
                asked.request("GET", "/")

    def test_a_socket_that_systemd_made(self) -> None:
        """In the place of a room's server nobody answers there; of a door it is the right one."""
        with tempfile.TemporaryDirectory() as at, socket.socket(socket.AF_UNIX) as made, \
                unittest.mock.patch("struct.unpack", return_value=(1, 0, 0)):
            made.bind(f"{at}/socket")
            made.listen()
            with contextlib.closing(at_socket.AtServer(f"{at}/socket", 5)) as server, \
                    self.assertRaises(ConnectionRefusedError):
                server.connect()
            with contextlib.closing(at_socket.AtSocket(f"{at}/socket", 5)) as door:
                door.connect()


class Packages(unittest.TestCase):
    def test_what_pages_have_installed(self) -> None:
        """It is named, so that a new machine gets it too."""
        def all_installed(words: list[str]) -> str:
            return "\n".join(f"installed package {one} 1" for one in words)
        with unittest.mock.patch.object(machine, "printed", all_installed):
            told = machine._packages()
        for one in ("at", "bsd-mailx", "certbot", "cron", "logrotate", "openssh-client",
                    "poppler-utils", "python3-ldap", "restic", "rsync", "sudo", "tesseract-ocr"):
            self.assertIn(f"package {one} 1\n", told)
