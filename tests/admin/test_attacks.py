"""What others than root can leave where rooms-admin looks as root, and how it can be kept waiting:
python3 -m unittest test_attacks."""
import argparse
import builtins
import contextlib
import dataclasses
import errno
import io
import os
import pwd
import re
import signal
import struct
import sys
import tarfile
import tempfile
import time
import types
import typing
import unittest
import unittest.mock
from collections.abc import Iterator

_MADE = tempfile.TemporaryDirectory()
ROOT = _MADE.name
os.environ["ROOMS_ROOT"] = ROOT
sys.path.insert(0, os.path.join(os.path.dirname(__file__), "..", "..", "admin"))

from rooms_admin.host import changes, locks, safe, tempdirs, waiting  # noqa: E402
from rooms_admin.room import health, program, published, server, settings  # noqa: E402
from rooms_admin.passwords import passwords  # noqa: E402
from rooms_admin.backup import backups, copying, dates  # noqa: E402
from rooms_admin.lists import dump, records  # noqa: E402
from rooms_admin.people import ended, handing_over, members  # noqa: E402
from rooms_admin.directory import groups  # noqa: E402
from rooms_admin.machine_tar import machine  # noqa: E402
from rooms_admin.check import finding, watched  # noqa: E402
from rooms_admin.site import setting_up  # noqa: E402
from rooms_admin.cli.report import Stop  # noqa: E402
from rooms_admin.room.size import Used  # noqa: E402
from rooms_admin.directory.directory import Directory, Entry  # noqa: E402

# More than Python's functions go into one another.
DEEP = 1500


def tearDownModule() -> None:
    os.system(f"rm -rf '{ROOT}'/*")
    _MADE.cleanup()


def make_deep(place: str) -> None:
    at = os.open(place, os.O_RDONLY)
    for _ in range(DEEP):
        os.mkdir("a", dir_fd=at)
        below = os.open("a", os.O_RDONLY, dir_fd=at)
        os.close(at)
        at = below
    os.close(at)


class Deep(unittest.TestCase):
    """Folders in one another."""

    def test_a_copys_folder_goes(self) -> None:
        with tempfile.TemporaryDirectory() as above, unittest.mock.patch.dict(
                os.environ, {"TMPDIR": above}):
            with tempdirs.folder("rooms-get") as made:
                make_deep(made)
            self.assertEqual(os.listdir(above), [])
            left = f"{above}/rooms-get.999999999.1.left"
            os.mkdir(left)
            make_deep(left)
            with tempdirs.folder("rooms-get"):
                self.assertFalse(os.path.exists(left))

    def test_so_does_what_a_door_has(self) -> None:
        """Of a room that is removed."""
        with tempfile.TemporaryDirectory() as root, contextlib.redirect_stdout(io.StringIO()):
            os.mkdir(f"{root}/office")
            make_deep(f"{root}/office")
            changes.Changes(root, False).remove_folder("/office")
            self.assertEqual(os.listdir(root), [])


class Kept(unittest.TestCase):
    """What whoever keeps own passwords has put beside them."""

    def setUp(self) -> None:
        self.kept = ROOT + passwords.KEPT
        for place in (self.kept, f"{ROOT}/etc/rooms", f"{ROOT}/etc/nginx"):
            os.makedirs(place)
        self.addCleanup(os.system, f"rm -rf '{ROOT}'/*")
        self.put(f"{ROOT}/etc/rooms/office.conf", "FILE=/x\n")
        self.put(f"{self.kept}/rooms.htpasswd", "alice:x\n")
        self.put(f"{self.kept}/rooms-gone.htpasswd", "carol:x\n")

    def put(self, path: str, text: str) -> None:
        with open(path, "w", encoding="ascii") as made:
            made.write(text)

    def saved(self) -> tuple[dict[str, int], list[str]]:
        place = f"{ROOT}/machine.tar"
        lacks = machine.save(place, "1.1.0")
        with tarfile.open(place) as tar:
            return {one.name: one.size for one in tar}, lacks

    def test_all_of_an_office(self) -> None:
        found, lacks = self.saved()
        self.assertEqual(lacks, [])
        for name in ("rooms", "rooms-gone"):
            self.assertIn(f"var/lib/rooms-passwords/{name}.htpasswd", found)

    def test_folders_are_not_entered(self) -> None:
        make_deep(self.kept)
        found, lacks = self.saved()
        self.assertEqual(lacks, [])
        self.assertIn("var/lib/rooms-passwords/rooms.htpasswd", found)

    def test_no_file_fills_the_memory_or_the_tar(self) -> None:
        with open(f"{self.kept}/rooms-a.htpasswd", "w", encoding="ascii") as made:
            made.truncate(1 << 40)
        for number in range(40):
            with open(f"{self.kept}/rooms-b{number}.htpasswd", "w", encoding="ascii") as made:
                made.truncate(1 << 20)
        os.symlink("/etc/shadow", f"{self.kept}/rooms-link.htpasswd")
        found, lacks = self.saved()
        self.assertIn("var/lib/rooms-passwords/rooms.htpasswd", found)
        self.assertLess(os.path.getsize(f"{ROOT}/machine.tar"), 20 << 20)
        self.assertEqual(len(lacks), 1, lacks)
        self.assertRegex(lacks[0], r"it lacks /var/lib/rooms-passwords/rooms-\S+ and \d+ more, ")

    def test_nor_do_very_many(self) -> None:
        for number in range(40000):
            self.put(f"{self.kept}/rooms-{number}.htpasswd", "")
        found, lacks = self.saved()
        self.assertIn("var/lib/rooms-passwords/rooms.htpasswd", found)
        self.assertLess(os.path.getsize(f"{ROOT}/machine.tar"), 64 << 20)
        self.assertEqual(len(lacks), 1)

    def test_other_accounts_tables_and_jobs(self) -> None:
        """A tar of more than 64 MB doesn't come back, and those are on the disk of backups."""
        tables = f"{ROOT}/var/spool/cron/crontabs"
        os.makedirs(tables)
        # On a terminal this looks like a line of a file of root's.
        self.put(f"{tables}/mallory", "# \r/etc/cron.d/rooms:1 2 * * * root sh \x1b[8m # rooms\n")
        self.put(f"{tables}/root", "0 3 * * * rooms-admin check\n# rooms\r\x1b[8m\n")
        for name, said in (("atq", "7\tSun a root\n8\tSun a mallory\n"),
                           ("at", "rooms-admin user remove $2\n")):
            self.put(f"{ROOT}/{name}", f"#!/bin/sh\ncat <<END\n{said}END\n")
            os.chmod(f"{ROOT}/{name}", 0o755)
        with unittest.mock.patch.dict(os.environ, {"PATH": f"{ROOT}:{os.environ['PATH']}"}):
            about = machine._about("1.1.0")
        self.assertLess(len(about), 10000)
        self.assertIn("at 7\tSun a root\nrooms-admin user remove 7\n", about)
        self.assertIn(f"{tables}/root:0 3 * * * rooms-admin check\n", about)
        self.assertIn(f"{tables}/root:# rooms\\r\\x1b[8m\n", about)
        self.assertNotIn("mallory", about)


class FullDisk(unittest.TestCase):
    def test_somebody_is_shut_out(self) -> None:
        """No file is made anew there."""
        with tempfile.TemporaryDirectory() as at:
            file = f"{at}/rooms.htpasswd"
            before = b"# bob:\nbob:$2y$1\nbobby:$2y$2\nbob:again\ncarol:$2y$3\n"
            with open(file, "wb") as made:
                made.write(before)
            full = OSError(errno.ENOSPC, "No space left on device")
            with unittest.mock.patch.object(safe, "write_all", side_effect=full):
                with self.assertRaises(OSError):
                    passwords.put_lines(file, {"bob": None, "eve": b"$2y$4"})
                self.assertEqual(passwords.put_lines(file, {"bob": None, "eve": None}), {"bob"})
            with open(file, "rb") as source:
                self.assertEqual(source.read(), b"# bob:\n#########\nbobby:$2y$2\n#########\n"
                                 b"carol:$2y$3\n")
            self.assertEqual((passwords.users(file), os.listdir(at)), (
                {"# bob", "bobby", "carol"}, ["rooms.htpasswd"]))


class Accounts(unittest.TestCase):
    def test_one_of_a_persons_is_told(self) -> None:
        """Such as one for bookings, which was there before."""
        for number, shell, told in ((1001, "/bin/bash", True), (1001, "/usr/sbin/nologin", False),
                                    (990, "/bin/sh", False)):
            seen = pwd.struct_passwd(("", "x", number, number, "", "/", shell))
            said = io.StringIO()
            with unittest.mock.patch.object(setting_up, "getpwnam", return_value=seen), \
                    contextlib.redirect_stderr(said):
                setting_up._user(changes.Changes("", False))
            self.assertEqual("not safe: somebody signs in as rooms, " in said.getvalue(), told)


class Door(unittest.TestCase):
    """Whoever is the door of a room by now may hold what runs as its user."""

    def test_a_night_waits_no_longer_than_it_takes(self) -> None:
        room = types.SimpleNamespace(name="office", notes_changes=True)
        with tempfile.TemporaryDirectory() as at:
            os.makedirs(f"{at}{dates.CHANGES}/office")
            with open(f"{at}{dates.CHANGES}/office/dates.db", "w", encoding="ascii"), \
                    open(f"{at}/held.py", "w", encoding="ascii") as made:
                made.write("import os, signal\nprint('[1]', flush=True)\n"
                           "os.kill(os.getpid(), signal.SIGSTOP)\n")
            with unittest.mock.patch.multiple(dates, ROOT=at, _OF_DOOR=f"{at}/held.py",
                                              _PATIENCE=2.0):
                told = dates.keep(typing.cast(settings.Room, room), at)
            self.assertEqual(told, f"{at} has no dates of documents: no answer within 2 s")
            self.assertFalse(os.path.exists(f"{at}/dates"))


class Log(unittest.TestCase):
    """How much of a room is in use is looked at as root, in files of the servers' user."""

    def test_a_log_with_holes(self) -> None:
        for size in (0, 24, 512, 4096):
            with tempfile.TemporaryDirectory() as folder:
                with open(f"{folder}/R", "wb") as base:
                    base.write(b"SQLite format 3\0" + struct.pack(">H10xI4xI", 4096, 7, 2))
                with open(f"{folder}/R-wal", "wb") as log:
                    log.write(struct.pack(">III", 0x377f0682, 3007000, size))
                    log.truncate(1 << 43)
                began = time.monotonic()
                self.assertEqual(waiting.answer(
                    20, lambda: Used().look(f"{folder}/R"), folder), 5 * 4096)
                self.assertLess(time.monotonic() - began, 10)


def room_of(folder: str) -> settings.Room:
    path = f"{folder}/x.conf"
    with open(path, "w", encoding="ascii") as made:
        made.write(f"FILE={folder}/R\nBACKUPS={folder}\nPROGRAM=/bin/true\n")
    return settings.room(path)


class Hashes(unittest.TestCase):
    def test_what_nginx_tries_in_a_moment(self) -> None:
        """What is made here is one of these, and no user puts another one there."""
        made = b"$2y$10$" + b"a" * 53
        self.assertTrue(re.fullmatch(passwords.MADE, made))
        self.assertTrue(re.fullmatch(passwords.MADE, passwords.NOBODYS))
        for good in (made, made.replace(b"10", b"12"), made + b":of the third floor", b"{SHA}x",
                     b"$apr1$salt$hash", b"$6$salt$hash"):
            self.assertTrue(passwords.nginx_tries_quickly(b"eve:" + good), good)
        for wrong in (made.replace(b"10", b"13"), made.replace(b"10", b"31"), made + b"a",
                      b"$6$rounds=999999999$x$y", b"$y$jFT$x$y", b"{SHA}x\ry"):
            self.assertFalse(passwords.nginx_tries_quickly(b"eve:" + wrong), wrong)
            self.assertFalse(re.fullmatch(passwords.MADE, wrong))
        self.assertFalse(passwords.nginx_tries_quickly(b"e" * 300 + b":" + b"{PLAIN}" + b"x" * 700))


class Held(unittest.TestCase):
    """What is tried as the servers' user can be held by whoever is that user."""

    def test_a_night_goes_on(self) -> None:
        def stopped(_room: settings.Room) -> str:
            os.kill(os.getpid(), signal.SIGSTOP)
            return ""
        with tempfile.TemporaryDirectory() as folder, unittest.mock.patch.object(
                server, "patience", lambda _room: -58):
            room = room_of(folder)
            self.assertRegex(health.patiently(room, stopped), "doesn't answer within 2 s")
            self.assertEqual(health.patiently(room, lambda _room: "said"), "said")
            with self.subTest("what it can't do is told"):
                def fails(_room: settings.Room) -> str:
                    raise Stop("no systemctl")
                self.assertEqual(health.patiently(room, fails), "no systemctl")

    def test_so_does_the_check(self) -> None:
        def fails() -> list[finding.Finding]:
            raise Stop("no systemctl")
        self.assertEqual(watched.within(5, fails, "x"), [(finding.CRITICAL, "no systemctl")])

    def test_no_start_is_waited_for_without_end(self) -> None:
        with tempfile.TemporaryDirectory() as folder:
            room = room_of(folder)
            with open(room.file, "wb") as made:
                made.truncate(1 << 43)
            self.assertLessEqual(server.patience(room), 3630)


class _Error(Exception):
    pass


class _Cookie:
    controlType = "page"
    cookie = b"always another one"


class _Endless:
    """A link to a directory which has always another page."""

    def set_option(self, *_given: object) -> None: ...

    def simple_bind_s(self, *_given: object) -> None: ...

    def search_ext(self, *_given: object, **_more: object) -> int:
        return 1

    def result3(self, _number: int, timeout: float) -> tuple[int, list[object], int, list[object]]:
        return 1, [("cn=x", {})], 1, [_Cookie()]


def endless(wait: int) -> Directory:
    made = Directory.__new__(Directory)
    ldap = types.SimpleNamespace(
        controls=types.SimpleNamespace(SimplePagedResultsControl=lambda *_a, **_b: _Cookie()),
        SCOPE_SUBTREE=2, SCOPE_BASE=0, LDAPError=_Error, TIMEOUT=type("T", (_Error,), {}),
        TIMELIMIT_EXCEEDED=type("L", (_Error,), {}), NO_SUCH_OBJECT=type("N", (_Error,), {}),
        OPT_REFERRALS=0, OPT_NETWORK_TIMEOUT=0, OPT_TIMEOUT=0, OPT_X_TLS_REQUIRE_CERT=0,
        OPT_X_TLS_DEMAND=0, OPT_X_TLS_NEWCTX=0, initialize=lambda _uri: _Endless())
    where = types.SimpleNamespace(wait=wait, secret="", bind="", needs_starttls=False, uri="",
                                  authorities="")
    made.__dict__.update(_ldap=ldap, _asks=None, where=where)
    return made


class Apart(unittest.TestCase):
    """What asks another machine, which may hang or answer without end."""

    def test_answers(self) -> None:
        asked = waiting.Apart(lambda one: [one, os.getpid()], 64 << 20)
        for one in ("a", [1, None], "\n"):
            found, process = asked.ask(one, 60)
            self.assertEqual(found, one)
            self.assertNotEqual(process, os.getpid())
        asked.end()

    def test_has_nothing_of_whoever_asks(self) -> None:
        with tempfile.TemporaryFile() as held:
            asked = waiting.Apart(lambda one: os.path.lexists(f"/proc/self/fd/{one}"), 64 << 20)
            self.assertEqual([asked.ask(one, 60) for one in (1, held.fileno())], [True, False])
            asked.end()

    def test_ends(self) -> None:
        def eats(one: object) -> object:
            return len(bytearray(one)) if isinstance(one, int) else "x" * (60 << 20)
        for hangs in (lambda _: time.sleep(99), lambda _: os.kill(os.getpid(), signal.SIGSTOP)):
            with self.assertRaisesRegex(Stop, "no answer within 1 s"):
                waiting.Apart(hangs, 64 << 20).ask("", 1)
        with self.assertRaisesRegex(Stop, "64 MB"):
            waiting.Apart(lambda _: os._exit(3), 64 << 20).ask("", 60)
        for asks in (1 << 30, 100 << 20, ""):
            with self.assertRaisesRegex(Stop, "64 MB"):
                waiting.Apart(eats, 64 << 20).ask(asks, 60)


class Rests(unittest.TestCase):
    """What a server that rests doesn't wait for."""

    def rests(self) -> tuple[list[str], object]:
        did: list[str] = []

        @contextlib.contextmanager
        def rests(_room: settings.Room) -> Iterator[None]:
            did.append("stop")
            yield
            did.append("start")
        return did, rests

    def test_accesses_that_end(self) -> None:
        """Somebody who reads slowly what is printed."""
        did, rests = self.rests()

        def sets(*_given: object) -> tuple[int, bytes, str]:
            did.append("set")
            return 0, b"", ""
        with tempfile.TemporaryDirectory() as folder, contextlib.ExitStack() as mocks:
            room = room_of(folder)
            end = types.SimpleNamespace(over=False, day=0, words=lambda: "read of eve")
            due = ended.Due(b"/x", ["list:a"], ["list:a"], [typing.cast(typing.Any, end)])
            task = ended.Run(room, False, None)
            for module, name, what in (
                    (server, "at_rest", rests), (server, "state", lambda _room: "active"),
                    (members, "printed", lambda *_given: b""), (task, "find", lambda _: [due]),
                    (program, "run", sets),
                    (builtins, "print", lambda text, **_: did.append(text))):
                mocks.enter_context(unittest.mock.patch.object(module, name, what))
            task.all([])
        self.assertEqual(did, ["stop", "set", "start", "taken back: /x: read of eve"])

    def test_groups_of_a_directory(self) -> None:
        """The same, and a disk of backups that hangs."""
        did, rests = self.rests()

        def looks(_room: settings.Room) -> None:
            did.append("looks")
            raise waiting.Hangs("it hangs")
        with tempfile.TemporaryDirectory() as folder, contextlib.ExitStack() as mocks:
            room = room_of(folder)
            for name, text in ((room.file, "x"), (f"{folder}/x.groups", "group staff = s\n")):
                with open(name, "w", encoding="ascii") as made:
                    made.write(text)
            for module, name, what in (
                    (server, "at_rest", rests), (backups, "known", looks),
                    (members, "read", lambda _room: {("staff", "bob")}),
                    (members, "change", lambda *_given: did.append("change")),
                    (groups, "show", lambda change: did.extend(change.lines())),
                    (locks, "FOLDER", f"{folder}/locks"), (published, "FOLDER", f"{folder}/web")):
                mocks.enter_context(unittest.mock.patch.object(module, name, what))
            task = groups.Run(room, argparse.Namespace(dry_run=False, force=False),
                              mocks.enter_context(contextlib.ExitStack()))
            mocks.enter_context(unittest.mock.patch.object(
                task, "ask", lambda _groups: {("staff", "alice")}))
            mocks.enter_context(contextlib.redirect_stderr(io.StringIO()))
            task.bring()
            self.assertEqual(did, ["looks", "looks", "stop", "change", "start", "+ staff,alice",
                                   "- staff,bob"])
            self.assertEqual(task.failures, ["it hangs"])


class Copies(unittest.TestCase):
    def test_no_lock_waits_for_the_disk_of_backups(self) -> None:
        """Whoever copies a room has its lock, and asks nothing of that disk until it is copied."""
        with tempfile.TemporaryDirectory() as folder, \
                unittest.mock.patch.object(server, "settled", lambda _: "inactive"), \
                unittest.mock.patch.object(server, "state", lambda _: "inactive"):
            room, part = room_of(folder), f"{folder}/hangs"
            data = os.urandom(100000)
            with open(room.file, "wb") as made:
                made.write(data)
            copied = copying.copy(room, part)
            self.assertEqual(copied.where, {"R": "near"})
            os.mkdir(part)
            copying.keep(room, copied, part)
            self.assertEqual(os.listdir(part), ["R"])
            with open(f"{part}/R", "rb") as found:
                self.assertEqual(found.read(), data)


class Says(unittest.TestCase):
    """A copy of a room that has the program say what it wants."""

    def test_names(self) -> None:
        for bad in (b"member sta\x1b[2J bob\n", b"member staff ../bob\n", b"folder a/b c /x\n",
                    b"folder a b x\n", b"document a b many /x\n"):
            with self.subTest(bad), self.assertRaisesRegex(Stop, "^no lists: "):
                list(dump.rows([bad]))
        with tempfile.NamedTemporaryFile() as lists, self.assertRaisesRegex(Stop, "^no lists: "):
            lists.write(b"folder bob staff /\nfolder bob staff ../x\n")
            lists.flush()
            list(handing_over.rows(lists.name))
        with self.assertRaisesRegex(Stop, "^the groups can't be read: "):
            members.of_text("group,user\nstaff,a b\n")
        for one in ("../x,/,r,yes", "bob,x,r,yes", "bob,/,q,yes", "bob,/,r,maybe"):
            user, path, bits, granted = one.split(",")
            with self.subTest(one), self.assertRaisesRegex(Stop, "^the records can't be read: "):
                list(records.records(["at,user,path,bits,granted,entry,kind\n",
                                      f"1,{user},{path},{bits},{granted},1,audit\n"]))

    def test_texts_end(self) -> None:
        with tempfile.TemporaryDirectory() as folder:
            room = room_of(folder)
            for place, text in ((room.file, "x"), (f"{folder}/p", "#!/bin/sh\nexec yes\n")):
                with open(place, "w", encoding="ascii") as made:
                    made.write(text)
            os.chmod(f"{folder}/p", 0o755)
            endless = dataclasses.replace(room, program=f"{folder}/p")
            with unittest.mock.patch.object(program, "MOST", 1 << 20), \
                    tempfile.TemporaryFile() as into:
                for number in (None, into.fileno()):
                    status, out, said = program.on_copy(endless, room.file, ["dump"], into=number)
                    self.assertNotEqual(status, 0)
                    self.assertEqual((out, said), (b"", "it wrote more than 1 MB"))
                self.assertLessEqual(os.fstat(into.fileno()).st_size, 1 << 20)


class Lies(unittest.TestCase):
    """A directory that has no end."""

    def test_pages(self) -> None:
        with self.assertRaisesRegex(Stop, "the directory failed: no answer within 1 seconds"):
            endless(1).search("dc=x", True, "(x=y)", [])

    def test_names_fill_no_log(self) -> None:
        rows = [Entry(f"uid={number}\n{'x' * 9999}", {}) for number in range(5000)]
        told = argparse.Namespace(where=argparse.Namespace(base="", users="", name="uid"),
                                  search=lambda *_: rows)
        with contextlib.redirect_stderr(io.StringIO()) as said:
            groups.Asked(typing.cast(Directory, told))
        lines = said.getvalue().splitlines()
        self.assertEqual(len(lines), 51)
        self.assertRegex(lines[0], r"left out: uid=0\\nx+ has no uid$")
        self.assertLess(max(map(len, lines)), 300)
        self.assertRegex(lines[-1], "left out: 4950 more$")

    def test_groups_in_groups(self) -> None:
        asked = groups.Asked.__new__(groups.Asked)
        told = argparse.Namespace(where=argparse.Namespace(members="member"), key=str)
        numbers = iter(range(1 << 40))
        asked.__dict__.update(directory=told, users={}, _find_group=lambda _what: "top",
                              _by_member=lambda _dn: ([], [str(next(numbers))]))
        with self.assertRaisesRegex(Stop, "more than 10000 groups in one another"):
            asked.members("staff")


if __name__ == "__main__":
    unittest.main()
