"""The pure parts: python3 -m unittest test_pure. Black boxes are the parts beside it."""
import argparse
import contextlib
import io
import os
import random
import re
import subprocess
import sqlite3
import tempfile
import unittest
import unittest.mock

from rooms_admin.cli import manual, report, table, words
from rooms_admin.host import safe
from rooms_admin.room import names, published, settings, waits
from rooms_admin.backup import backups
from rooms_admin.lists import dump
from rooms_admin.site import adding, template, values
from rooms_admin.cli.report import Refused
from rooms_admin.host.changes import Changes
from rooms_admin.room.size import Used

HERE = os.path.dirname(os.path.abspath(__file__))


class Names(unittest.TestCase):
    def test_objects(self) -> None:
        for good in (b"a", b"x" * 255, "ä".encode(), b".hidden", b"...", b" ", b"-rf", b"a\\b"):
            self.assertTrue(names.is_object(good), good)
        for bad in (b"", b".", b"..", b"a/b", b"../../x", b"x" * 256, b"\xff", b"a\n", b"\x7f",
                    b"\0", b"\xed\xa0\x80"):
            self.assertFalse(names.is_object(bad), bad)

    def test_users(self) -> None:
        for good in ("bob", "OFFICE\\bob", "a@b.c", "x" * 64, "$", "a+b"):
            self.assertTrue(names.is_user(good), good)
        for bad in ("", "jürgen", "a b", "x" * 65, "a@", "a@b@c", "bob\n", "b\u0131b"):
            self.assertFalse(names.is_user(bad), bad)

    def test_rooms(self) -> None:
        self.assertTrue(names.is_room("a-1"))
        for bad in ("", "-a", "a-", "bü", "A", "a" * 33, "a\n"):
            self.assertFalse(names.is_room(bad), bad)

    def test_shown_is_what_bash_reads(self) -> None:
        chance = random.Random(1)
        some = [bytes(chance.choice(b"ab \n\t\\'\"$`!*?[~#&;\x1b\x7f\xc3\xa4\xff\x01")
                      for _ in range(chance.randrange(1, 9))) for _ in range(300)]
        text = "".join(f"printf '%s\\0' {names.shown(one)}\n" for one in some)
        got = subprocess.run(["bash", "-c", text], capture_output=True, check=True,
                             env={"LC_ALL": "C.UTF-8"}).stdout
        self.assertEqual(got.split(b"\0")[:-1], some)
        for one in some:
            self.assertNotRegex(names.shown(one), r"[\x00-\x1f\x7f]")

    def test_what_is_not_seen(self) -> None:
        """Each verb writes it in another way: in a path as bash reads it, and elsewhere by its
        number."""
        for sign in "\u3164\u2800\u034f\u202e\u200b\u061c\u00a0\uffa0\x9b\x7f":
            self.assertEqual(report.plain(f"a{sign}b"), f"a{ascii(sign)[1:-1]}b")
            octal = "".join(f"\\{byte:03o}" for byte in sign.encode())
            self.assertEqual(names.shown(f"/a{sign}b".encode()), f"$'/a{octal}b'")
            one = dump.Object("folder", "alice", "staff", f"/a b{sign}".encode())
            self.assertEqual(one.line(), f"folder alice staff $'/a b{octal}'")
        self.assertEqual(dump.Object("folder", "alice", "staff", b"/a b").line(),
                         "folder alice staff /a b")

    def test_encoded(self) -> None:
        self.assertEqual(names.encoded(b"/a b/%?#\xff~"), "/a%20b/%25%3F%23%FF~")


class Settings(unittest.TestCase):
    def test_this_machine(self) -> None:
        for here in ("127.0.0.1", "127.1", "localhost:389", "LOCALHOST", "[::1]", "[::1]:389"):
            self.assertTrue(settings.is_this_machine(here), here)
        for other in ("127.a.b.c.example", "127.0.0.1.example", "localhost.example", "1127.0.0.1",
                      "[::2]", "[::1]x", "", "10.0.0.1"):
            self.assertFalse(settings.is_this_machine(other), other)

    def test_lines(self) -> None:
        with tempfile.TemporaryDirectory() as at:
            place = os.path.join(at, "f")
            for text in ("rm -rf /", "OTHER=x", "FILE", "=x"):
                with open(place, "w", encoding="utf-8") as out:
                    out.write(text)
                with self.assertRaises(Refused):
                    settings.values(place, {"FILE": ""})
            with open(place, "w", encoding="utf-8") as out:
                out.write("# c\nFILE=a\n\nFILE=b=c")
            self.assertEqual(settings.values(place, {"FILE": ""}), {"FILE": "b=c"})

    def test_a_units_reading_is_the_same(self) -> None:
        """systemd reads the same file, by rules of its own for quotes, backslashes and blanks."""
        with tempfile.TemporaryDirectory() as at:
            place = os.path.join(at, "room.conf")

            def read(*rows: str) -> settings.Room:
                with open(place, "w", encoding="utf-8", newline="\n") as out:
                    out.write("".join(row + "\n" for row in (f"FILE={at}/F", f"BACKUPS={at}",
                                                             "PROGRAM=/bin/true", *rows)))
                return settings.room(place)
            for good in ('TITLE="All of them"', "TITLE=Bob's", "TITLE=a\\b", f"FILE={at}/a b",
                         "PORT=65535", 'TITLE="a" b"', "# \"a'"):
                self.assertTrue(read(good), good)
            for bad in ('TITLE="All of them', "TITLE='", "TITLE=x\\", "KEEP=9\\", "TITLE= 'a",
                        'TITLE="a" "b', "TITLE='a'\t'", 'TITLE="a\\"', "# a folder C:\\"):
                with self.assertRaisesRegex(Refused, "line 4 goes on in the next one", msg=bad):
                    read(bad)
            # A carriage return ends a line: what is behind it would be a variable of root's.
            for bad in ("TITLE=x\rLD_PRELOAD=/x", "# x\rLD_PRELOAD=/x", "KEEP=9\r", "MAIL=\0",
                        "TITLE='a'\rFILE=/x", "TITLE=x\x0b", "TITLE=x\x7f"):
                with self.assertRaisesRegex(Refused, "line 4 has a control character", msg=bad):
                    read(bad)
            for bad in (f"FILE={at}/F ", f"FILE={at}/F\t", f"FILE={at}/a\\b", f'FILE="{at}/F"',
                        "PORT=65536", "PORT=70000"):
                with self.assertRaisesRegex(Refused, "^bad settings: (FILE|PORT) in ", msg=bad):
                    read(bad)

    def test_a_rooms_name_is_that_of_its_settings(self) -> None:
        """Whatever its unit is called: where its server listens goes by that alone."""
        with tempfile.TemporaryDirectory() as at:
            place = os.path.join(at, "law.conf")
            for unit in ("", "documents", "rooms@law", "documents@x"):
                with open(place, "w", encoding="utf-8") as out:
                    out.write(f"FILE={at}/F\nBACKUPS={at}\nPROGRAM=/bin/true\nSOCKET=yes\n"
                              f"UNIT={unit}\n")
                room = settings.room(place)
                with self.subTest(unit):
                    self.assertEqual(
                        (room.name, room.nightly, room.flag, settings.place(place).flag,
                         backups.folder(room), published.name_of(room), room.beside(".names")),
                        ("law", "rooms-nightly@law", "law.full", "law.full", f"{at}/law", "law",
                         f"{at}/law.names"))
                    self.assertEqual(os.path.basename(os.path.dirname(room.listens)),
                                     {"": "law", "rooms@law": "law", "documents@x": "x"}.get(
                                         unit, unit))
            for path, name in (("/e/law.on", "law"), ("law", "law"), ("/e/...conf", "room"),
                               ("./a.b.conf", "a.b")):
                self.assertEqual(settings.name_of(path), name)

    def test_whose_they_are(self) -> None:
        """What settings name is run, as root too: so nobody else may have written them."""
        with tempfile.TemporaryDirectory() as at:
            place = os.path.join(at, "f")
            with open(place, "w", encoding="utf-8") as out:
                out.write("PROGRAM=/tmp/p\n")
            for mode in (0o644, 0o600, 0o444):
                os.chmod(place, mode)
                self.assertEqual(settings.value(place, "PROGRAM"), "/tmp/p")
            for mode in (0o664, 0o646, 0o666):
                os.chmod(place, mode)
                with self.assertRaisesRegex(Refused, "^not safe: others can write to .*/f: chmod"):
                    settings.lines(place)
                self.assertEqual(settings.value(place, "PROGRAM"), "")
            os.chmod(place, 0o644)
            if os.geteuid() == 0:
                os.chown(place, 65534, 65534)
                with self.assertRaisesRegex(Refused, "^not safe: .*/f belongs to another user"):
                    settings.lines(place)
                # Nor by a link to it.
                os.symlink(place, f"{at}/link")
                with self.assertRaisesRegex(Refused, "^not safe: .*/link belongs to another user"):
                    settings.lines(f"{at}/link")
            os.mkfifo(f"{at}/pipe")
            with self.assertRaisesRegex(Refused, "^no settings: .*/pipe isn't a file"):
                settings.lines(f"{at}/pipe")

    def test_a_word_is_a_name(self) -> None:
        """Whatever the folder has in which root stands."""
        before = os.getcwd()
        with tempfile.TemporaryDirectory() as at, \
                unittest.mock.patch.object(settings, "HOME", "/etc/rooms-none"):
            os.chdir(at)
            try:
                for name in ("invoices", "invoices.conf", "office"):
                    with open(name, "w", encoding="utf-8") as out:
                        out.write("FILE=/x\nBACKUPS=/x\nPROGRAM=/bin/true\n")
                    self.assertEqual(settings.file_of(name), f"/etc/rooms-none/{name}.conf")
                    with self.assertRaisesRegex(Refused, "^no settings: /etc/rooms-none/"):
                        settings.room(name)
                self.assertEqual(settings.file_of("./invoices"), "./invoices")
                self.assertEqual(settings.file_of(""), "/etc/rooms-none/office.conf")
            finally:
                os.chdir(before)


class Lists(unittest.TestCase):
    """Where an office finds a list of settings, it has those that are read, and their values."""

    def lines(self, text: str) -> dict[str, str]:
        return dict(re.findall(r"^([A-Z_]+)=(.*)$", text, re.MULTILINE))

    def test_of_a_room(self) -> None:
        listed = self.lines(template.template("room.conf.in"))
        known = settings.known(settings.Room)
        self.assertEqual(sorted(listed), sorted(known))
        for name in ("KEEP", "PEOPLE", "OWN_PASSWORDS", "MEMORY", "LIMIT", "REVIEW", "STANDBY"):
            self.assertEqual(listed[name], known[name], name)

    def test_of_a_room_elsewhere(self) -> None:
        listed = self.lines(adding._text_of("hr", "b.example", "8443", "HR"))
        self.assertEqual(listed, settings.ELSEWHERE | {
            "TITLE": "HR", "ON": "b.example", "LARGEST": "100"})

    def test_of_the_site(self) -> None:
        with tempfile.TemporaryDirectory() as root, contextlib.redirect_stdout(io.StringIO()):
            values.put_site(Changes(root, False))
            with open(root + template.SETTINGS, encoding="utf-8") as source:
                self.assertEqual(self.lines(source.read()), settings.known(settings.Front))

    def test_of_a_directory(self) -> None:
        with open(f"{HERE}/../../docs/directory.md", encoding="utf-8") as source:
            page = source.read()
        text = page.partition("cat >/etc/rooms/directory <<'END'\n")[2].partition("END\n")[0]
        known = settings.known(settings.Directory)
        self.assertEqual(sorted(self.lines(text)), sorted(known))
        rows = re.findall(r"^- (`[A-Z]+`(?:, `[A-Z]+`)*): ", page, re.MULTILINE)
        self.assertEqual(sorted(re.findall("[A-Z]+", " ".join(rows))), sorted(known))

    def test_each_is_refused_by_its_name(self) -> None:
        bad = {"FILE": "x", "PORT": "0", "BACKUPS": "x", "KEEP": "-1", "MEMORY": "99",
               "LIMIT": "0", "STANDBY": "x", "MAIL": "-x", "REVIEW": "/x/", "REVIEWER": "a b",
               "UNIT": "-x", "PROGRAM": "x", "PASSWORDS": "none", "HOST": "a b", "BEHIND": "on",
               "DRIVE": "on", "LARGEST": "0", "DATES": "yes", "DATES_NAMES": "", "GUESTS": "on",
               "PEOPLE": "all", "OWN_PASSWORDS": "", "SEARCH": "", "SEARCH_SCANS": "121",
               "EARLIER": "yes", "EARLIER_FROM": "2026-13-40", "HOURS": "1000"}
        self.assertEqual({*bad, "TITLE"}, set(settings.known(settings.Room)))
        with tempfile.TemporaryDirectory() as at:
            place = os.path.join(at, "room.conf")
            for name, value in bad.items():
                with open(place, "w", encoding="utf-8") as out:
                    out.write(f"FILE={at}/F\nBACKUPS={at}\nPROGRAM=/bin/true\n{name}={value}\n")
                with self.assertRaisesRegex(Refused, f"^bad settings: {name} in .* isn't .*: '"):
                    settings.room(place)

    def test_lines_of_before_say_nothing(self) -> None:
        """Whatever they said; a port beside SOCKET=yes was in reserve."""
        with tempfile.TemporaryDirectory() as at:
            place = os.path.join(at, "room.conf")
            for door, socket, port in (("", "", "8780"), ("no", "yes", ""), ("yes", "1 2", "8780")):
                text = (f"FILE={at}/F\nBACKUPS={at}\nPROGRAM=/bin/true\n"
                        f"DOOR={door}\n# DOOR=\nSOCKET={socket}\nPORT=8780\n")
                with open(place, "w", encoding="utf-8") as out:
                    out.write(text)
                self.assertEqual((settings.room(place).port, settings.place(place).port),
                                 (port, port))
                self.assertEqual(values.gone(text), (text.replace(
                    f"\nDOOR={door}", f"\n# DOOR={door} says nothing any more: each room has its "
                    "door.").replace(f"\nSOCKET={socket}", f"\n# SOCKET={socket} says nothing any "
                                     "more: each room has its socket."), ["DOOR", "SOCKET"]))
            with open(place, "a", encoding="utf-8") as out:
                out.write("DOOR\n")
            with self.assertRaisesRegex(Refused, "^bad settings: .*, line 8 has none of"):
                settings.room(place)


class Safe(unittest.TestCase):
    def test_links_and_others(self) -> None:
        with tempfile.TemporaryDirectory() as place, safe.opened(safe.folder(place)) as at:
            os.symlink("/etc/passwd", f"{place}/link")
            os.mkfifo(f"{place}/pipe")
            for name in ("link", "pipe"):
                with self.assertRaises(safe.NoFile):
                    safe.file_below(at, name)
            with self.assertRaises(OSError):
                safe.new_file(at, "link", b"x")
            with self.assertRaises(OSError):
                safe.folder_below(at, "link")
            safe.new_file(at, "one", b"hello")
            with safe.opened(safe.file_below(at, "one")) as number:
                self.assertEqual(safe.read_at_most(number, 3), b"hell")

    def test_a_file_has_its_name_once_it_is_on_the_disk(self) -> None:
        """A power cut leaves the old file or the new one, and neither is half written."""
        with tempfile.TemporaryDirectory() as place:
            target = f"{place}/settings"
            did: list[str] = []
            sync, rename = os.fsync, os.rename

            def syncs(number: int) -> None:
                what = os.path.basename(os.readlink(f"/proc/self/fd/{number}"))
                did.append("sync folder" if what == os.path.basename(place) else f"sync {what}")
                sync(number)

            def renames(*given: str, **where: int) -> None:
                did.append(f"rename {given[0]} {given[1]}")
                rename(given[0], given[1], **where)

            with unittest.mock.patch.object(os, "fsync", syncs), \
                    unittest.mock.patch.object(os, "rename", renames):
                safe.put_file(target, b"FILE=a\n", 0o640)
            self.assertEqual(did, ["sync .settings.new", "rename .settings.new settings",
                                   "sync folder"])
            self.assertEqual(os.stat(target).st_mode & 0o777, 0o640)


class UsedBytes(unittest.TestCase):
    def test_a_look_reads_what_is_new(self) -> None:
        """A log may have grown to 100 MB, and it is looked at each second."""
        with tempfile.TemporaryDirectory() as place:
            file = f"{place}/F"
            link = sqlite3.connect(file, isolation_level=None)
            link.execute("PRAGMA journal_mode=WAL")
            link.execute("PRAGMA wal_autocheckpoint=0")
            link.execute("CREATE TABLE t (a BLOB)")
            for _ in range(300):
                link.execute("INSERT INTO t VALUES (zeroblob(20000))")
            known = Used()
            known.look(file)
            real = os.pread
            with unittest.mock.patch.object(os, "pread", side_effect=real) as reads:
                known.look(file)
                self.assertLess(reads.call_count, 5)
                link.execute("INSERT INTO t VALUES (1)")
                used = known.look(file)
                self.assertLess(reads.call_count, 20)
            self.assertEqual(used, Used().look(file))
            link.close()

    def test_it_is_what_sqlite_counts(self) -> None:
        chance = random.Random(2)
        with tempfile.TemporaryDirectory() as place:
            file = f"{place}/F"
            link = sqlite3.connect(file, isolation_level=None)
            link.execute("PRAGMA journal_mode=WAL")
            link.execute("CREATE TABLE t (a BLOB)")
            known = Used()
            for _ in range(60):
                link.execute("INSERT INTO t VALUES (zeroblob(?))", (chance.randrange(60000),))
                if chance.random() < 0.4:
                    link.execute("DELETE FROM t WHERE rowid % 3 = ?", (chance.randrange(3),))
                if chance.random() < 0.2:
                    link.execute("PRAGMA wal_checkpoint(RESTART)")
                pages, free, size = (link.execute(f"PRAGMA {one}").fetchone()[0] for one in
                                     ("page_count", "freelist_count", "page_size"))
                self.assertEqual(known.look(file), (pages - free) * size)
                self.assertEqual(Used().look(file), (pages - free) * size)
            link.close()


class Sites(unittest.TestCase):
    def test_a_room_is_where_its_settings_say(self) -> None:
        rooms = [settings.Place(name="office", port="8780", title="Office"),
                 settings.Place(name="hr"), settings.Place(name="ledger", behind=True)]
        text = template.render(template.template("site.conf.in"),
                               template.Site(settings.Front(hosts=["x"]), rooms, "/page"))
        for line in ("upstream room_office { server unix:/run/rooms/office/socket; }",
                     "upstream room_hr { server unix:/run/rooms/hr/socket; }",
                     "upstream room_ledger { server unix:/run/rooms/ledger/socket; }",
                     "upstream door_office { server unix:/run/rooms-door/office/socket; }",
                     "upstream door_hr { server unix:/run/rooms-door/hr/socket; }",
                     "upstream door_ledger { server unix:/run/rooms-door/ledger/socket; }",
                     "    office office.full;", "    hr hr.full;",
                     "    ledger ledger.full;"):
            self.assertIn(line + "\n", text)
        # Whoever asks a room waits for its copy. (15: who checks passwords)
        for name, others in (("read", {15.0}), ("send", set[float]())):
            waited = {float(one) for one in re.findall(rf" proxy_{name}_timeout (\d+)s;", text)}
            self.assertEqual(waited - others, {waits.ANSWER})
        self.assertGreater(waits.ANSWER, waits.LONGEST)

    def test_an_edited_file_stays(self) -> None:
        made_of = template.template("site.conf.in")
        rooms = [settings.Place(name="office", port="8780", title="Office"),
                 settings.Place(name="hr", port="8781", host="hr.example")]

        def shown(host: str) -> str:
            front = settings.Front(hosts=[host])
            return template.render(made_of, template.Site(front, rooms, "/page"))

        text = shown("x.example")
        self.assertFalse(template.is_edited(text))
        self.assertNotRegex(text, "@[A-Z]+@")
        with tempfile.TemporaryDirectory() as root:
            file = root + template.FILE
            os.makedirs(os.path.dirname(file))
            with open(file, "w", encoding="utf-8") as out:
                out.write(text + "# mine\n")
            self.assertTrue(template.is_edited(template.read(file)))
            template.keep_edited(root, shown("y.example"))
            self.assertEqual(template.read(file), text + "# mine\n")
            self.assertEqual(template.read(file + ".new"), shown("y.example"))


class Words(unittest.TestCase):
    """Options stand anywhere, and a room is named by one of them."""

    def read(self, verb: str, *typed: str) -> argparse.Namespace:
        return words.read(verb, manual.module_of(verb), typed)

    def told(self, verb: str, *typed: str) -> tuple[argparse.Namespace, str]:
        with contextlib.redirect_stderr(io.StringIO()) as said:
            return self.read(verb, *typed), said.getvalue().partition(": ")[2]

    def test_anywhere(self) -> None:
        for typed in (("--start", "latest"), ("latest", "--start")):
            given = self.read("restore", *typed)
            self.assertEqual((given.backup, given.start), ("latest", True))
        given = self.read("user", "add", "eve", "--groups", "sales,staff")
        self.assertEqual((given.what, given.name, given.groups), ("add", "eve", ["sales,staff"]))
        given = self.read("setup", "--dry-run", "--tls", "one.pem", "one.key", "--destdir", "/x")
        self.assertEqual((given.tls, given.destdir), (["one.pem", "one.key"], "/x"))
        given = self.read("export", "/letters", "--backup", "latest", "out", "-r", "hr")
        self.assertEqual((given.path, given.into, given.backup, given.room),
                         ("/letters", "out", "latest", "hr"))

    def test_room(self) -> None:
        for verb, *typed in (("backup",), ("get", "latest", "/letters/reply"), ("latest",),
                             ("import", "share", "/"), ("user", "add", "eve"), ("await",)):
            for named in (("-r", "hr"), ("--room", "hr"), ("--room=hr",)):
                for at in range(len(typed) + 1):
                    got, said = self.told(verb, *typed[:at], *named, *typed[at:])
                    self.assertEqual((got.room, said), ("hr", ""), (verb, at))
            self.assertEqual(self.told(verb, *typed)[0].room, "")
        got = self.read("check", "-r", "hr", "--room", "office")
        self.assertEqual(got.rooms, ["hr", "office"])
        self.assertEqual(self.read("check").rooms, [])

    def test_settings_are_named_from_here(self) -> None:
        """By each verb that has a room, since many go elsewhere before they read them."""
        here = os.getcwd()
        takes = [one for verb in table.VERBS for parser in [words.of(verb, manual.module_of(verb))]
                 for one in [parser, *parser.parts.values()]
                 if "--room" in one._option_string_actions]
        self.assertGreater(len(takes), 20)
        for one in takes:
            for word, path in (("hr", "hr"), ("./hr.conf", f"{here}/hr.conf"),
                               ("in/hr.conf", f"{here}/in/hr.conf"), ("/x/hr.conf", "/x/hr.conf"),
                               ("https://rooms.example/hr", "https://rooms.example/hr")):
                read = one._option_string_actions["--room"].type
                assert callable(read)
                self.assertEqual(read(word), path, one.prog)

    def test_dashes(self) -> None:
        self.assertEqual(self.read("user", "add", "-odd").name, "-odd")
        self.assertEqual(self.read("user", "add", "--", "--groups").name, "--groups")
        self.assertEqual(self.read("user", "add", "-odd", "--first", "--groups", "a").groups, ["a"])
        got = self.read("restore", "--", "--start")
        self.assertEqual((got.backup, got.start), ("--start", False))

    def test_what_is_wrong(self) -> None:
        for typed, what in (
                (["get"], "the following arguments are required: BACKUP, PATH"),
                (["get", "latest"], "the following arguments are required: PATH"),
                (["get", "-x", "latest"], "no such option: -x"),
                (["get", "latest", "/f", "g"], "a word too many: 'g'"),
                (["get", "latest", "/f", "--room"], "argument -r/--room: expected one argument"),
                (["backup", "--room", "hr", "office"], "a word too many: 'office'"),
                (["backup", "hr"], "a word too many: 'hr'"),
                (["latest", "--conf", "hr"], "no such option: --conf"),
                (["check", "hr"], "a word too many: 'hr'"),
                (["export", "hr", "/", "out"], "a word too many: 'out'"),
                (["export", "/", "out", "--backup"], "argument --backup: expected one argument"),
                (["groups", "--names", "--after"],
                 "argument --after: not allowed with argument --names"),
                (["setup", "--tls", "one.pem"], "argument --tls: expected 2 arguments"),
                (["rooms", "office"], "a word too many: 'office'"),
                (["user"], "the following arguments are required: WHAT"),
                (["user", "remove"], "the following arguments are required: NAME"),
                (["user", "--to", "add", "x"], "no such option: --to"),
                (["user", "list", "bob"], "a word too many: 'bob'"),
                (["user", "list", "--", "bob"], "a word too many: 'bob'"),
                (["user", "add", "bob", "--json"], "no such option: --json"),
                (["user", "remove", "a", "--to", "b", "--password"],
                 "argument --password: not allowed with argument --to"),
                (["tell", "--", "a", "--", "b"], "'--' stands twice"),
                (["import", "--room", "", "share", "/"], "a word is empty"),
                (["restore", ""], "a word is empty"),
                (["backup", "--room="], "the value of --room is empty")):
            with self.assertRaises(Refused) as caught:
                self.read(*typed)
            self.assertEqual(str(caught.exception).split("; rooms-admin ")[0],
                             f"bad arguments: {what}", typed)

    def test_how_it_is_typed_is_said_then(self) -> None:
        with self.assertRaisesRegex(Refused, r"; rooms-admin get \[--room ROOM\] BACKUP PATH$"):
            self.read("get")
        with self.assertRaisesRegex(
                Refused, r"; rooms-admin user remove \[--room ROOM\] \[--to HEIR \| --password\] "
                r"\[--dry-run\] NAME$"):
            self.read("user", "remove", "--password")
        with self.assertRaisesRegex(Refused, "'?add'?, '?change'?, '?rem.*; rooms-admin user add"):
            self.read("user", "rename", "bob")

    def test_what_is_explained(self) -> None:
        """All of a verb, or of a part of one, wherever that is asked."""
        for typed, usages in ((["get", "--help"], 1), (["get", "latest", "-h"], 1),
                              (["user", "-h"], 5), (["user", "add", "eve", "--help"], 2)):
            with self.assertRaises(words.Asked) as asked:
                self.read(*typed)
            text = manual.explain(typed[0], asked.exception.parser)
            self.assertEqual(text.count("Usage: rooms-admin "), usages, typed)
            self.assertEqual("--json" in text, usages == 5, typed)


if __name__ == "__main__":
    unittest.main()
