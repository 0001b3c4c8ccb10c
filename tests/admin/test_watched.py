"""Parts of check and tell that need no room."""
import contextlib
import os
import socketserver
import ssl
import subprocess
import sys
import tempfile
import threading
import time
import types
import typing
import unittest
import unittest.mock
from collections.abc import Iterator

sys.path.insert(0, os.path.join(os.path.dirname(__file__), "..", "..", "admin"))

from rooms_admin.backup import dates, for_search  # noqa: E402
from rooms_admin.cli.report import Refused  # noqa: E402
from rooms_admin.host import accounts, changes, locks, mail, root  # noqa: E402
from rooms_admin.room import health, server, settings  # noqa: E402
from rooms_admin.check import finding, front, verb_tell, watched  # noqa: E402
from rooms_admin.site import apply, certificates, served, setting_up, verb_set  # noqa: E402


class Answers(socketserver.StreamRequestHandler):
    """A server that is well."""

    def handle(self) -> None:
        while self.rfile.readline().strip():
            pass
        self.wfile.write(b"HTTP/1.1 200 OK\r\nContent-Length: 2\r\nConnection: close\r\n\r\n{}")


def certify(file: str) -> None:
    """A new certificate in a file, with its key."""
    subprocess.run(
        ["openssl", "req", "-x509", "-newkey", "ec", "-pkeyopt", "ec_paramgen_curve:P-256",
         "-noenc", "-subj", "/CN=rooms.example", "-keyout", f"{file}.key", "-out", file],
        check=True, stderr=subprocess.DEVNULL)


@contextlib.contextmanager
def by_tls(file: str) -> Iterator[str]:
    """Whatever comes is shown the certificate that was read at the beginning."""
    context = ssl.create_default_context(ssl.Purpose.CLIENT_AUTH)
    context.load_cert_chain(file, f"{file}.key")
    with socketserver.ThreadingTCPServer(("127.0.0.1", 0), Answers) as there:
        there.socket = context.wrap_socket(there.socket, server_side=True)
        threading.Thread(target=there.serve_forever, daemon=True).start()
        yield f"127.0.0.1:{there.server_address[1]}"
        there.shutdown()


class Watched(unittest.TestCase):
    @staticmethod
    def hangs() -> list[finding.Finding]:
        time.sleep(60)
        return []

    def test_accounts_beside_nginx(self) -> None:
        """By the group's row, or as their first one."""
        group = types.SimpleNamespace(gr_gid=33, gr_mem=["mallory", "www-data"])
        with tempfile.TemporaryDirectory() as at, \
                unittest.mock.patch.object(accounts, "ROOT", at), \
                unittest.mock.patch("grp.getgrnam", return_value=group):
            os.mkdir(f"{at}/etc")
            for rows, names in (("", "mallory"), ("web:x:1002:33::/:/bin/sh\n", "mallory, web")):
                with open(f"{at}/etc/passwd", "w", encoding="utf-8") as out:
                    out.write(f"www-data:x:33:33::/:/bin/sh\nbob:x:1001:100::/:/bin/sh\n{rows}")
                self.assertEqual(watched.see_accounts(), [(
                    finding.WARNING, "not safe: in the group www-data, and so any user of each "
                    f"room: {names}; gpasswd -d NAME www-data")])

    def test_a_disk_that_hangs(self) -> None:
        began = time.monotonic()
        found = watched.within(0.3, self.hangs, "/mnt")
        self.assertEqual(found, [(2, "/mnt doesn't answer within 0 s: does its disk hang?")])
        self.assertLess(time.monotonic() - began, 20)

    def test_a_look_that_ends(self) -> None:
        self.assertEqual(watched.within(60, lambda: [(1, "x" * 100_000)], "/mnt"),
                         [(1, "x" * 100_000)])

    def test_a_look_that_fails(self) -> None:
        def fails() -> list[finding.Finding]:
            raise OSError("no")
        self.assertEqual(watched.within(60, fails, "/mnt"), [(2, "/mnt can't be looked at")])

    def test_the_address_beside_other_sites(self) -> None:
        with tempfile.TemporaryDirectory() as home:
            os.makedirs(f"{home}/etc/nginx/sites-enabled")
            os.makedirs(f"{home}/etc/rooms")
            for name in ("nginx/sites-enabled/rooms", "rooms/site"):
                open(f"{home}/etc/{name}", "w", encoding="ascii").close()
            self.assertNotEqual(apply.address(home), "http://rooms.example/")
            open(f"{home}/etc/nginx/sites-enabled/intranet", "w", encoding="ascii").close()
            self.assertEqual(apply.address(home), "http://rooms.example/")

    def test_a_certificate_of_a_clock_that_was_ahead(self) -> None:
        with tempfile.TemporaryDirectory() as home, \
                unittest.mock.patch.object(certificates, "ROOT", home):
            certify(f"{home}/rooms.pem")
            pair = f"{home}/rooms.pem", f"{home}/rooms.pem.key"
            self.assertEqual(certificates.begins_later(pair[0]), "")
            with unittest.mock.patch.object(time, "time", return_value=time.time() - 7200):
                level, said = certificates.see_certificate("/rooms.pem")
                self.assertEqual(level, 2)
                self.assertIn("the certificate /rooms.pem doesn't count before ", said)
                with self.assertRaisesRegex(Refused, "too early: .*: is the clock right"):
                    setting_up.look_at_pair(changes.Changes(home, False), *pair)
            # Each night would say that nginx can't use it.
            with unittest.mock.patch.object(setting_up, "_UNSEEN", (f"{home}/",)), \
                    self.assertRaisesRegex(Refused, "no certificate: .* is in a home, "):
                setting_up.look_at_pair(changes.Changes(home, False), *pair)
            # What setup would refuse isn't written by set.
            named = {"CERTIFICATE": pair[0], "KEY": f"{home}/none"}
            text = "".join(f"{name}={value}\n" for name, value in named.items())
            with self.assertRaisesRegex(Refused, "no file: .*/none doesn't exist"):
                verb_set._need_pair(changes.Changes(home, False), settings.Front, text, named)

    def test_a_certificate_that_nginx_has_not_read(self) -> None:
        with tempfile.TemporaryDirectory() as home, \
                unittest.mock.patch.object(root, "ROOT", home):
            os.makedirs(f"{home}/etc/nginx/sites-enabled")
            os.makedirs(f"{home}/etc/rooms")
            with open(f"{home}/etc/rooms/site", "w", encoding="ascii") as site:
                site.write("HOSTS=rooms.example\n")
            certify(f"{home}/rooms.pem")
            with by_tls(f"{home}/rooms.pem") as place, \
                    unittest.mock.patch.object(served, "FRONT", place):
                open(f"{home}/etc/nginx/sites-enabled/rooms", "w", encoding="ascii").close()
                self.assertEqual(served.see_renewal("/rooms.pem"), "")
                certify(f"{home}/rooms.pem")
                self.assertEqual(served.see_renewal("/rooms.pem"), "nginx has another certificate "
                                 "than /rooms.pem: systemctl reload nginx")
                os.unlink(f"{home}/etc/nginx/sites-enabled/rooms")
                self.assertEqual(served.see_renewal("/rooms.pem"), "")
            # Where nobody answers another look says so.
            open(f"{home}/etc/nginx/sites-enabled/rooms", "w", encoding="ascii").close()
            with unittest.mock.patch.object(served, "FRONT", "127.0.0.1:1"):
                self.assertEqual(served.see_renewal("/rooms.pem"), "")

    def test_a_room_for_the_front_end_of_another_machine(self) -> None:
        with tempfile.TemporaryDirectory() as home, \
                unittest.mock.patch.object(root, "ROOT", home):
            os.makedirs(f"{home}/etc/rooms/machines")
            os.makedirs(f"{home}/etc/nginx/sites-enabled")
            room = typing.cast(typing.Any, types.SimpleNamespace(
                name="wiki", unit="rooms@wiki", behind=True))
            nothing = [(2, "nginx passes nothing on to its socket")]
            self.assertEqual(front.see_behind(room), nothing)
            with open(f"{home}/etc/nginx/sites-enabled/rooms", "w", encoding="ascii") as site:
                site.write("upstream room_wiki { server unix:/run/rooms/wiki/socket; }\n")
            machine = f"{home}/etc/rooms/machines/machine.pem"
            certify(machine)
            with by_tls(machine) as where, unittest.mock.patch.object(
                    front, "BEHIND", int(where.partition(":")[2])):
                self.assertEqual([level for level, _ in front.see_behind(room)], [0])
                certify(machine)
                (level, said), = front.see_behind(room)
                self.assertEqual((level, said), (
                    1, "nginx has another certificate than /etc/rooms/machines/machine.pem: "
                    "systemctl reload nginx"))
            with unittest.mock.patch.object(front, "BEHIND", 1):
                (level, said), = front.see_behind(room)
                self.assertEqual(level, 2)
                self.assertRegex(said, "^nginx doesn't answer at 1: ")
            room.behind = False
            self.assertEqual(front.see_behind(room), [])

    def test_a_room_on_another_machine(self) -> None:
        """It is asked as nginx asks it: by our certificate, the authority of machines alone, and
        the machine's name."""
        with tempfile.TemporaryDirectory() as home, \
                unittest.mock.patch.object(root, "ROOT", home):
            files = f"{home}/etc/rooms/machines"
            os.makedirs(files)

            def openssl(*words: str) -> None:
                subprocess.run(["openssl", *words], check=True, cwd=files, capture_output=True)

            certify(f"{files}/authority.pem")
            for name, called in (("front", "rooms-front"), ("machine", "localhost"),
                                 ("other", "other.example")):
                with open(f"{files}/{name}.ext", "w", encoding="ascii") as rules:
                    rules.write(f"subjectAltName=DNS:{called}\n")
                openssl("req", "-newkey", "ec", "-pkeyopt", "ec_paramgen_curve:P-256", "-noenc",
                        "-subj", f"/CN={called}", "-keyout", f"{name}.key", "-out", f"{name}.req")
                openssl("x509", "-req", "-in", f"{name}.req", "-CA", "authority.pem", "-CAkey",
                        "authority.pem.key", "-CAcreateserial", "-extfile", f"{name}.ext",
                        "-days", "9", "-out", f"{name}.pem")
            certify(f"{files}/stranger.pem")
            os.rename(f"{files}/stranger.pem.key", f"{files}/stranger.key")
            self.assertEqual(self.elsewhere(home, "machine", b"200 OK"), [(0, "localhost answers")])
            self.assertEqual(self.elsewhere(home, "machine", b"502 Bad Gateway"), [
                (2, "localhost answers 502 for it: rooms-admin check on that machine")])
            for name, why in (("other", "mismatch"), ("stranger", "verify failed")):
                (level, said), = self.elsewhere(home, name, b"200 OK")
                self.assertEqual(level, 2)
                self.assertRegex(said, f"^localhost doesn't answer at [0-9]+: .*{why}")

    def elsewhere(self, home: str, name: str, status: bytes) -> list[finding.Finding]:
        """What is said of a room where this certificate and this status are what comes. A machine
        that is away isn't asked again."""
        files = f"{home}/etc/rooms/machines"
        context = ssl.create_default_context(ssl.Purpose.CLIENT_AUTH,
                                             cafile=f"{files}/authority.pem")
        context.load_cert_chain(f"{files}/{name}.pem", f"{files}/{name}.key")
        context.verify_mode = ssl.CERT_REQUIRED
        asked: list[bytes] = []

        class Answer(socketserver.StreamRequestHandler):
            def setup(self) -> None:
                self.request = context.wrap_socket(self.request, server_side=True)
                super().setup()

            def handle(self) -> None:
                while line := self.rfile.readline().strip():
                    asked.append(line)
                self.wfile.write(b"HTTP/1.1 " + status + b"\r\nContent-Length: 0\r\n\r\n")

        class Server(socketserver.ThreadingTCPServer):
            def handle_error(self, *_given: object) -> None:
                pass

        with Server(("127.0.0.1", 0), Answer) as there:
            threading.Thread(target=there.serve_forever, daemon=True).start()
            path = f"{home}/invoices.on"
            with open(path, "w", encoding="ascii") as out:
                out.write(f"TITLE=x\nON=localhost\nPORT={there.server_address[1]}\n")
            machines: dict[str, list[finding.Finding]] = {}
            found = watched.of_place(path, machines)
            there.shutdown()
        (level, said), = watched.of_place(path, {})
        self.assertEqual(level, 2)
        self.assertRegex(said, "^localhost doesn't answer at [0-9]+: .*refused")
        is_away = any(machines.values())
        self.assertEqual(watched.of_place(path, machines) == found, is_away)
        self.assertEqual(asked[:1], [] if is_away else [b"GET /invoices/can/ HTTP/1.1"])
        return found

    def test_a_watch_that_does_not_stay(self) -> None:
        room = typing.cast(typing.Any, types.SimpleNamespace(name="office"))
        for restarts, since, stays in ((0, 1, True), (9, 1, True), (10, 1, False), (10, 90, True)):
            began = int((time.monotonic() - since) * 1e6)
            said = f"NRestarts={restarts}\nActiveEnterTimestampMonotonic={began}"
            with unittest.mock.patch.object(server, "systemctl", return_value=(0, said)):
                self.assertEqual(health.units(room), "" if stays else (
                    "rooms-full@office doesn't stay: systemctl status rooms-full@office"))
        with unittest.mock.patch.object(server, "systemctl", return_value=(1, "")):
            self.assertEqual(health.units(room), "")

    def test_a_room_is_asked_where_it_listens(self) -> None:
        """At its socket. The server of a unit of somebody's own may have a port in its place; one
        beside SOCKET=yes, of a version before, is only in reserve."""
        with tempfile.TemporaryDirectory() as home, \
                unittest.mock.patch.object(server, "state", return_value="active"), \
                unittest.mock.patch.object(locks, "RUN", home), \
                socketserver.ThreadingTCPServer(("127.0.0.1", 0), Answers) as there:
            port = str(there.server_address[1])
            threading.Thread(target=there.serve_forever, daemon=True).start()
            place = f"{home}/rooms/office/socket"
            os.makedirs(os.path.dirname(place))

            def told(of_socket: str, of_port: str) -> str:
                with open(f"{home}/office.conf", "w", encoding="ascii") as file:
                    file.write(f"FILE={home}/F\nBACKUPS={home}\nPROGRAM=/bin/true\n"
                               f"SOCKET={of_socket}\nPORT={of_port}\n")
                room = settings.room(f"{home}/office.conf")
                text = health.answer(room, 1)
                self.assertEqual(watched.see_answer(room)[:1] == [(2, silent(room))], bool(text))
                return text

            def silent(room: settings.Room) -> str:
                return f"{room.unit} doesn't answer (active): systemctl status {room.unit}"

            self.assertEqual(told("", port), "")
            self.assertIn(f"doesn't answer at {place} ", told("", ""))
            self.assertIn(f"doesn't answer at {place} ", told("yes", port))
            self.assertIn(f"doesn't answer at {place} ", told("yes", ""))
            with socketserver.ThreadingUnixStreamServer(place, Answers) as at_socket:
                threading.Thread(target=at_socket.serve_forever, daemon=True).start()
                for of_socket in ("", "yes"):
                    for of_port in ("1", ""):
                        self.assertEqual(told(of_socket, of_port), "")
                at_socket.shutdown()
            # A socket without a server, beside whatever has the port.
            self.assertIn(f"doesn't answer at {place} ", told("", port))
            there.shutdown()

    def test_why_there_are_no_earlier_nights(self) -> None:
        room = settings.Room(conf="/etc/rooms/office.conf", file="/f/F", port="8780", owner=0,
                             group=0, backups="/b", unit="rooms@office", program="/bin/true")
        for place, told in (("/var/backups/rooms", ""), ("/", ""), ("/homes", ""), ("/b", ""),
                            ("/home", "/home"), ("/var/lib/x", "/var/lib"),
                            ("/var/backups/../../root", "/root"), ("/var/tmp", "/var/tmp")):
            room.backups = place
            self.assertEqual(watched.see_nights(room), [
                (0, f"no earlier nights, since BACKUPS is below {told}")] if told else [])
        room.earlier = "no"
        self.assertEqual(watched.see_nights(room), [])

    def test_texts_that_nobody_searches(self) -> None:
        """After a restore, and of a clock that was ahead, none are searched until the next
        night."""
        room = settings.Room(conf="/etc/rooms/office.conf", file="/f/F", port="8780", owner=0,
                             group=0, backups="/b", unit="rooms@office", program="/bin/true",
                             search=True)
        none = (1, "no texts are searched yet: systemctl start rooms-nightly@office")
        now = time.time()
        with tempfile.TemporaryDirectory() as home, \
                unittest.mock.patch.object(dates, "FOLDER", home), \
                unittest.mock.patch.object(for_search, "PLACE", home), \
                unittest.mock.patch.object(for_search, "ROOT", ""), \
                unittest.mock.patch.object(watched.shutil, "which", return_value="/bin/true"):
            self.assertEqual(watched.see_search(room), [none])
            os.makedirs(f"{home}/office/night.{int(now - 7200) * 1000}")
            self.assertEqual(watched.see_search(room), [])
            for ago, found in ((7300, []), (3600, [none])):
                with open(f"{home}/office.words", "w", encoding="ascii") as words:
                    words.write(f'{{"number": 1, "at": {int(now - ago) * 1000}, "restored": 0}}\n'
                                f'{{"number": 2, "at": {int(now) * 1000}, "forget": "eve"}}\n')
                self.assertEqual(watched.see_search(room), found)
            os.unlink(f"{home}/office.words")
            os.makedirs(f"{home}/office/night.{int(now + 7200) * 1000}")
            self.assertEqual(watched.see_search(room), [none])

    def test_a_server_that_groups_have_left(self) -> None:
        """Its check says what starts it."""
        room = settings.Room(conf="/etc/rooms/office.conf", file="/f/F", port="8780", owner=0,
                             group=0, backups="/b", unit="rooms@office", program="/bin/true")
        with tempfile.TemporaryDirectory() as run, \
                unittest.mock.patch.object(locks, "RUN", run), \
                unittest.mock.patch.object(watched.awaited, "is_well", return_value=False), \
                unittest.mock.patch.object(server, "state", return_value="inactive"):
            self.assertIn("systemctl status", watched.see_answer(room)[0][1])
            open(server.left_at_rest(room), "w").close()
            self.assertEqual(watched.see_answer(room), [
                (2, "rooms@office was stopped by a verb that was cut off: rooms-admin groups "
                 "--after --room office")])

    def test_what_nginx_says_of_its_files(self) -> None:
        """Its first line that is no warning; nothing where it shows no room, or to others than
        root; and it isn't waited for."""
        with tempfile.TemporaryDirectory() as place, \
                unittest.mock.patch.dict(os.environ, PATH=f"{place}:{os.environ['PATH']}"), \
                unittest.mock.patch.object(root, "ROOT", place), \
                unittest.mock.patch.object(os, "geteuid", return_value=0) as who:
            def nginx(script: str) -> list[finding.Finding]:
                with open(f"{place}/nginx", "w", encoding="ascii") as file:
                    file.write(f"#!/bin/sh\n{script}\n")
                os.chmod(f"{place}/nginx", 0o755)
                return front.see_files()

            refuses = ("[ \"$*\" = '-t -q' ] || exit 0; printf '%s\\n' '2026/12/01 [warn] 8#8: a' "
                       "'2026/12/01 [emerg] 8#8: b' 'nginx: c'; exit 1")
            self.assertEqual(nginx(refuses), [])
            os.makedirs(f"{place}/etc/nginx/sites-enabled")
            os.symlink("../sites-available/rooms", f"{place}/etc/nginx/sites-enabled/rooms")
            self.assertEqual(nginx(refuses), [
                (2, "nginx refuses its files, and can't start again: b: mend that line, "
                 "and look by nginx -t")])
            self.assertIn(" again: b: ", nginx("echo 'nginx: [emerg] b'; exit 1")[0][1])
            self.assertEqual(nginx("echo 'nginx: [warn] a'"), [])
            self.assertIn("it says nothing", nginx("exit 1")[0][1])
            with unittest.mock.patch.object(front, "PATIENCE", 0.2):
                self.assertEqual(nginx("exec sleep 60"), [(1, "nginx takes more than 0 s")])
            who.return_value = 1000
            self.assertEqual(nginx(refuses), [])

    def test_who_is_mailed(self) -> None:
        with tempfile.TemporaryDirectory() as home:
            settings.HOME = home
            self.assertEqual(verb_tell.mail_of("office"), "root")
            for text, wanted in (("MAIL=root\nMAIL=alice\n", "alice"), ("MAIL=\n", ""),
                                 ("MAIL=-x\n", ""), ("LIMIT=much\n", "root")):
                with open(f"{home}/office.conf", "w", encoding="ascii") as file:
                    file.write(text)
                self.assertEqual(verb_tell.mail_of("other"), wanted)
        # nginx ends where an account has its port.
        self.assertTrue(verb_tell._UNIT.fullmatch("nginx.service"))
        self.assertFalse(verb_tell._UNIT.fullmatch("ssh.service"))

    def test_a_name_stands_for_its_settings(self) -> None:
        settings.HOME = "/etc/rooms"
        for name in ("office", ""):
            self.assertEqual(settings.file_of(name), "/etc/rooms/office.conf")
        for path in ("./office", "/srv/x.conf"):
            self.assertEqual(settings.file_of(path), path)

    def test_no_line_of_a_mail_is_a_command(self) -> None:
        sent: list[str] = []

        def tells(_words: list[str], text: str) -> bool:
            sent.append(text)
            return True

        with unittest.mock.patch.object(mail, "_hand", tells):
            mail.deliver("root", "x", ["a\n~! b", "~q"])
        self.assertEqual(sent, ["a\n ~! b\n ~q\n"])


if __name__ == "__main__":
    unittest.main()
