"""Each verb about a room that this machine only shows says where it is, and what is typed there."""
import contextlib
import io
import os
import tempfile
import unittest
import unittest.mock

from rooms_admin import __main__
from rooms_admin.cli.table import VERBS
from rooms_admin.passwords import passwords

# Behind each verb what it needs; these have the room's name in another way, or are of no room.
OTHERS = {"rooms", "check", "add", "remove", "setup", "certificate"}
WORDS: dict[str, list[str]] = {
    "user": ["change", "eve", "--add", "staff"], "handover": ["LISTS", "eve", "bob"],
    "who": ["/plans"], "would": ["move", "/a", "/b"], "list": ["show", "/plans"],
    "lists": ["/plans"], "import": ["/etc", "/in"], "export": ["/plans", "/nowhere/plans"],
    "get": ["latest", "/plan"], "restore": ["latest"], "set": ["KEEP=3"],
    **{verb: [] for verb in ("members", "groups", "until", "people", "mine", "records", "backup",
                             "backups", "latest", "standby", "doctor", "full")}}


class Elsewhere(unittest.TestCase):
    def setUp(self) -> None:
        held = tempfile.TemporaryDirectory()
        self.addCleanup(held.cleanup)
        self.place = held.name
        for name, text in (("bills.on", "ON=b.example\nPORT=8443\n"),
                           ("site", "HOSTS=rooms.example\n"),
                           ("lists", "folder eve staff /\nfolder bob staff /plans\n")):
            with open(f"{self.place}/{name}", "w", encoding="ascii") as file:
                file.write(text)
        patched = contextlib.ExitStack()
        self.addCleanup(patched.close)
        for name in ("cli.report.catch_signals", "cli.output.open_all", "host.unheld.go_on"):
            patched.enter_context(unittest.mock.patch(f"rooms_admin.{name}"))
        for name in ("room.settings.HOME", "host.locks.FOLDER"):
            patched.enter_context(unittest.mock.patch(f"rooms_admin.{name}", self.place))
        self.addCleanup(os.chdir, os.getcwd())
        self.addCleanup(os.umask, os.umask(0o077))

    def said(self, *words: str) -> tuple[int, str]:
        out = io.StringIO()
        with contextlib.redirect_stdout(out), contextlib.redirect_stderr(out):
            status = __main__.main(list(words), "rooms-admin")
        return status, out.getvalue()

    def test_each_verb_has_words_here(self) -> None:
        self.assertEqual(set(WORDS) | OTHERS, set(VERBS))

    def test_what_is_typed_there(self) -> None:
        lists = f"{self.place}/lists"
        for verb, found in WORDS.items():
            words = [lists if one == "LISTS" else one for one in found]
            status, said = self.said(verb, *words, "--room", "bills")
            typed = " ".join(["rooms-admin", verb, *words, "--room", "bills"])
            self.assertEqual(status, 2, f"{verb}: {said}")
            self.assertIn("the room bills is on b.example", said, verb)
            self.assertIn(f"there: {typed}\n", said, verb)

    def test_of_a_room_that_is_nowhere(self) -> None:
        self.assertNotIn("elsewhere", self.said("backups", "--room", "none")[1])

    def test_its_address_and_its_name(self) -> None:
        said = self.said("export", "/plans", "/nowhere/plans", "--room", "bills")[1]
        self.assertIn("here by its address, --room http://rooms.example/bills; ", said)
        self.assertIn("there: rooms-admin doctor bills\n", self.said("doctor", "bills")[1])

    def test_passwords_are_here(self) -> None:
        with unittest.mock.patch.object(passwords, "password_files", lambda _: []):
            status, said = self.said("user", "list", "--room", "bills")
        self.assertEqual(status, 0, said)
        self.assertIn("passwords alone: the room bills is on b.example", said)
        said = self.said("user", "add", "eve", "--groups", "a,b", "--room", "bills")[1]
        self.assertIn("there: rooms-admin user change eve --add a,b --room bills\n", said)
