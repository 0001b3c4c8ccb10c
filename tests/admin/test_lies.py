"""A directory that somebody has taken over, and answers what it wants: python3 -m unittest
test_lies, with CERTIFICATE, KEY and CA for what it says by TLS."""
import os
import resource
import sys
import tempfile
import time
import unittest
import unittest.mock

_HERE = os.path.dirname(os.path.abspath(__file__))
sys.path.insert(0, os.path.join(_HERE, "..", "..", "admin"))

from lying_directory import Liar  # noqa: E402
from rooms_admin.cli.report import Stop  # noqa: E402
from rooms_admin.directory import directory, groups  # noqa: E402
from rooms_admin.room import names, settings  # noqa: E402
from rooms_admin.site import apache  # noqa: E402

WAIT = 2


def directory_of(liar: Liar, authority: str = "") -> directory.Directory:
    return directory.Directory(settings.Directory(
        uri=liar.address, base="dc=example,dc=net", wait=WAIT, ca=authority))


class Believed(unittest.TestCase):
    def test_those_that_the_machine_trusts(self) -> None:
        """Where no CA is named. With GnuTLS, as on Debian 12, a connection has none by itself."""
        asked = unittest.mock.MagicMock()
        with tempfile.NamedTemporaryFile() as trusted, \
                unittest.mock.patch.object(settings, "_TRUSTED", trusted.name):
            where = settings.Directory(uri="ldaps://dc.office.example", base="dc=office,dc=example")
            directory.Link(where, asked)
            self.assertIn(unittest.mock.call(asked.OPT_X_TLS_CACERTFILE, trusted.name),
                          asked.initialize.return_value.set_option.mock_calls)
            self.assertEqual(apache.text("", "@CA@", where, ""),
                             f"LDAPTrustedGlobalCert CA_BASE64 {trusted.name}")


class Lies(unittest.TestCase):
    def setUp(self) -> None:
        for name, value in (("MEMORY", 64 << 20), ("_CONNECTS", 3)):
            less = unittest.mock.patch.object(directory, name, value)
            less.start()
            self.addCleanup(less.stop)

    def search(self, kind: str, *pair: str, authority: str = "") -> list[directory.Entry]:
        return directory_of(Liar(kind, *pair), authority).search(
            "dc=example,dc=net", True, "(objectClass=person)", ["uid"])

    def fails(self, kind: str, how: str, *pair: str, authority: str = "") -> None:
        began = time.monotonic()
        with self.subTest(kind), self.assertRaisesRegex(Stop, "^the directory failed: .*" + how):
            self.search(kind, *pair, authority=authority)
        self.assertLess(time.monotonic() - began, WAIT + 6, kind)

    def test_what_it_says_ends(self) -> None:
        before = resource.getrusage(resource.RUSAGE_SELF).ru_maxrss
        for kind in ("dripping", "cut", "strange", "endless"):
            self.fails(kind, f"(no answer within {WAIT} seconds|memory)")
        self.fails("large", "memory")
        # What it said isn't in the memory of who asks.
        self.assertLess(resource.getrusage(resource.RUSAGE_SELF).ru_maxrss - before, 64 << 10)

    def test_much_is_no_answer(self) -> None:
        asked = directory_of(Liar("endless"))
        asked.where.wait = 120
        with self.assertRaisesRegex(Stop, "^the directory failed: .*memory"):
            asked.search("dc=example,dc=net", True, "(objectClass=person)", ["uid"])

    def test_each_code_but_one_is_a_fault(self) -> None:
        for code in (1, 3, 4, 10, 14, 32, 49, 51, 53, 80, 118):
            self.fails(f"search {code}", "")
            self.fails(f"bind {code}", "")

    def test_its_words_are_one_line(self) -> None:
        with self.assertRaises(Stop) as stopped:
            self.search("bind 53")
        self.assertTrue(str(stopped.exception).isprintable())
        self.assertLess(len(str(stopped.exception)), 400)

    def asked_of(self, kind: str) -> tuple[str, float]:
        """Who is in the group g0 of such a directory, or what is told; and the MB that this took,
        with the process that asks. As much memory as an office has, and as much time."""
        ours, theirs = os.pipe()
        liar = Liar(kind)
        child = os.fork()
        if child == 0:
            where = settings.Directory(uri=liar.address, base="dc=example,dc=net", members="member")
            directory.MEMORY = 256 << 20
            try:
                asked = groups.Asked(directory.Directory(where))
                with unittest.mock.patch.object(
                        asked, "_find_group", return_value="cn=g0,ou=groups,dc=example,dc=net"):
                    text = ",".join(sorted(asked.members("g0")))
            except Stop as stop:
                text = str(stop)
            used = sum(resource.getrusage(of).ru_maxrss for of in (
                resource.RUSAGE_SELF, resource.RUSAGE_CHILDREN))
            os.write(theirs, f"{text}|{used >> 10}".encode())
            os._exit(0)
        os.waitpid(child, 0)
        os.close(theirs)
        with os.fdopen(ours) as source:
            text, _, used = source.read().rpartition("|")
        return text, float(used)

    def test_very_many_groups(self) -> None:
        """Somebody in all of them, a hundred people in each, groups in one another, and a name of
        very many parts."""
        for kind, said in (
                ("groups 10000", "alice"), ("groups 100000", "alice"),
                ("full 1000", ""), ("full 100000", "the directory failed: "),
                ("chain 9000", "alice"), ("long 4000000", "alice"),
                ("chain 20000", "the directory failed, at 'g0': more than 10000 groups in one an")):
            began = time.monotonic()
            with self.subTest(kind):
                text, used = self.asked_of(kind)
                self.assertTrue(text.startswith(said) and bool(text) == bool(said), text)
                # (512 of the question, and this process)
                self.assertLess(used, 600, "MB")
                self.assertLess(time.monotonic() - began, 60)

    def test_names_are_what_they_are(self) -> None:
        found = [text for one in self.search("names") for text in one.values["uid"]]
        self.assertEqual(len(found), 16)
        self.assertEqual([one for one in found if names.is_user(one)], ["alice"])

    def test_no_other_directory_is_asked(self) -> None:
        self.assertEqual(self.search("referring"), [])

    def test_no_password_without_tls(self) -> None:
        """Somebody between refuses TLS, agrees and goes on without, or says nothing."""
        with tempfile.TemporaryDirectory() as folder:
            secret = os.path.join(folder, "secret")
            with open(os.open(secret, os.O_WRONLY | os.O_CREAT, 0o600), "wb") as file:
                file.write(b"reader-word\n")
            refusals = [f"starttls {code}" for code in (1, 2, 52, 53)]
            for kind in (*refusals, "stripped", "silent"):
                liar = Liar(kind)
                asked = directory_of(liar)
                asked.where.bind, asked.where.secret = "uid=reader,dc=example,dc=net", secret
                began = time.monotonic()
                with self.subTest(kind), self.assertRaisesRegex(Stop, "^the directory failed: "), \
                        unittest.mock.patch.object(settings, "is_this_machine", return_value=False):
                    asked.search("dc=example,dc=net", True, "(objectClass=person)", ["uid"])
                self.assertLess(time.monotonic() - began, WAIT + 6, kind)
                self.assertIn(b"1.3.6.1.4.1.1466.20037", liar.heard, kind)
                self.assertNotIn(b"reader", liar.heard, kind)

    def test_by_tls(self) -> None:
        pair, authority = (os.environ["CERTIFICATE"], os.environ["KEY"]), os.environ["CA"]
        self.assertEqual([one.values for one in self.search("search 0", *pair,
                                                            authority=authority)],
                         [{"uid": ["alice"]}])
        self.fails("search 0", "", *pair)
        self.fails("cut", "no answer within", *pair, authority=authority)


if __name__ == "__main__":
    unittest.main()
