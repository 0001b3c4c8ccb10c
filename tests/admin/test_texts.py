"""What a backup's texts say, without a room: python3 -m unittest test_texts. Black boxes are
tests/admin/texts.sh."""
import contextlib
import dataclasses
import datetime
import io
import json
import os
import pathlib
import tempfile
import unittest

from rooms_admin.room import settings
from rooms_admin.lists import dump, end_dates, naming, reasons, records, review, verb_lists
from rooms_admin import __main__ as command
from rooms_admin.cli.report import Stop

ALL = "rwanNxDtThHdcCoy"
DUMP = f"""folder alice staff /
dacl
list:a
A:fd:alice:{ALL}
A:fdg:staff:rwaxtc
A::AUTHENTICATED@:xt
sacl
list:a
U:fdF:EVERYONE@:rx
folder alice staff /a "b"\\n, c\x20
dacl
list:ap
A::OFFICE\\nbob:C
sacl
list:a
U:fdFI:EVERYONE@:rx
folder carol sales /projects
dacl
list:a
A:fd:bob:r
A:g:until.2027-05-31.read.u.eve@alice:
A:fdI:alice:{ALL}
A:fdgI:staff:rwaxtc
sacl
list:a
U:fdFI:EVERYONE@:rx
document bob staff 7 /projects/of bob.txt
dacl
list:a
A:I:bob:r
A:I:alice:{ALL}
A:gI:staff:rwaxtc
sacl
list:a
U::bob:r
U:FI:EVERYONE@:rx
folder carol sales /projects/still
dacl
list:p
A:fdI:bob:r
sacl
list:ap
member sales bob
member staff a.bob
member staff dan
"""
REVIEW = f"""path,kind,user,rights,remove
/,folder,OFFICE\\nbob,xt,no
/,folder,a.bob,rwaxtc,no
/,folder,alice,{ALL},no
/,folder,bob,xt,no
/,folder,dan,rwaxtc,no
/,folder,*,xt,no
/,folder,ANONYMOUS@,,no
"/a ""b""\\n, c ",folder,OFFICE\\nbob,C,no
"/a ""b""\\n, c ",folder,a.bob,,yes
"/a ""b""\\n, c ",folder,alice,,yes
"/a ""b""\\n, c ",folder,bob,,no
"/a ""b""\\n, c ",folder,dan,,yes
"/a ""b""\\n, c ",folder,*,,no
/projects,folder,a.bob,rwaxtc,yes
/projects,folder,alice,{ALL},yes
/projects,folder,bob,r,no
/projects,folder,dan,rwaxtc,yes
/projects,folder,*,,no
/projects/of bob.txt,document,bob,r,yes
"""
RECORDS = '''at,user,path,bits,granted,entry,kind
1000,bob,"/projects/x, ""y""",r,no,1,audit
2000,,/projects,x,yes,2,alarm
3000,alice,/projects2,dD,yes,1,audit
-99999999999999999,OFFICE\\nbob,/projects,r,no,1,audit
'''


def rows(text: str = DUMP) -> list[dump.Object | dump.Pair]:
    return list(dump.whole(io.BytesIO(text.encode()), "lists.txt"))


def named(user: str, text: str = DUMP) -> list[str]:
    return [line for found in naming.of_user(rows(text), user) for line in found.lines()]


def named_as_group(group: str, text: str = DUMP) -> list[str]:
    return [line for found in naming.of_group(rows(text), group) for line in found.lines()]


def objects(text: str = DUMP) -> dict[bytes, dump.Object]:
    return {one.path: one for one in rows(text) if isinstance(one, dump.Object)}


class Lists(unittest.TestCase):
    def test_an_object_and_its_lists(self) -> None:
        one = objects()[b"/projects/of bob.txt"]
        self.assertEqual(dataclasses.astuple(one)[:5],
                         ("document", "bob", "staff", b"/projects/of bob.txt", "7"))
        self.assertEqual(one.line(), "document bob staff 7 /projects/of bob.txt")
        self.assertEqual(one.sacl, [b"list:a", b"U::bob:r", b"U:FI:EVERYONE@:rx"])
        self.assertEqual(objects()[b'/a "b"\\n, c '].dacl, [b"list:ap", b"A::OFFICE\\nbob:C"])
        self.assertEqual(rows()[-1], ("staff", "dan"))

    def test_what_is_no_dump(self) -> None:
        for bad, why in (
                ("", "doesn't begin"), ("at,user\n", "doesn't begin"),
                ("member staff bob\n", "doesn't begin"),
                ("folder a b /x\ndacl\nlist:a\nsacl\nlist:a\n", "doesn't begin"),
                (DUMP[:-1], "cut off"), (DUMP[:200], "cut off"),
                ("folder a b /\ndacl\nlist:a\nA::bob:r\n", "both lists"),
                ("folder a b /\nlist:a\nsacl\nlist:a\n", "both lists"),
                (DUMP + "folder a /x\n", "no line"), (DUMP + "document a b /x\n", "no line")):
            with self.assertRaisesRegex(Stop, f"^no lists: .*{why}"):
                rows(bad)

    def test_the_lists_below_a_place_that_are_their_own(self) -> None:
        def below(path: bytes, which: str) -> list[bytes]:
            return [one.path for one in verb_lists.at(rows(), path, which)]
        self.assertEqual(below(b"/projects", "dacl"), [b"/projects", b"/projects/still"])
        self.assertEqual(below(b"/projects", "sacl"),
                         [b"/projects", b"/projects/of bob.txt", b"/projects/still"])
        self.assertEqual(below(b"/", "dacl"),
                         [b"/", b'/a "b"\\n, c ', b"/projects", b"/projects/still"])
        self.assertEqual(below(b"/proj", "dacl"), [])
        self.assertEqual(below(b"/projects/of bob.txt", ""), [b"/projects/of bob.txt"])
        # What a folder doesn't pass down is kept, and so the object's own.
        loose = DUMP.replace("list:a\nA:fd:bob:r", "list:\nA:fd:bob:r")
        self.assertEqual([one.path for one in verb_lists.at(rows(loose), b"/projects", "dacl")],
                         [b"/projects", b"/projects/of bob.txt", b"/projects/still"])

    def test_the_longest(self) -> None:
        one, which = verb_lists.longest(rows())
        self.assertEqual((one.path, which), (b"/projects", "dacl"))
        one, which = verb_lists.longest(rows(DUMP.replace("U::bob:r\n", "U::bob:r\n" * 4)))
        self.assertEqual((one.path, which), (b"/projects/of bob.txt", "sacl"))
        one, which = verb_lists.longest(rows("folder a b /\ndacl\nlist:a\nsacl\nlist:a\n"))
        self.assertEqual((one.path, which), (b"/", "dacl"))


class Naming(unittest.TestCase):
    def test_what_names_a_user(self) -> None:
        self.assertEqual(named("bob"), [
            "folder carol sales /projects", "A:fd:bob:r",
            "document bob staff 7 /projects/of bob.txt", "U::bob:r",
            "folder carol sales /projects/still", "A:fdI:bob:r", "member sales bob"])
        self.assertEqual(named("a.bob"), ["member staff a.bob"])
        self.assertEqual(named("carol"), ["folder carol sales /projects",
                                          "folder carol sales /projects/still"])
        self.assertEqual(named("OFFICE\\nbob"), ['folder alice staff /a "b"\\n, c ',
                                                 "A::OFFICE\\nbob:C"])
        # The name of a group, or a part of a name.
        for other in ("staff", "sales", "OFFICE", "nbob", "BOB", "zoe"):
            self.assertEqual(named(other), [], other)

    def test_what_names_a_group(self) -> None:
        self.assertEqual(named_as_group("staff"), [
            "folder alice staff /", "A:fdg:staff:rwaxtc", 'folder alice staff /a "b"\\n, c ',
            "document bob staff 7 /projects/of bob.txt", "member staff a.bob",
            "member staff dan"])
        # An end date of a group, and none by the name of who asked for it.
        line = "A:g:until.2027-05-31.read.g.guests@alice:"
        text = DUMP.replace("A:g:until.2027-05-31.read.u.eve@alice:", line)
        self.assertEqual(named_as_group("guests", text), ["folder carol sales /projects", line])
        for other in ("bob", "alice", "eve", "OFFICE", "SALES", "still", "zoe"):
            self.assertEqual(named_as_group(other, text), [], other)

    def test_dates(self) -> None:
        self.assertEqual(named("eve"), ["folder carol sales /projects",
                                        "A:g:until.2027-05-31.read.u.eve@alice:"])
        self.assertIn("A:g:until.2027-05-31.read.u.eve@alice:", named("alice"))
        for who_is, asker in (("bob@x.example", "OFFICE\\dan"), ("a+b", "c_d@e.example")):
            line = end_dates.marked(False, datetime.date(2027, 5, 31), "read", False,
                                    who_is, asker)
            text = DUMP.replace("A:g:until.2027-05-31.read.u.eve@alice:", line)
            for name in (who_is, asker):
                self.assertEqual(named(name, text), ["folder carol sales /projects", line], name)
        # A date of a group of that name is none of the user's.
        self.assertEqual(named("eve", DUMP.replace("read.u.eve", "read.g.eve")), [])

    def test_what_is_called_as_they_are(self) -> None:
        for name, is_theirs in (("dan", True), ("letters of dan.pdf", True), ("dan-2", True),
                                ("x.dan", True), ("danny", False), ("sudan", False),
                                ("dan_2", False), ("Dan", False), ("ädan", False)):
            text = DUMP.replace("/projects/still", f"/projects/dan/{name}")
            self.assertEqual(f"folder carol sales /projects/dan/{name}" in named("dan", text),
                             is_theirs, name)

    def test_nothing_that_a_terminal_obeys(self) -> None:
        text = DUMP.replace("/projects/still", "/projects/\x1b]0;bob\x07\x9b2K\u202e\r")
        text = text.replace("A:fdI:bob:r\nsacl", "A:fdI:bob:r\x1b[2J\nsacl")
        said = "\n".join(named("bob", text))
        self.assertTrue(all(one.isprintable() for one in said.split("\n")), said)
        self.assertIn(r"$'/projects/\E]0;bob\a\302\2332K\342\200\256\r'", said)


class Reasons(unittest.TestCase):
    def why(self, path: str, user: str, letters: str, remove: bool = False, text: str = DUMP
            ) -> list[tuple[str, str, str]]:
        groups: dict[str, set[str]] = {}
        for one in rows(text):
            if isinstance(one, tuple):
                groups.setdefault(one[0], set()).add(one[1])
        return [(it.path.decode(), it.entry, it.group) for it in reasons.Reasons(
            objects(text), groups).of(path.encode(), user, letters, remove)]

    def test_the_first_entry_with_a_letter_rules_it(self) -> None:
        self.assertEqual(self.why("/", "alice", ALL), [("/", f"A:fd:alice:{ALL}", "")])
        self.assertEqual(self.why("/", "dan", "rwaxtc"), [("/", "A:fdg:staff:rwaxtc", "staff")])
        self.assertEqual(self.why("/", "*", "xt"), [("/", "A::AUTHENTICATED@:xt", "")])
        self.assertEqual(self.why("/", "ANONYMOUS@", ""), [])
        self.assertEqual(self.why("/projects", "bob", "r"), [("/projects", "A:fd:bob:r", "")])

    def test_each_who(self) -> None:
        def of(entry: str, user: str) -> bool:
            text = DUMP.replace("A:fd:bob:r\n", f"{entry}\n", 1)
            return ("/projects", entry) in [one[:2] for one in self.why(
                "/projects", user, "h", text=text)]
        for entry, theirs in (
                ("A::EVERYONE@:h", "bob carol dan * ANONYMOUS@"), ("A::ANONYMOUS@:h", "ANONYMOUS@"),
                ("A::AUTHENTICATED@:h", "bob carol dan *"), ("A::OWNER@:h", "carol"),
                ("A::GROUP@:h", "bob"), ("A:g:GROUP@:h", "bob"), ("A:g:staff:h", "dan"),
                ("A::staff:h", ""), ("A::dan:h", "dan"), ("A:g:dan:h", ""), ("A:fi:dan:h", ""),
                ("D::dan:h", ""), ("A:g:OWNER@:h", "carol")):
            self.assertEqual(" ".join(one for one in "bob carol dan * ANONYMOUS@".split()
                                      if of(entry, one)), theirs, entry)

    def test_a_group_by_its_owner_is_named(self) -> None:
        text = DUMP.replace("A:fd:bob:r\n", "A::GROUP@:C\n", 1)
        self.assertEqual(self.why("/projects", "bob", "C", text=text),
                         [("/projects", "A::GROUP@:C", "sales")])

    def test_the_rule_of_removal(self) -> None:
        """d on the object, or D on its folder, or w there where no list says anything of both."""
        for own, folder, wanted in (
                ("A::zoe:d", "A::zoe:Dw", ("/projects/still", "A::zoe:d", "")),
                ("D::zoe:d", "A::zoe:Dw", ("/projects", "A::zoe:Dw", "")),
                ("A::zoe:r", "A::zoe:w", ("/projects", "A::zoe:w", "")),
                ("A::zoe:r", "A:g:staff:D", None)):
            text = DUMP.replace("A:fdI:bob:r\nsacl", f"{own}\nsacl").replace(
                "A:fd:bob:r\n", f"{folder}\n", 1)
            self.assertEqual(self.why("/projects/still", "zoe", "", True, text),
                             [wanted] if wanted else [], own)


class Review(unittest.TestCase):
    def place(self, path: str, below: bool = False) -> review.Place:
        return review.seen_at(review.rows(io.StringIO(REVIEW, newline="")), path, below)

    def test_the_nearest_row_above_counts(self) -> None:
        self.assertEqual(review.way_to("/a/b/c"), ["/", "/a", "/a/b", "/a/b/c"])
        self.assertEqual(review.way_to("/"), ["/"])
        found = self.place("/projects/still").at[-1]
        self.assertEqual({user: (row.rights, row.remove) for user, row in found.items()}, {
            "OFFICE\\nbob": ("xt", False), "a.bob": ("rwaxtc", True), "alice": (ALL, True),
            "bob": ("r", False), "dan": ("rwaxtc", True), "*": ("", False),
            "ANONYMOUS@": ("", False)})
        self.assertEqual([row.path for row in self.place("/projects", True).below],
                         ["/projects/of bob.txt"])
        self.assertEqual(self.place("/proj", True).below, [])
        self.assertEqual(self.place("/projects").below, [])
        self.assertEqual(len(self.place("/", True).below), 12)

    def test_what_is_no_review(self) -> None:
        for bad in (REVIEW.replace("yes\n", "ye\n", 1), REVIEW.replace("folder", "link", 1),
                    REVIEW[:-2], REVIEW.replace('/a ""b""', '/a "b"'), REVIEW + '"/x'):
            with self.assertRaisesRegex(Stop, "^the review can't be read: "):
                list(review.rows(io.StringIO(bad, newline="")))


class Records(unittest.TestCase):
    def found(self, text: str = RECORDS, user: str = "", path: str = "") -> list[str]:
        return [one.text() for one in records.wanted(records.records(io.StringIO(
            text, newline="")), user, path)]

    def test_lines(self) -> None:
        self.assertEqual(self.found()[:3], [
            "1970-01-01T00:16:40Z  bob  r  denied  /projects/x,\\ \\\"y\\\"  audit by entry 1",
            "1970-01-01T00:33:20Z  no name  x  granted  /projects  alarm by entry 2",
            "1970-01-01T00:50:00Z  alice  dD  granted  /projects2  audit by entry 1"])
        self.assertEqual(self.found()[3].split()[1:], ["OFFICE\\nbob", "r", "denied", "/projects",
                                                       "audit", "by", "entry", "1"])

    def test_of_a_user_and_of_a_place(self) -> None:
        self.assertEqual([line.split()[1] for line in self.found(user="bob")], ["bob"])
        self.assertEqual(len(self.found(path="/projects")), 3)
        self.assertEqual(len(self.found(path="/")), 4)
        self.assertEqual(self.found(user="OFFICE", path="/projects"), [])

    def test_what_are_no_records(self) -> None:
        for bad in ("", "at,user\n", RECORDS[:-2], RECORDS.replace("no,", "n,", 1),
                    RECORDS.replace("1000", "1,000", 1), RECORDS.replace("2000", "x", 1),
                    RECORDS.replace("3000", "9" * 5000, 1)):
            with self.assertRaisesRegex(Stop, "^the records can't be read: "):
                self.found(bad)


class Verbs(unittest.TestCase):
    """On the texts of one night."""

    def setUp(self) -> None:
        held = tempfile.TemporaryDirectory()
        self.addCleanup(held.cleanup)
        self.home = held.name
        self.addCleanup(setattr, settings, "HOME", settings.HOME)
        settings.HOME = self.home
        self.night = f"{self.home}/backups/office/2026-12-01.040000"
        pathlib.Path(f"{self.home}/office.conf").write_text(
            f"FILE={self.home}/F\nBACKUPS={self.home}/backups\nPROGRAM=/bin/true\n")
        pathlib.Path(f"{self.home}/F").touch()
        os.makedirs(self.night, 0o700)
        for name, text in (("F", ""), ("run", "number 1\n"), ("lists.txt", DUMP),
                           ("review.csv", REVIEW), ("records.csv", RECORDS)):
            pathlib.Path(f"{self.night}/{name}").write_text(text)

    def said(self, *given: str) -> tuple[int, str, str]:
        out, err = io.StringIO(), io.StringIO()
        with contextlib.redirect_stdout(out), contextlib.redirect_stderr(err):
            status = command.main(list(given), "rooms-admin")
        return status, out.getvalue(), err.getvalue()

    def prints(self, given: list[str], *lines: str) -> None:
        self.assertEqual(self.said(*given), (0, "".join(f"{one}\n" for one in lines), ""))

    def refuses(self, status: int, text: str, *given: str) -> None:
        got, out, err = self.said(*given)
        self.assertEqual((got, out), (status, ""), given)
        self.assertIn(text, err)

    def test_lists(self) -> None:
        self.prints(["lists", '/a "b"\\n, c '], "list:ap", "A::OFFICE\\nbob:C")
        self.prints(["lists", "--sacl", "/projects"], "list:a", "U:fdFI:EVERYONE@:rx")
        self.prints(["lists", "--below", "--sacl", "/projects/still"],
                    "folder carol sales /projects/still", "sacl", "list:ap")
        self.prints(["lists", "--longest"],
                    "4 entries in the dacl of folder carol sales /projects")
        self.prints(["lists", "--user", "dan"], "member staff dan")
        self.prints(["lists", "--group", "sales"], "folder carol sales /projects",
                    "folder carol sales /projects/still", "member sales bob")
        got = json.loads(self.said("lists", "/projects/still", "--json")[1])
        self.assertEqual(got, [{"kind": "folder", "path": "/projects/still", "owner": "carol",
                                "group": "sales", "dacl": ["list:p", "A:fdI:bob:r"]}])
        got = json.loads(self.said("lists", "--user", "OFFICE\\nbob", "--json")[1])
        self.assertEqual(got, [{"kind": "folder", "path": '/a "b"\\n, c ', "owner": "alice",
                                "group": "staff", "dacl": ["A::OFFICE\\nbob:C"], "sacl": []}])

    def test_who(self) -> None:
        by_staff = "by A:fdgI:staff:rwaxtc, A:fdg:staff:rwaxtc of /"
        self.prints(["who", "/projects"], "OFFICE\\nbob  xt",
                    f"a.bob  rwaxtc  remove  {by_staff}",
                    f"alice  {ALL}  remove  by A:fdI:alice:{ALL}", "bob  r  by A:fd:bob:r",
                    f"dan  rwaxtc  remove  {by_staff}", "every other name  nothing",
                    "a caller without a name  nothing", "group staff: a.bob, dan")
        here, by_staff = '/a\\ \\"b\\"\\\\n,\\ c\\ ', "remove  by A:fdg:staff:rwaxtc of /"
        self.prints(["who", "--change", '/a "b"\\n, c '], f"/  alice  Co  by A:fd:alice:{ALL}",
                    f"{here}  OFFICE\\nbob  C  by A::OFFICE\\nbob:C", f"{here}  a.bob  {by_staff}",
                    f"{here}  alice  remove  by A:fd:alice:{ALL} of /", f"{here}  dan  {by_staff}",
                    "group staff: a.bob, dan")
        self.prints(["who", '/a "b"\\n, c '], "OFFICE\\nbob  C  by A::OFFICE\\nbob:C",
                    f"a.bob  {by_staff}", f"alice  remove  by A:fd:alice:{ALL} of /",
                    f"dan  {by_staff}", "every other name  nothing",
                    "a caller without a name  nothing", "group staff: a.bob, dan")
        got = self.said("who", "--below", "/projects/of bob.txt")[1].split("\n")
        self.assertEqual(len(got), 7 + 1 + 1)
        self.assertIn("/projects/of\\ bob.txt  bob  r  remove  by A:I:bob:r", got)
        rows = json.loads(self.said("who", "--json", "/projects")[1])
        self.assertEqual(len(rows), 7)
        self.assertEqual(rows[1], {
            "path": "/projects", "kind": "folder", "user": "a.bob", "rights": "rwaxtc",
            "remove": True, "groups": ["staff"], "by": [
                {"path": "/projects", "entry": "A:fdgI:staff:rwaxtc"},
                {"path": "/", "entry": "A:fdg:staff:rwaxtc"}]})

    def test_what_is_refused(self) -> None:
        self.refuses(2, "no object: /x isn't in the backup", "lists", "/x")
        self.refuses(2, "no object: $'/x\\E]0;\\a' isn't", "who", "/x\x1b]0;\x07")
        self.refuses(2, "no object: ", "who", "--change", "/projects/x")
        self.refuses(2, "no object: ", "who", "/projects/of bob.txt/x")
        of_lists: list[list[str]] = [
            [], ["/x", "--longest"], ["/x", "--user", "bob"], ["--longest", "--sacl"],
            ["--user", "bob", "--group", "staff"], ["--group", "s ales"], ["--group", "sales", "/"],
            ["--user", "bob", "--below"], ["--user", "b ob"], ["--user", "*"], ["x"], ["/x/"],
            ["/x", "/y"], ["/x", "--change"]]
        of_who: list[list[str]] = [
            [], ["x"], ["/x/"], ["/x", "--below", "--change"], ["/x", "--longest"]]
        of_records = [["/x"], ["--user", "b,ob"], ["--path", "x"], ["--path", "/x/"]]
        for verb, given in (("lists", of_lists), ("who", of_who), ("records", of_records)):
            for words in given:
                self.refuses(2, "bad arguments: ", verb, *words)
        self.refuses(2, "no backup: ", "lists", "/", "--backup", "2026-12-02.040000")

    def test_nothing_is_an_answer(self) -> None:
        for given in (["lists", "--user", "zoe"], ["lists", "--group", "bob"],
                      ["records", "--user", "zoe"],
                      ["records", "--path", "/a"]):
            status, out, err = self.said(*given)
            self.assertEqual((status, out), (0, ""))
            self.assertIn(f"is in the backup {self.night}", err)
            self.assertEqual(self.said(*given, "--json")[:2], (0, "[]\n"))

    def test_what_is_damaged(self) -> None:
        for name, text, given in (
                ("lists.txt", DUMP[:-1], ["lists", "--longest"]),
                ("lists.txt", "", ["lists", "/"]), ("lists.txt", DUMP[:-5], ["who", "/"]),
                ("review.csv", REVIEW[:-3], ["who", "/"]),
                ("records.csv", RECORDS[:-3], ["records"])):
            pathlib.Path(f"{self.night}/{name}").write_text(text)
            self.refuses(1, "can't be read" if name.endswith("csv") else "no lists: ", *given)
            for once, whole in (("lists.txt", DUMP), ("review.csv", REVIEW)):
                pathlib.Path(f"{self.night}/{once}").write_text(whole)
        pathlib.Path(f"{self.night}/review.csv").write_bytes(b"\xff" + REVIEW.encode())
        self.refuses(1, "the review can't be read", "who", "/")

    def test_no_link_and_no_pipe(self) -> None:
        os.rename(f"{self.night}/lists.txt", f"{self.night}/there")
        os.symlink("there", f"{self.night}/lists.txt")
        self.refuses(1, "a link, which is not followed", "lists", "/")
        os.unlink(f"{self.night}/lists.txt")
        os.mkfifo(f"{self.night}/lists.txt")
        self.refuses(1, "neither a file nor a folder", "lists", "/")

    def test_before_the_first_night(self) -> None:
        os.rename(f"{self.home}/backups/office", f"{self.home}/away")
        for given in (["lists", "/"], ["who", "/"], ["records"]):
            self.refuses(2, "no backup: ", *given)

    def test_which_backups_have_it(self) -> None:
        for number, path in ((2, "/projects/still "), (3, "/still"), (4, "/projects/still"),
                             (5, "/a /projects/still")):
            place = self.night.replace("12-01", f"12-0{number}")
            os.makedirs(place, 0o700)
            for name, text in (("F", ""), ("run", f"number {number}\n"), (
                    "lists.txt", DUMP.replace("/projects/still", path))):
                pathlib.Path(f"{place}/{name}").write_text(text)
        given = ["backups", "--with", "/projects/still"]
        status, out, err = self.said(*given)
        self.assertEqual((status, err), (0, ""))
        self.assertEqual([line.split()[0] for line in out.splitlines()], ["1", "4"])
        self.assertEqual([one["number"] for one in json.loads(self.said(*given, "--json")[1])],
                         [1, 4])
        self.assertEqual(self.said("backups", "--with", "/x"), (
            1, "", "rooms-admin backups: no object: no backup has /x\n"))
        self.refuses(2, "bad arguments: ", "backups", "--with", "x/")
        os.unlink(f"{self.night}/lists.txt")
        status, out, err = self.said(*given)
        self.assertEqual((status, [line.split()[0] for line in out.splitlines()]), (1, ["4"]))
        self.assertIn(f"no lists: {self.night} has none", err)


if __name__ == "__main__":
    unittest.main()
