"""Files of spreadsheets: python3 -m unittest test_spreadsheet. Black boxes are in
tests/admin/members.sh and tests/admin/people.sh."""
import os
import tempfile
import unittest

from rooms_admin.cli import report
from rooms_admin.people import offered, users


class Files(unittest.TestCase):
    def setUp(self) -> None:
        made = tempfile.TemporaryDirectory()
        self.addCleanup(made.cleanup)
        self.folder = made.name

    def test_full_names_of_a_german_spreadsheet(self) -> None:
        place = os.path.join(self.folder, "office.names")
        both = {"bob": "Bob Lindqvist", "eve": "Moreau, Eve"}
        for text, wanted, wrong in (
                ("bob;Bob Lindqvist\r\neve;Moreau, Eve\r\n", both, ""),
                ("eve;Moreau, Eve\nbob;Bob Lindqvist\n", both, ""),
                ('"eve";"Moreau, Eve"\nbob;"Bob Lindqvist"\n', both, ""),
                ('\ufeffLogin;"Name, Vorname"\neve;Moreau, Eve\nbob;Bob Lindqvist\n', both, ""),
                ('login,"Name; Vorname"\neve,"Moreau, Eve"\nbob,Bob Lindqvist\n', both, ""),
                ("bob,Bob; Lindqvist\n", {"bob": "Bob; Lindqvist"}, ""),
                ("bob;Bob Lindqvist\neve,Eve\n", {"bob": "Bob Lindqvist"},
                 "line 2 isn't LOGIN,FULL NAME or LOGIN;FULL NAME"),
                ("login;name,first\nbob;Bob\n", {}, "line 1 has commas and semicolons")):
            with open(place, "w", encoding="utf-8", newline="") as out:
                out.write(text)
            told: list[str] = []
            self.assertEqual(offered.full_names(place, {"bob", "eve"}, told), wanted, text)
            self.assertEqual(len(told), 1 if wrong else 0, told)
            self.assertIn(wrong, "".join(told), text)

    def test_many_at_once_of_a_german_spreadsheet(self) -> None:
        place = os.path.join(self.folder, "joining.csv")
        for text in ("name;groups\nkim;staff\nlee;staff,sales\n", "kim;staff\nlee;staff,sales\n",
                     "lee;staff;sales\nkim;staff\n", "lee,staff;sales\nkim,staff\n",
                     'name,groups\nkim,staff\nlee,"staff,sales"\n'):
            with open(place, "w", encoding="utf-8") as out:
                out.write(text)
            self.assertEqual(users.rows(place), {"kim": {"staff"}, "lee": {"staff", "sales"}}, text)
        with open(place, "w", encoding="utf-8") as out:
            out.write("name;groups,more\nkim;staff\n")
        with self.assertRaisesRegex(report.Refused, "csv, line 1 has commas and semicolons"):
            users.rows(place)


if __name__ == "__main__":
    unittest.main()
