"""What verbs of root's keep of the lists of a room that has many: no more than they need."""
import contextlib
import dataclasses
import os
import random
import sys
import tempfile
import tracemalloc
from unittest.mock import patch

sys.path.insert(0, os.path.join(os.path.dirname(__file__), "..", "..", "admin"))

from rooms_admin.lists import dump, end_dates, strangers, verb_list  # noqa: E402
from rooms_admin.people import ended, look  # noqa: E402
from rooms_admin.room import server  # noqa: E402
from test_backups import Folder  # noqa: E402

DUMP = """\
#!/bin/sh
awk 'BEGIN {
  for (at = 0; at < 5000; at++) {
    printf "document alice staff 5 /papers/document-%d\\ndacl\\nlist:\\n", at
    for (line = 0; line < 40; line++) printf "A::user-%d@office.example:rwaxtc\\n", line
    print "sacl\\nlist:"
  }
  print "member staff alice"
}'
"""


class Many(Folder):
    def setUp(self) -> None:
        super().setUp()
        program = os.path.join(self.room.folder, "dumps")
        with open(program, "w", encoding="ascii") as script:
            script.write(DUMP)
        os.chmod(program, 0o755)
        self.many = dataclasses.replace(self.room, program=program)

    def peak(self, verb: str) -> int:
        """In megabytes; the text has more than six."""
        with patch.object(server, "settled", return_value="inactive"), patch.object(
                server, "at_rest", return_value=contextlib.nullcontext()):
            tracemalloc.start()
            try:
                with look.lists_of(self.many) as lists:
                    self.assertGreater(os.fstat(lists.number).st_size, 6 << 20)
                    if verb == "list":
                        found = verb_list._one(lists, b"/papers/document-4999", "dacl")
                        self.assertEqual(len(found.lines), 41)
                        told = strangers.told(self.many, lists.rows, ["A:g:staf:r", "A:g:staff:r"])
                        self.assertEqual(list(told), ["nobody is in staf; did you mean staff?"])
                    else:
                        ended.take_back(self.many, lists.file, None, True)
                return tracemalloc.get_traced_memory()[1] >> 20
            finally:
                tracemalloc.stop()

    def test_one_list(self) -> None:
        self.assertLess(self.peak("list"), 4)

    def test_dates(self) -> None:
        self.assertLess(self.peak("until"), 4)


class Dated(Folder):
    """What is looked for while nobody is answered."""
    KINDS = (b"folder a b /%s", b"document a b 5 /%s")
    ENTRIES = (b"A:fd:eve:rxtc", b"A:g:until.2026-01-01.read.u.eve@alice:",
               b"A:fgI:until.2026-01-01.read.u.eve@alice:", b"A::until.soon@m:",
               b"A:g:ended.2026-01-01.read.u.eve@alice:", b"D:SFg:until.9@m:")
    NAMES = (b"x", b"a:until.2 b", b"folder c", b"I:ended.3")

    def dated(self, text: bytes) -> list[dump.Object]:
        with tempfile.TemporaryFile() as made:
            made.write(text)
            made.flush()
            return list(dump.dated(made))

    def test_no_date_is_missed(self) -> None:
        chance = random.Random(7)
        for _ in range(400):
            text = b""
            for _ in range(chance.randrange(6)):
                text += chance.choice(self.KINDS) % chance.choice(self.NAMES) + b"\ndacl\nlist:\n"
                text += b"".join(one + b"\n" for one in chance.choices(
                    self.ENTRIES, (9, 1, 1, 1, 1, 1), k=chance.randrange(5)))
                text += b"sacl\nlist:\n"
            text += b"member g until.1\n" * chance.randrange(2)
            wanted = [one for one in dump.parsed(text.splitlines(keepends=True))
                      if any(map(end_dates.is_meant, (raw.decode() for raw in one.dacl)))]
            found = self.dated(text)
            self.assertEqual([one for one in found if one in wanted], wanted)
            names = [one for one in found if one not in wanted]
            self.assertTrue(all(b":" in one.path for one in names), text)

    def test_what_has_none_is_not_read(self) -> None:
        one = b"document a b 5 /x\ndacl\nlist:\n" + b"A:fgI:until.1@m:r\n" * 9 + b"sacl\nlist:\n"
        ended = one.replace(b"gI", b"g")
        with patch.object(dump, "_object", wraps=dump._object) as read:
            self.assertEqual(len(self.dated(one * 999 + ended + one * 999)), 1)
        self.assertEqual(read.call_count, 1)
