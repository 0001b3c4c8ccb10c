"""Texts of documents: of which kinds they are read, how they are compared, and what is shown."""
import os
import random
import shutil
import subprocess
import tempfile
import time
import tracemalloc
import unicodedata
import unittest

import papers
from rooms_services.document_texts import extract, folding, scan, store
from rooms_services.document_texts.sink import MOST_TEXT, State

LINES = ["Kündigung der Straße 5 & Grüße <an> Müller", "Über Œuvre, naïve Ärzte: 12.345 €",
         "Zeile drei mit {Klammern} \\ und (runden)"]


def plain(data: bytes) -> tuple[State, str]:
    state, text = extract.read(data)
    return state, folding.plain(text)


class Kinds(unittest.TestCase):
    def test_each_kind_has_its_text(self) -> None:
        for kind, make in papers.KINDS.items():
            if kind == "pdf" and not shutil.which("pdftotext"):
                continue
            with self.subTest(kind):
                state, text = plain(make(LINES))
                self.assertIs(state, State.WHOLE)
                for line in LINES:
                    self.assertIn(line, text)
                self.assertNotIn("hidden", text)

    def test_cells(self) -> None:
        """Numbers of texts aren't texts, and numbers are."""
        _, text = plain(papers.xlsx(LINES))
        self.assertIn(" 7002", text)
        self.assertNotRegex(text, r"(^| )[012]( |$)")

    def test_plain_texts(self) -> None:
        line = LINES[0]
        for code in ("utf-8", "utf-8-sig", "cp1252", "utf-16"):
            self.assertEqual(plain(line.encode(code)), (State.WHOLE, line))

    def test_a_mail_with_what_is_attached(self) -> None:
        state, text = plain(papers.mail(LINES[:1], {"Anlage.docx": papers.docx(LINES[1:])}))
        self.assertIs(state, State.WHOLE)
        for part in (*LINES, "heading", "sender@office.example", "Anlage.docx"):
            self.assertIn(part, text)
        broken = {"a.docx": papers.docx(LINES)[:-200], "b.txt": b"legible words"}
        state, text = plain(papers.mail(LINES, broken))
        self.assertIs(state, State.WHOLE)
        self.assertIn("legible words", text)

    def test_what_has_none(self) -> None:
        for data in (b"\xff\xd8\xff\xe0" + random.Random(1).randbytes(2000) + b"\0", b"\x7fELF\0\0",
                     extract._OLD_OFFICE + b"words" * 50, papers.zipped([("a.txt", "words")])):
            self.assertEqual(plain(data), (State.NONE, ""))
        self.assertIs(plain(papers.docx(LINES)[:-200])[0], State.BROKEN)
        self.assertEqual(plain(b""), (State.WHOLE, ""))

    def test_too_much(self) -> None:
        state, text = extract.read(papers.docx(["word " * 50] * 10_000))
        self.assertIs(state, State.CUT)
        self.assertLessEqual(len(text.encode()), MOST_TEXT)
        self.assertTrue(text.lstrip().startswith("word word"))


class Stores(unittest.TestCase):
    def setUp(self) -> None:
        above = tempfile.TemporaryDirectory()
        self.addCleanup(above.cleanup)
        self.folder = os.path.join(above.name, "night")

    def make(self, count: int) -> None:
        """Not in the order of their numbers, as what moved comes."""
        making = store.Making(self.folder)
        for number in range(count, 0, -1):
            total = store.sum_of(str(number).encode())
            making.note(number, total)
            making.put(total, State.WHOLE, f"word of {number}.".encode())
        making.end({"at": 1, "night": "2026-11-30.020000"})
        making.close()

    def test_very_many_documents(self) -> None:
        """Those of one room keep no other room's from being asked about."""
        self.make(30_000)
        tracemalloc.start()
        kept = store.Store(self.folder)
        taken = tracemalloc.get_traced_memory()[0]
        tracemalloc.stop()
        self.assertLess(taken, 30_000 * 20)
        found = kept.match([b"word of 1"], [30_000, 7, 19, 1, 30_001, 0, 1 << 70])
        self.assertEqual(found, ([(19, 1), (1, 1)], [30_001, 0, 1 << 70], 0))
        self.assertEqual(kept.sums([7, 30_001]), [store.sum_of(b"7").hex(), ""])
        self.assertEqual(len(kept.by_sum()), 30_000)

    def test_what_is_damaged(self) -> None:
        self.make(20)
        for name in ("index", "texts"):
            with open(f"{self.folder}/{name}", "rb") as source:
                whole = source.read()
            row = whole[-store._ROW.size:]
            for bad in (b"", whole[:-1], whole + b"x", whole[:-len(row)], whole + row,
                        whole[:-2 * len(row)] + row + row):
                if len(bad) == len(whole) and name == "texts":
                    continue
                with open(f"{self.folder}/{name}", "wb") as out:
                    out.write(bad)
                with self.assertRaises(store.NoStore):
                    store.Store(self.folder)
            with open(f"{self.folder}/{name}", "wb") as out:
                out.write(whole)
        self.assertEqual(len(store.Store(self.folder).by_sum()), 20)


@unittest.skipUnless(shutil.which("tesseract") and shutil.which("pdftoppm"), "no tesseract")
class Scans(unittest.TestCase):
    def test_a_picture_of_a_text(self) -> None:
        with tempfile.TemporaryDirectory() as folder:
            with open(f"{folder}/pdf", "wb") as out:
                out.write(papers.pdf(["The notice of termination", "with kind regards"]))
            for kind in ("png", "jpeg", "tiff"):
                subprocess.run(["pdftoppm", "-r", "150", f"-{kind}", "-singlefile", "pdf", "page"],
                               cwd=folder, check=True)
                made = next(one for one in os.listdir(folder) if one.startswith("page."))
                with open(f"{folder}/{made}", "rb") as source:
                    data = source.read()
                os.unlink(f"{folder}/{made}")
                self.assertTrue(scan.is_scan(data))
                self.assertEqual(plain(data), (State.NONE, ""))
                state, text = scan.read(data)
                self.assertIs(state, State.WHOLE)
                self.assertIn("notice of termination", folding.plain(text))
            # (of a PDF the pages are made to pictures, whatever they have)
            with open(f"{folder}/pdf", "rb") as source:
                self.assertIn("kind regards", scan.read(source.read())[1])
        self.assertIs(scan.read(b"\xff\xd8\xff\xe0" + b"x" * 500)[0], State.BLANK)


class Folding(unittest.TestCase):
    def test_as_a_whole_and_sign_by_sign(self) -> None:
        """The rule of names, which was one for whole texts."""
        signs = [chr(code) for code in range(1, 0x11000) if not 0xD800 <= code < 0xE000]
        for at in range(0, len(signs), 500):
            text = "".join(signs[at:at + 500])
            marks = "".join(one for one in unicodedata.normalize("NFKD", text)
                            if not unicodedata.category(one).startswith("M"))
            self.assertEqual(folding.folded(text), marks.upper().lower().replace("ς", "σ"))

    def test_what_is_the_same(self) -> None:
        for one, other in (("MÜLLER", "muller"), ("Mu\u0308ller", "Müller"), ("Straße", "STRASSE"),
                           ("ΟΔΟΣ", "οδός"), ("ﬁn", "fin")):
            self.assertEqual(folding.folded(one), folding.folded(other))

    def test_blanks_and_parted_words(self) -> None:
        self.assertEqual(folding.plain("Kündi-\n  gung\u00a0 des\tVer\u00adtrags\r\n"),
                         "Kündigung des Vertrags")
        self.assertEqual(folding.plain("Haupt-\nund Neben-\nsache E-\nMail"),
                         "Haupt- und Nebensache E- Mail")

    def test_what_is_asked(self) -> None:
        self.assertEqual(folding.words_of('Kündigung  "der Straße"  kündigung'),
                         ["kundigung", "der strasse"])
        for text in ("", " ", "a", "ab c", '""', "aa bb cc dd ee ff gg hh ii", "\u0301\u0301"):
            self.assertEqual(folding.words_of(text), [])

    def test_what_is_shown(self) -> None:
        text = "x" * 100 + " vor der KÜNDIGUNG\u0301 danach " + "y" * 200
        before, word, behind = folding.around(text, "kundigung")
        self.assertEqual((before[-9:], word, behind[:8]), (" vor der ", "KÜNDIGUNG\u0301",
                                                           " danach "))
        self.assertEqual((len(before), len(behind)), (folding.BEFORE, folding.BEHIND))
        self.assertEqual(folding.around("\ufdfa" * 3000 + "ziel", "ziel")[1], "ziel")
        self.assertEqual(folding.around("Straße", "as"), ["Str", "aß", "e"])
        self.assertEqual(folding.around("nothing", "zz"), [])
        # Long ones are folded piece by piece.
        for text in ("\ufdfa\u00df" * 12_000, "e\u0301" * 10_001):
            self.assertEqual(folding.folded(text), "".join(map(folding.folded, text)))
        # Of marks that somebody has piled up no more than a few lines are shown.
        for text in ("xy" + "\u0301" * 300_000, "x" + "\u0301" * 300_000 + "y"):
            began = time.process_time()
            _, word, behind = folding.around(text, "xy")
            self.assertEqual((len(word), len(behind)), (folding.WORD, folding.BEHIND))
            self.assertLess(time.process_time() - began, 1)


if __name__ == "__main__":
    unittest.main()
