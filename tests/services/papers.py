"""Documents of the kinds that an office has, made here: their texts are known, and no program that
reads them has anything to do with that."""
import io
import zipfile
from collections.abc import Callable, Iterable
from email.message import EmailMessage
from html import escape

_W = ('<?xml version="1.0" encoding="UTF-8"?><w:document xmlns:w="http://schemas.openxmlformats.org'
      '/wordprocessingml/2006/main"><w:body>{}</w:body></w:document>')
_O = ('<?xml version="1.0" encoding="UTF-8"?><office:document-content xmlns:office="o" '
      'xmlns:text="t"><office:body><office:text>{}</office:text></office:body>'
      '</office:document-content>')


def zipped(parts: Iterable[tuple[str, str | bytes]]) -> bytes:
    made = io.BytesIO()
    with zipfile.ZipFile(made, "w", zipfile.ZIP_DEFLATED) as out:
        for name, data in parts:
            out.writestr(name, data)
    return made.getvalue()


def docx(lines: Iterable[str]) -> bytes:
    """Words are cut anywhere, as Word does."""
    body = "".join("<w:p>" + "".join(
        f'<w:r><w:t xml:space="preserve">{escape(line[at:at + 41])}</w:t></w:r>'
        for at in range(0, len(line), 41)) + "</w:p>" for line in lines)
    return zipped([("[Content_Types].xml", "<Types/>"), ("word/document.xml", _W.format(body))])


def odt(lines: Iterable[str]) -> bytes:
    body = "".join(f"<text:p>{escape(line)}</text:p>" for line in lines)
    return zipped([("mimetype", "application/vnd.oasis.opendocument.text"),
                   ("content.xml", _O.format(body))])


def xlsx(lines: Iterable[str]) -> bytes:
    """A cell for each line, and one with a number beside it."""
    lines = list(lines)
    shared = "".join(f"<si><t>{escape(line)}</t></si>" for line in lines)
    rows = "".join(f'<row r="{at + 1}"><c r="A{at + 1}" t="s"><v>{at}</v></c>'
                   f'<c r="B{at + 1}"><v>{7000 + at}</v></c></row>' for at in range(len(lines)))
    return zipped([("xl/workbook.xml", "<workbook/>"),
                   ("xl/sharedStrings.xml", f"<sst>{shared}</sst>"),
                   ("xl/worksheets/sheet1.xml",
                    f"<worksheet><sheetData>{rows}</sheetData></worksheet>")])


def pptx(lines: Iterable[str]) -> bytes:
    return zipped([("ppt/presentation.xml", "<p/>")] + [
        (f"ppt/slides/slide{at}.xml", f'<p:sld xmlns:p="p" xmlns:a="a"><a:p><a:t>{escape(line)}'
         "</a:t></a:p></p:sld>") for at, line in enumerate(lines)])


def pdf(lines: Iterable[str], on_page: int = 50) -> bytes:
    lines = list(lines)
    objects = [b"<</Type/Catalog/Pages 2 0 R>>", b"",
               b"<</Type/Font/Subtype/Type1/BaseFont/Helvetica/Encoding/WinAnsiEncoding>>"]
    pages = []
    for at in range(0, len(lines), on_page):
        shown = b"".join(b"(%b) Tj T* " % _in_pdf(line) for line in lines[at:at + on_page])
        stream = b"BT /F 10 Tf 50 800 Td 14 TL %bET" % shown
        objects.append(b"<</Length %d>>stream\n%b\nendstream" % (len(stream), stream))
        objects.append(b"<</Type/Page/Parent 2 0 R/MediaBox[0 0 595 842]/Contents %d 0 R"
                       b"/Resources<</Font<</F 3 0 R>>>>>>" % len(objects))
        pages.append(len(objects))
    objects[1] = b"<</Type/Pages/Count %d/Kids[%b]>>" % (
        len(pages), b" ".join(b"%d 0 R" % page for page in pages))
    return _numbered(objects)


def _in_pdf(line: str) -> bytes:
    data = line.encode("cp1252", "replace")
    for sign in (b"\\", b"(", b")"):
        data = data.replace(sign, b"\\" + sign)
    return data


def _numbered(objects: list[bytes]) -> bytes:
    out, places = b"%PDF-1.4\n", []
    for number, one in enumerate(objects, 1):
        places.append(len(out))
        out += b"%d 0 obj%b endobj\n" % (number, one)
    begin = len(out)
    out += b"xref\n0 %d\n0000000000 65535 f \n" % (len(objects) + 1)
    out += b"".join(b"%010d 00000 n \n" % place for place in places)
    return out + b"trailer<</Size %d/Root 1 0 R>>\nstartxref\n%d\n%%%%EOF\n" % (
        len(objects) + 1, begin)


def mail(lines: Iterable[str], attached: dict[str, bytes] | None = None) -> bytes:
    made = EmailMessage()
    made["From"], made["To"] = "sender@office.example", "reader@office.example"
    made["Subject"], made["Message-ID"] = "heading", "<1@office.example>"
    made.set_content("\n".join(lines))
    for name, data in (attached or {}).items():
        made.add_attachment(data, maintype="application", subtype="octet-stream", filename=name)
    return bytes(made)


def html(lines: Iterable[str]) -> bytes:
    shown = "".join(f"<p>{escape(line)}</p>" for line in lines)
    return (f"<!DOCTYPE html><html><head><style>p {{ color: hidden }}</style></head><body>{shown}"
            "<script>hidden()</script></body></html>").encode()


def rtf(lines: Iterable[str]) -> bytes:
    shown = "\\par\n".join("".join(
        one if " " <= one < "\x7f" and one not in "\\{}" else
        f"\\'{one.encode('cp1252')[0]:02x}" if one in "äöüÄÖÜß" else f"\\u{ord(one)}?"
        for one in line) for line in lines)
    return ("{\\rtf1\\ansi{\\fonttbl{\\f0 hidden;}}{\\*\\generator hidden;}\\f0\\fs24 "
            f"{shown}}}").encode()


KINDS: dict[str, Callable[[list[str]], bytes]] = {
    "docx": docx, "odt": odt, "xlsx": xlsx, "pptx": pptx, "pdf": pdf, "eml": mail,
    "html": html, "rtf": rtf}
