"""PDFs for tests, plain and hostile: pdfs.py FOLDER writes each into a file."""
import os
import random
import sys
import zlib

LARGEST = 1_048_576


def whole(objects: list[bytes]) -> bytes:
    """A document of these objects, the first of which is its root."""
    made = bytearray(b"%PDF-1.4\n")
    places = []
    for number, one in enumerate(objects, 1):
        places.append(len(made))
        made += b"%d 0 obj%b\nendobj\n" % (number, one)
    at = len(made)
    made += b"xref\n0 %d\n0000000000 65535 f \n" % (len(objects) + 1)
    made += b"".join(b"%010d 00000 n \n" % place for place in places)
    made += b"trailer<</Root 1 0 R/Size %d>>\nstartxref\n%d\n%%%%EOF\n" % (len(objects) + 1, at)
    return bytes(made)


def stream(data: bytes, more: bytes = b"") -> bytes:
    return b"<</Length %d%b>>stream\n%b\nendstream" % (len(data), more, data)


def pages(texts: list[bytes], box: bytes = b"0 0 595 842") -> bytes:
    """A page for each of the texts, which says it in large letters."""
    objects = [b"<</Type/Catalog/Pages 2 0 R>>", b"", b"<</Type/Font/Subtype/Type1"
               b"/BaseFont/Helvetica>>"]
    kids = []
    for text in texts:
        objects.append(stream(b"BT /F 40 Tf 50 400 Td (%b) Tj ET" % text))
        objects.append(b"<</Type/Page/Parent 2 0 R/MediaBox[%b]/Contents %d 0 R/Resources<</Font"
                       b"<</F 3 0 R>>>>>>" % (box, len(objects)))
        kids.append(b"%d 0 R" % len(objects))
    objects[1] = b"<</Type/Pages/Count %d/Kids[%b]>>" % (len(kids), b" ".join(kids))
    return whole(objects)


def drawn(content: bytes, more: bytes = b"", *others: bytes) -> bytes:
    """One page with this content, of which 'others' are objects from 5 on."""
    return whole([b"<</Type/Catalog/Pages 2 0 R>>", b"<</Type/Pages/Count 1/Kids[3 0 R]>>",
                  b"<</Type/Page/Parent 2 0 R/MediaBox[0 0 595 842]/Contents 4 0 R"
                  b"/Resources<<%b>>>>" % more, content, *others])


def many_pages() -> bytes:
    """14,000 of them, in 1 MiB."""
    kids = b"".join(b"%d 0 R " % number for number in range(5, 14_005))
    one = b"<</Type/Page/Parent 2 0 R>>"
    return whole([b"<</Type/Catalog/Pages 2 0 R>>",
                  b"<</Type/Pages/Count 14000/Kids[%b]/MediaBox[0 0 99 99]>>" % kids, b"null",
                  b"null", *[one] * 14_000])[:LARGEST]


def noise(size: int) -> bytes:
    return random.Random(7).randbytes(size)


def long_stream() -> bytes:
    """330 MB of letters, packed."""
    packing = zlib.compressobj(9)
    packed = packing.compress(b"BT /F 12 Tf 10 50 Td ")
    for _ in range(300):
        packed += packing.compress(b"(secret) Tj " * 91_667)
    packed += packing.compress(b" ET") + packing.flush()
    return drawn(stream(packed, b"/Filter/FlateDecode"), b"/Font<</F 5 0 R>>",
                 b"<</Type/Font/Subtype/Type1/BaseFont/Helvetica>>")


def large_image(side: int) -> bytes:
    """An image of white points, of so many on each side."""
    packing = zlib.compressobj(9)
    packed = b"".join(packing.compress(bytes(side * 3)) for _ in range(side)) + packing.flush()
    return drawn(stream(b"q 595 0 0 842 0 0 cm /I Do Q"), b"/XObject<</I 5 0 R>>", stream(
        packed, b"/Type/XObject/Subtype/Image/Width %d/Height %d/ColorSpace/DeviceRGB"
        b"/BitsPerComponent 8/Filter/FlateDecode" % (side, side)))


def forms_in_forms(depth: int) -> bytes:
    """Each draws the next one ten times."""
    forms = [stream(b"/X Do " * 10, b"/Type/XObject/Subtype/Form/BBox[0 0 595 842]/Resources"
                    b"<</XObject<</X %d 0 R>>>>" % (number + 6)) for number in range(depth)]
    last = stream(b"0 0 9 9 re f", b"/Type/XObject/Subtype/Form/BBox[0 0 595 842]")
    return drawn(stream(b"/X Do"), b"/XObject<</X 5 0 R>>", *forms, last)


def noisy_image(side: int) -> bytes:
    return drawn(stream(b"q 595 0 0 842 0 0 cm /I Do Q"), b"/XObject<</I 5 0 R>>", stream(
        noise(side * side * 3), b"/Type/XObject/Subtype/Image/Width %d/Height %d/ColorSpace"
        b"/DeviceRGB/BitsPerComponent 8" % (side, side)))


LETTER = pages([b"first", b"second", b"third"])
# By name the document, and what comes of its first page: a picture, or the word for why there is
# none.
ALL = {
    "letter": (LETTER, "picture"),
    "plan": (pages([b"plan"], b"0 0 14400 14400"), "picture"),
    "strip": (pages([b"strip"], b"0 0 14400 1"), "picture"),
    "many": (many_pages(), "picture"),
    "noise": (noisy_image(590), "picture"),
    # One that a room keeps in parts, of 10 MB.
    "scan": (noisy_image(1800), "picture"),
    "same": (whole([b"<</Type/Catalog/Pages 2 0 R>>", b"<</Type/Pages/Count 100000/Kids[%b]>>"
                    % (b"3 0 R " * 100_000), b"<</Type/Page/Parent 2 0 R/MediaBox[0 0 9 9]>>"]),
             "broken"),
    "loop": (whole([b"<</Type/Catalog/Pages 2 0 R>>", b"<</Type/Pages/Count 9/Kids[2 0 R]>>"]),
             "broken"),
    "cut": (LETTER[:200], "broken"),
    "rubbish": (b"%PDF-1.7\n" + noise(1_000_000), "broken"),
    "nothing": (b"%PDF-1.7\n", "broken"),
    "stream": (long_stream(), "too-much"),
    "image": (large_image(12_000), "picture"),
    "forms": (forms_in_forms(9), "too-much"),
}


def main() -> None:
    folder, = sys.argv[1:]
    for name, (document, wanted) in ALL.items():
        with open(os.path.join(folder, f"{name}.pdf"), "wb") as file:
            file.write(document)
        print(name, wanted)


if __name__ == "__main__":
    main()
