"""A text of LibreOffice with a scan in it, which nothing makes smaller:

    large_paper.py FILE TEXT BYTES"""
import os
import struct
import sys
import zipfile
import zlib

NAMES = " ".join(
    f'xmlns:{name}="urn:oasis:names:tc:opendocument:xmlns:{what}:1.0"' for name, what in (
        ("office", "office"), ("text", "text"), ("draw", "drawing"),
        ("svg", "svg-compatible"))) + ' xmlns:xlink="http://www.w3.org/1999/xlink"'
CONTENT = f"""<?xml version="1.0" encoding="UTF-8"?>
<office:document-content {NAMES} office:version="1.2"><office:body><office:text>
<text:p><draw:frame text:anchor-type="as-char" svg:width="16cm" svg:height="16cm"><draw:image
xlink:href="Pictures/scan.png" xlink:type="simple"/></draw:frame>%s</text:p>
</office:text></office:body></office:document-content>
"""
TYPE = "application/vnd.oasis.opendocument.text"
MANIFEST = f"""<?xml version="1.0" encoding="UTF-8"?>
<manifest:manifest xmlns:manifest="urn:oasis:names:tc:opendocument:xmlns:manifest:1.0"
 manifest:version="1.2"><manifest:file-entry manifest:full-path="/" manifest:media-type="{TYPE}"/>
<manifest:file-entry manifest:full-path="content.xml" manifest:media-type="text/xml"/>
<manifest:file-entry manifest:full-path="Pictures/scan.png" manifest:media-type="image/png"/>
</manifest:manifest>
"""


def chunk(kind: bytes, data: bytes) -> bytes:
    return struct.pack(">I", len(data)) + kind + data + struct.pack(
        ">I", zlib.crc32(kind + data))


def noise(size: int) -> bytes:
    """A picture of so many bytes."""
    side = max(1, int((size / 3) ** 0.5))
    rows = b"".join(b"\0" + os.urandom(3 * side) for _ in range(side))
    head = struct.pack(">IIBBBBB", side, side, 8, 2, 0, 0, 0)
    return (b"\x89PNG\r\n\x1a\n" + chunk(b"IHDR", head)
            + chunk(b"IDAT", zlib.compress(rows, 1)) + chunk(b"IEND", b""))


def main() -> None:
    place, text, size = sys.argv[1:]
    with zipfile.ZipFile(place, "w") as made:
        made.writestr("mimetype", TYPE)
        made.writestr("content.xml", CONTENT % text)
        made.writestr("Pictures/scan.png", noise(int(size)))
        made.writestr("META-INF/manifest.xml", MANIFEST)


if __name__ == "__main__":
    main()
