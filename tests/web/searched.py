"""Which name fits a search: the filter of an open folder and the door decide by one rule.

    searched.py PAGE SERVICES

Each letter that Python knows, and names at random, are folded by both. The last line is
'N folded, M differ'."""
import json
import os
import random
import subprocess
import sys
import unicodedata

page, services = sys.argv[1:]
sys.path[:0] = [services, os.path.join(os.path.dirname(services), "admin")]
from rooms_services.door.folders.find import folded  # noqa: E402

FITS = [("muller", "Müller"), ("MÜLLER", "mu\u0308ller"), ("strasse", "Straße"),
        ("STRASSE", "straße"), ("istanbul", "İstanbul"), ("isparta", "ısparta"), ("cafe", "CAFÉ"),
        ("ΟΔΟΣ", "οδος"), ("fi", "ﬁle"), ("2", "m²"), ("a", "ａ")]
UNFIT = [("mueller", "Müller"), ("oδoς", "οδος")]

# Python's Unicode may be older than node's.
letters = [chr(one) for one in range(0x20, 0x30000) if not 0xD800 <= one < 0xE000
           and unicodedata.category(chr(one)) not in ("Cn", "Co")]
chance = random.Random(3)
names = ["".join(chance.choices(letters[:3000], k=chance.randrange(1, 9))) for _ in range(20000)]
texts = [*letters, *names, *(one for pair in FITS + UNFIT for one in pair)]
told = subprocess.run(
    ["node", os.path.join(os.path.dirname(os.path.abspath(__file__)), "searched.mjs"), page],
    input=json.dumps(texts), capture_output=True, text=True, check=True)
by_page = dict(zip(texts, json.loads(told.stdout), strict=True))
differ = [one for one in texts if by_page[one] != folded(one)]
for one in differ[:5]:
    print(ascii((one, by_page[one], folded(one))))
for wanted, pairs in (True, FITS), (False, UNFIT):
    for text, name in pairs:
        got = by_page[text] in by_page[name], folded(text) in folded(name)
        if got != (wanted, wanted):
            differ.append(text)
            print(ascii((text, name, got)))
print(f"{len(texts)} folded, {len(differ)} differ")
