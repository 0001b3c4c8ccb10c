# Pictures of pages as they are made, with what the unit allows a process: plain documents, and such
# as are made to take over or to hold what reads them.

if ! has pdftoppm || ! has pdfinfo || ! has prlimit || ! has python3; then
  skip 'pictures of pages' 'pdftoppm, pdfinfo, prlimit or python3 is missing'
  return
fi
services=$repo/services
unit=$repo/deploy/systemd/rooms-picture@.service
limit() { sed -n "s/^$1=//p" "$unit" | sed 's/M$/ * 1048576/'; }
python3 -IB "$here/lib/inetd.py" "$PWD/pictures" 4 prlimit "--cpu=$(limit LimitCPU)" \
  "--as=$(($(limit LimitAS)))" "--fsize=$(($(limit LimitFSIZE)))" \
  "$repo/deploy/rooms-service" picture &
others+=($!)
until [ -S pictures ]; do sleep 0.02; done
mkdir pdfs
python3 -IB "$here/services/pdfs.py" pdfs >wanted
cat >asks.py <<'PY'
import sys
import time

services, admin, folder = sys.argv[1:]
sys.path[:0] = [services, admin]
from rooms_services import apart, picture  # noqa: E402
from rooms_services.door.folders.pages import PATIENCE, SECONDS  # noqa: E402

longest = 0.0
for line in open("wanted"):
    name = line.split()[0]
    with open(f"{folder}/{name}.pdf", "rb") as source:
        document = source.read()
    began = time.monotonic()
    try:
        told, made = apart.asked("pictures", "1", document, picture.MOST, PATIENCE, SECONDS)
    except apart.Ended:
        # As the door says it. (A busy machine takes longer for the eight seconds of a processor.)
        told, made = {"why": "too-much"}, b""
    took = time.monotonic() - began
    print(name, told.get("why", "picture"), flush=True)
    if made:
        with open(f"{name}.jpg", "wb") as kept:
            kept.write(made)
    print(f"  {name}: {len(document)} bytes, {len(made)} bytes of it, {told.get('pages')} pages,"
          f" {took:.1f} s", file=sys.stderr)
    longest = max(longest, took)
assert longest < SECONDS + 2, longest
for page, wanted in ((2, "picture"), (3, "picture"), (4, "no-page")):
    told, made = apart.asked("pictures", str(page), open(f"{folder}/letter.pdf", "rb").read(),
                             picture.MOST, PATIENCE, SECONDS)
    assert told.get("why", "picture") == wanted and told["pages"] == 3, told
told, _ = apart.asked("pictures", "14000", open(f"{folder}/many.pdf", "rb").read(),
                      picture.MOST, PATIENCE, SECONDS)
assert told["pages"] == 14000 and "why" not in told, told
PY
python3 -IB asks.py "$services" "$repo/admin" pdfs >found 2>said
status=$?
cat said
holds "each is answered in time: $(tail -n 1 said)" [ "$status" = 0 ]
same 'with a picture, or why there is none' found wanted
# Each picture has at most 2,000 points on a side, whatever its page has.
sides() { # FILE: its height and width, as its head has them
  python3 -c 'import sys
data, at = open(sys.argv[1], "rb").read(), 2
while data[at + 1] not in (0xC0, 0xC1, 0xC2):
    at += 2 + int.from_bytes(data[at + 2:at + 4])
print(int.from_bytes(data[at + 5:at + 7]), int.from_bytes(data[at + 7:at + 9]))' "$1"
}
for one in 'letter 2000 1414' 'plan 2000 2000' 'strip 1 2000'; do
  read -r name high wide <<<"$one"
  holds "$name: $(sides "$name.jpg")" [ "$(sides "$name.jpg")" = "$high $wide" ]
done
