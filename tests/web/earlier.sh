# A clerk without root loses a folder and gets it back with yesterday's state, in Chromium and in
# Firefox. With ROOMS_LARGE=80 a scan has 80 MB.

. "$here/lib/earlier.sh"
. "$here/lib/browsers.sh"
. "$here/lib/door.sh"
if [ -n "$lacking" ] || lacks_earlier; then
  skip 'earlier nights in the page' "missing: ${lacking:-setpriv, python3 or root}"
  return
fi
chmod 755 "$work" .
printf '%s\n' root:{PLAIN}r alice:{PLAIN}a bob:{PLAIN}b eve:{PLAIN}e >rooms.htpasswd
may_go=0
one=2026-11-01.030000 two=2026-11-02.030000
# A document in parts, as the door lays it there.
parts_of() { # NAME: of the file of that name
  python3 -IBc 'import os, sys
sys.path.insert(0, sys.argv[1])
from rooms_admin.room import in_parts
name, whole, parts = sys.argv[2], in_parts.Sum(), []
os.rename(name, name + ".all")
with open(name + ".all", "rb") as source:
    while part := whole.add(source.read(in_parts.LARGEST)):
        parts.append((len(parts) + 1, in_parts.digest_of(part)))
        with open(name + in_parts.end_of(len(parts)), "wb") as out:
            out.write(part)
size = os.path.getsize(name + ".all")
for number in range(len(parts) + 1, in_parts.places_for(size) + 1):
    open(name + in_parts.end_of(number), "w").close()
with open(name, "wb") as out:
    out.write(in_parts.Manifest(size, whole.digest, tuple(parts)).text())
' "$repo/admin" "$1"
}
yes 'a line of a scan' | head -c "${ROOMS_LARGE:-2}200000" >scan.txt
parts_of scan.txt
# Alice manages letters, bob works there, eve reads. Two nights later bob has lost his folder.
begin() {
  stop_server
  rm -rf backups
  open_room office.rooms
  start_room office.rooms 1000000 || return
  lets_nginx
  list_of / list:a A::EVERYONE@:xt A:fd:root:$ALL
  room_does root /folder/letters -X POST
  list_of /letters list:ap "A:fd:alice:$ALL" A:fd:bob:rxwaDtc A:fd:eve:rxtc
  room_does bob /folder/letters/tender -X POST
  room_does bob /doc/letters/tender/offer.txt -X PUT --data-binary 'the first offer'
  room_does bob /folder/letters/tender/plans -X POST
  room_does bob /doc/letters/tender/plans/roof.txt -X PUT --data-binary 'a flat roof'
  room_does bob /doc/letters/reply.txt -X PUT --data-binary 'Dear Sirs'
  room_does bob /doc/letters/kept.txt -X PUT --data-binary 'as ever'
  room_does root /folder/scans -X POST
  list_of /scans list:ap "A:fd:alice:$ALL" A:fd:bob:rxwaDtc A:fd:eve:rxtc
  # Eve reads what comes into the folder, and not this.
  printf '%s\n' list:p "A::alice:$ALL" A::bob:rxwatc >list.sent
  for part in scan.txt scan.txt~*; do
    room_does bob "/doc/scans/$part" -X PUT --data-binary @"$part"
    room_does alice "/dacl/scans/$part" -X PUT --data-binary @list.sent
  done
  at_rest keep_night "$one" 1
  room_does bob /doc/letters/tender/offer.txt -X PUT --data-binary 'the better offer'
  printf '%s\n' list:ap "A:fd:alice:$ALL" A:fd:bob:rxwaDtc >list.sent
  room_does alice /dacl/letters/tender/plans -X PUT --data-binary @list.sent
  at_rest keep_night "$two" 2
  room_does bob /doc/letters/reply.txt -X PUT --data-binary spoiled
  room_does bob /doc/letters/new.txt -X PUT --data-binary 'of today'
}
begin
start_nights 'earlier nights in the page' || return
start_door office
play 'earlier nights in Chromium' earlier.py "$PWD" "$front" chromium
if has firefox-esr || has firefox; then
  begin
  sleep 1
  play 'earlier nights in Firefox' earlier.py "$PWD" "$front" firefox "$((front + 20))"
else
  skip 'earlier nights in Firefox' 'missing: firefox-esr'
fi
# A room that shows none offers none.
sets office EARLIER no
admin setup
take_front
reload_front
play 'without earlier nights' earlier.py "$PWD" "$front" none
cat nights.err earlier.err | sort | uniq -c | head -n 12
