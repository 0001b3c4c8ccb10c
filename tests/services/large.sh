# Documents of more than 1 MiB, by the program behind nginx with its door: they come out as they
# went in, users may do with them what they may do with small ones, and what a killed door leaves.

. "$here/lib/front.sh"
. "$here/lib/door.sh"
if ! has python3 || [ -z "$nginx" ] || ! has curl || [ "$loopback" = no ]; then
  skip 'large documents' 'no loopback, or python3, nginx or curl is missing'
  return
fi
run init F alice staff
printf 'group,user\n' >groups.csv
for one in staff,{alice,bob,pat,ella,clara,ivan} editors,{erin,ella} clerks,clara interns,ivan \
  personnel,{petra,ella}; do echo "$one"; done >>groups.csv
gives 'groups' 0 'groups 5, members 12\n' '' groups F groups.csv
set_list F / dacl list:a A::AUTHENTICATED@:x "A:fd:alice:$ALL"
start_room F 1000000 || return
printf '%s:{PLAIN}x\n' alice bob pat zoe ella clara ivan >rooms.htpasswd
admin setup
sets office LARGEST 20
sets office DRIVE yes
start_front 'large documents' || return
start_door office --drive=yes
socket=$PWD/run/rooms/office/socket
ask 'a folder' 201 '' alice:x /folder/p -X POST
printf '%s\n' list:ap "A:fd:alice:$ALL" D:d:EVERYONE@:Dd A:fdg:staff:rwaxtc A:fi:OWNER@:d >list
ask 'its list' 204 '' alice:x /dacl/p -X PUT --data-binary @list
ask 'another one' 201 '' alice:x /folder/e -X POST
printf '%s\n' list:ap "A:fd:AUTHENTICATED@:$ALL" >list
ask 'of everybody' 204 '' alice:x /dacl/e -X PUT --data-binary @list

# As one.
head -c 20000000 /dev/urandom >scan
head -c 19000000 /dev/urandom >other
tag() { echo "\"$(sha256sum <"$1" | cut -c 1-32)\""; }
ask 'an upload' 201 '' pat:x /door/doc/p/scan -T scan -H 'If-None-Match: *'
same_bytes() { # NAME TARGET FILE [USER]
  curl -s -o got -u "${4:-bob}:x" "$base$2"
  holds "$1" cmp -s got "$3"
}
same_bytes 'comes out' /door/doc/p/scan scan
same_bytes 'by WebDAV too' /drive/p/scan scan
curl -s -u bob:x -r 1048570-2097160 "$base/door/doc/p/scan" >got
tail -c +1048571 scan | head -c 1048591 >wanted
holds 'a range over three parts' cmp -s got wanted
curl -s -I -u bob:x "$base/door/doc/p/scan" | tr -d '\r' >head
holds 'its length' grep -qix 'content-length: 20000000' head
holds 'its tag' grep -qiFx "etag: $(tag scan)" head
ask 'not by a stranger' 403 - zoe:x /door/doc/p/scan
ask 'one name' 200 \
  '{"all":true,"at":"/p","found":[{"kind":"document","path":"/p/scan"}],"unlisted":[]}' \
  bob:x '/door/find/p?scan'
curl -s -u bob:x "$base/door/zip/p" >all.zip
python3 -c 'import sys, zipfile
sys.stdout.buffer.write(zipfile.ZipFile("all.zip").read("p/scan"))' >got
holds 'in a ZIP' cmp -s got scan
ask 'another one' 204 '' bob:x /door/doc/p/scan -T other -H "If-Match: $(tag scan)"
ask 'not once more' 412 - bob:x /door/doc/p/scan -T scan -H "If-Match: $(tag scan)"
same_bytes 'it is there' /door/doc/p/scan other
head -c 20971521 /dev/zero >too-large
ask 'too large' 413 - pat:x /door/doc/p/x -T too-large -H 'If-None-Match: *'
ask 'which is said before' 413 '{"why":"too-large"}' pat:x '/door/upload/p/x?20971521' -X POST \
  -H 'If-None-Match: *'
ask 'to the room as ever' 413 - pat:x /doc/p/x -T scan
mkdir -p run/rooms-full
: >run/rooms-full/office.full
ask 'a full room' 507 - pat:x /door/doc/p/x -T scan -H 'If-None-Match: *'
rm run/rooms-full/office.full
ask 'moved' 204 '' pat:x /door/move/p/scan -d '{"to":"/e/scan"}'
same_bytes 'to its place' /door/doc/e/scan other zoe
ask 'removed' 204 '' pat:x /door/object/e/scan -X DELETE
ask 'with all of it' 200 '[]' alice:x /folder/e

# In pieces, as the page sends it: in any order, once or again.
curl -s -u pat:x -X POST -H 'If-None-Match: *' "$base/door/upload/p/pieces?20000000" >begun
upload=$(sed -nE 's/^\{"upload":"([0-9a-f]{32})"\}$/\1/p' begun)
split -b 1048576 --numeric-suffixes=1 -a 2 scan piece
for n in 20 07 {01..19}; do
  curl -s -o "$work/body" -w '%{http_code}\n' -T "piece$n" -u pat:x \
    "$base/door/pieces/$upload/$((10#$n))"
done | sort | uniq -c | tr -s ' \n' ' ' >counts
holds "pieces: $(cat counts)" [ "$(cat counts)" = ' 21 204 ' ]
ask 'they are there' 200 "{\"here\":[$(seq -s , 20)]}" pat:x "/door/pieces/$upload"
ask 'for their user alone' 404 '{"why":"no-upload"}' bob:x "/door/pieces/$upload"
ask 'and not in the room' 404 - pat:x /doc/p/pieces
for turn in 1 2; do
  ask "they are the document ($turn)" 201 '' pat:x /door/doc/p/pieces -X PUT -d '' \
    -H "Room-Upload: $upload" -H 'If-None-Match: *'
done
same_bytes 'as it was' /door/doc/p/pieces scan
ask 'removed' 204 '' pat:x /door/object/p/pieces -X DELETE

# Who may not write there is denied before it comes, which would take minutes.
for way in door/doc drive; do
  ask "not by a stranger ($way)" 403 - zoe:x "/$way/p/none" -T scan -H 'If-None-Match: *' \
    --limit-rate 100k -m 20
done

# Four who send slowly as many as they may keep nobody else out, and leave nothing.
coming() { find "/proc/${doors[-1]}/fd" -lname '* (deleted)' | wc -l; }
come() { # NUMBER
  local began=$SECONDS
  until [ "$(coming)" = "$1" ] || [ $((SECONDS - began)) -ge "$patience" ]; do sleep 0.1; done
  holds "$1 come: $(coming)" [ "$(coming)" = "$1" ]
}
slow=()
for one in bob ella clara ivan; do
  for n in 1 2; do
    curl -s --limit-rate 1k -T scan -H 'If-None-Match: *' -u "$one:x" "$base/door/doc/e/$one$n" \
      >"slow-$one$n" &
    slow+=($!)
    others+=($!)
  done
done
come 8
ask 'a fifth gets through' 201 '' pat:x /door/doc/p/fifth -T scan -H 'If-None-Match: *'
same_bytes 'with all of it' /door/doc/p/fifth scan
kill "${slow[@]}"
come 0
ask 'of the others nothing is left' 200 '[]' alice:x /folder/e

for n in 1 2 3 4; do
  curl -s -o "code$n" -w '%{http_code}' --limit-rate 2M -T scan -H 'If-None-Match: *' -u pat:x \
    "$base/door/doc/p/at-once-$n" >"status$n" &
  others+=($!)
  asked[n]=$!
done
wait "${asked[@]}"
cat status? | fold -w 3 | sort | uniq -c | tr -s ' \n' ' ' >counts
holds "two of a user at once: $(cat counts)" [ "$(cat counts)" = ' 2 201 2 429 ' ]
most=$(awk '/VmHWM/ { print $2 }' "/proc/${doors[0]}/status")
holds "the door has few parts in memory: $most kB" [ "$most" -lt 80000 ]

# In and out.
mkdir -p tree/in
cp scan tree/in/scan
printf x >tree/in/small
head -c 20971521 /dev/zero >tree/in/larger
echo 'user = "pat:x"' >settings
chmod 600 settings
rooms_admin() { # VERB ARGUMENT ..
  "$installed/sbin/rooms-admin" "$1" --config settings --room "$base" "${@:2}" </dev/null \
    >"$work/out" 2>"$work/err"
  status=$?
}
ask 'a folder for it' 201 '' alice:x /folder/in -X POST
ask 'of everybody' 204 '' alice:x /dacl/in -X PUT --data-binary @list
rooms_admin import tree /in
told 'import' 1 'made 3, replaced 0, there already 1, left out 1' 'larger: more than 20971520 bytes'
same_bytes 'came in' /door/doc/in/in/scan scan
rooms_admin import tree /in
told 'once more' 1 'made 0, replaced 0, there already 4, left out 1'
cp other tree/in/scan
rooms_admin import tree /in
told 'another one' 1 'made 0, replaced 0, there already 3, left out 2'
rooms_admin import --replace tree /in
told 'replaced' 1 'made 0, replaced 1, there already 3, left out 1'
rooms_admin export /in out
told 'export' 0 'folders 2, documents 2, left out 0'
holds 'comes out' cmp -s out/in/scan other
find out -name '*rooms-part*' >got
same 'without parts' got /dev/null

# Users of each level.
python3 "$here/services/large_levels.py" "$socket" "$PWD/run/door/office/socket" >found 2>&1
holds "small and large ones: $(tail -n 3 found)" grep -qE '^[0-9]{3} compared, 0 differ$' found

# The door is killed: the document is the one before or the one after, as a whole.
kill -9 "${doors[-1]}"
wait "${doors[-1]}" 2>/dev/null
ask 'no door takes one' 502 - pat:x /door/doc/p/none -T scan -H 'If-None-Match: *'
start_door office --drive=yes
head -c 3000000 /dev/urandom >now
ask 'one to be replaced' 201 '' pat:x /door/doc/p/kept -T now -H 'If-None-Match: *'
for turn in {1..12}; do
  head -c 3000000 /dev/urandom >next
  curl -s -o out -w '%{http_code}' -T next -H "If-Match: $(tag now)" -u bob:x \
    "$base/door/doc/p/kept" >code &
  asked=$!
  sleep "0.$(printf %02d $((RANDOM % 30)))"
  kill -9 "${doors[-1]}"
  wait "${doors[-1]}" "$asked" 2>/dev/null
  start_door office --drive=yes
  curl -s -o got -u pat:x "$base/door/doc/p/kept"
  if cmp -s got next; then cp next now; fi
  holds "a kill ($turn, $(cat code)) leaves one or the other" cmp -s got now
done
ask 'it can be replaced' 204 '' bob:x /door/doc/p/kept -T next -H "If-Match: $(tag now)"
for turn in {1..8}; do
  curl -s -o out -w '%{http_code}' -T next -H 'If-None-Match: *' -u pat:x \
    "$base/door/doc/p/new$turn" >code &
  asked=$!
  sleep "0.$(printf %02d $((RANDOM % 20)))"
  kill -9 "${doors[-1]}"
  wait "${doors[-1]}" "$asked" 2>/dev/null
  start_door office --drive=yes
  got=$(curl -s -o got -w '%{http_code}' -u pat:x "$base/door/doc/p/new$turn")
  if [ "$got" = 200 ]; then holds "a kill ($turn) leaves all of it" cmp -s got next
  else holds "a kill ($turn) leaves no document: $got" [ "$got" = 404 ]; fi
done
for turn in {1..8}; do
  ask "one to be moved ($turn)" 201 '' pat:x "/door/doc/p/way$turn" -T next -H 'If-None-Match: *'
  curl -s -o out -u pat:x "$base/door/move/p/way$turn" -d "{\"to\":\"/e/way$turn\"}" &
  asked=$!
  sleep "0.0$((RANDOM % 5))"
  kill -9 "${doors[-1]}"
  wait "${doors[-1]}" "$asked" 2>/dev/null
  start_door office --drive=yes
  curl -s -o out -u pat:x "$base/door/move/p/way$turn" -d "{\"to\":\"/e/way$turn\"}"
  same_bytes "a move that is sent again does the rest ($turn)" "/door/doc/e/way$turn" next
done
stop_server
gives 'the room is sound' 0 'sound\n' '' verify F
