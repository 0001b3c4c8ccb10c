# Earlier nights of a room, through nginx: who sees what of them, what else is tried, and what
# happens when parts of it are killed or hang.

. "$here/lib/earlier.sh"
for suite in "$here"/services/test_earlier*.py; do
  (cd "$here/services" && PYTHONPATH=$repo/services:$repo/admin python3 -B -m unittest \
    "$(basename "$suite" .py)") >"$work/out" 2>&1
  status=$?
  holds "$(basename "$suite" .py): $(tail -n 20 "$work/out")" [ "$status" = 0 ]
done
if lacks_earlier; then
  skip 'earlier nights' 'no loopback, no root, or nginx, curl or setpriv is missing'
  return
fi
chmod 755 "$work" .
printf '%s\n' root:{PLAIN}r alice:{PLAIN}a bob:{PLAIN}b carol:{PLAIN}c dana:{PLAIN}d eve:{PLAIN}e \
  >rooms.htpasswd

# Three nights. bob works in letters with others, and root manages it; alice owns what is gone.
open_room office.rooms
members sales,bob
start_room office.rooms 1000000 || return
list_of / list:a A::EVERYONE@:xt "A:fd:root:$ALL"
for folder in letters private sales; do room_does root "/folder/$folder" -X POST; done
list_of /letters list:a A:fd:alice:rxwaDtc A:fd:bob:rxwatc A:fd:eve:rxt A:fd:carol:rx \
  "A:fd:root:$ALL"
printf '%s\n' list:a U:fdSF:EVERYONE@:r >sacl
room_does root /sacl/letters -X PUT --data-binary @sacl
list_of /private list:a A:fd:bob:rxt A:fd:alice:rxwat
list_of /sales list:a A:fdg:sales:rxt
room_does root /doc/letters/reply -X PUT --data-binary first
room_does root /doc/letters/plan -X PUT --data-binary 'the old plan'
room_does alice /doc/letters/gone -X PUT --data-binary 'removed later'
room_does alice /doc/letters/moved -X PUT --data-binary 'moved later'
room_does root '/doc/letters/%C3%BC%25%3F%23%20x' -X PUT --data-binary odd
room_does alice /folder/letters/old -X POST
room_does alice /doc/letters/old/deep -X PUT --data-binary deep
room_does bob /doc/letters/old/mine -X PUT --data-binary 'of bob'
room_does root /doc/private/plan -X PUT --data-binary 'plan one'
room_does root /doc/sales/offer -X PUT --data-binary 'offer one'
head -c 1048576 /dev/urandom >big
room_does root /doc/letters/big -X PUT --data-binary @big -H Expect:
one=2026-11-01.030000 two=2026-11-02.030000 bad=2026-11-03.030000
at_rest keep_night "$one" 1
room_does root /doc/letters/reply -X PUT --data-binary second
at_rest keep_night "$two" 2
room_does root /doc/letters/reply -X PUT --data-binary third
for path in gone old/deep old/mine old plan; do
  room_does root "/object/letters/$path" -X DELETE
done
room_does root /move/letters/moved -X POST --data-binary '{"to":"/private/moved"}'
list_of /private list:ap "A:fd:root:$ALL" A:fd:alice:rxwat
# Another document takes a name that is free again.
room_does bob /doc/letters/plan -X PUT --data-binary 'of bob'
at_rest members sales,dana
copy_night "$two" "$bad" 3
dd if=/dev/urandom of="backups/office/$bad/office.rooms" bs=4096 seek=1 count=30 conv=notrunc \
  2>/dev/null
start_nights 'earlier nights' || return
at_of() { date -d "${1%.*} ${1:11:2}:${1:13:2}:${1:15:2}" +%s; }
night_rows() { # NAME ..
  local row rows=
  for row in "$@"; do rows+=,'{"at":'$(at_of "$row")',"night":"'$row'"}'; done
  echo "[${rows#,}]"
}

# What is shown.
ask 'the nights' 200 "{\"gone\":\"owners\",\"nights\":$(night_rows $bad $two $one)}" bob:b \
  /earlier/nights
ask 'not without a password' 401 - '' /earlier/nights
ask 'nor a document' 401 - '' "/earlier/$one/doc/letters/reply"
ask 'a document of the first night' 200 first bob:b "/earlier/$one/doc/letters/reply"
ask 'of the second' 200 second bob:b "/earlier/$two/doc/letters/reply"
ask 'and of now' 200 third bob:b /doc/letters/reply
ask 'signs' 200 odd bob:b "/earlier/$one/doc/letters/%C3%BC%25%3F%23%20x"
curl -s -u bob:b "$base/earlier/$one/doc/letters/big" >got
same 'the greatest' got big
answer bob:b "/earlier/$one/doc/letters/reply"
holds 'as a file' grep -qi '^Content-Disposition: attachment' "$work/head"
holds 'one disposition' [ "$(grep -ci '^Content-Disposition' "$work/head")" = 1 ]
says_all bob:b "/earlier/$one/doc/letters/reply" '; sandbox'
ask 'a list that may be read' 200 - bob:b "/earlier/$one/dacl/letters/reply"

# Both lists decide: that night's and today's.
now='{"why":"now"}'
ask 'who may not now' 403 "$now" bob:b "/earlier/$one/doc/private/plan"
ask 'who may' 200 'plan one' alice:a "/earlier/$one/doc/private/plan"
ask 'who left the group' 403 "$now" bob:b "/earlier/$one/doc/sales/offer"
ask 'who came to it later' 403 "$now" dana:d "/earlier/$one/doc/sales/offer"
ask 'and reads it now' 200 'offer one' dana:d /doc/sales/offer
ask 'who may only read' 200 first eve:e "/earlier/$one/doc/letters/reply"
ask 'who may not know whose it is' 403 "$now" carol:c "/earlier/$one/doc/letters/reply"
ask 'a list without c' 403 "$now" eve:e "/earlier/$one/dacl/letters/reply"
ask 'nobody else by a field' 403 "$now" bob:b "/earlier/$one/doc/private/plan" \
  -H 'Room-User: alice' -H 'ROOM_USER: alice' -H 'ROOM-USER: alice' -H 'Room_User: alice'
sed -i /^bob/d rooms.htpasswd
sleep 11
ask 'a user who is gone' 401 - bob:x "/earlier/$one/doc/letters/reply"
echo 'bob:{PLAIN}b' >>rooms.htpasswd

# What is gone: shown to its owner of that night, and to who manages what is left.
for who in alice:a root:r; do
  ask "$who: one that was removed" 200 'removed later' $who "/earlier/$one/doc/letters/gone"
  ask "$who: one that was moved to a closed place" 200 'moved later' $who \
    "/earlier/$one/doc/letters/moved"
  ask "$who: in a folder that is gone" 200 deep $who "/earlier/$one/doc/letters/old/deep"
done
for who in bob:b eve:e carol:c; do
  for path in gone moved old/deep never; do
    ask "$who: $path" 403 "$now" $who "/earlier/$one/doc/letters/$path"
  done
done
ask 'bob gets what was his' 200 'of bob' bob:b "/earlier/$one/doc/letters/old/mine"
ask 'and not what alice owned' 403 "$now" bob:b "/earlier/$one/folder/letters/old"
ask 'under a name that he took' 403 "$now" bob:b "/earlier/$one/doc/letters/plan"
ask 'who manages it sees both' 200 'the old plan' root:r "/earlier/$one/doc/letters/plan"
ask 'nothing was there' 404 - root:r "/earlier/$one/doc/letters/never"
names() { # NAME USER:PASSWORD TARGET NAME ..
  curl -s -u "$2" "$base$3" >got
  python3 -c 'import json, sys
print(*[one["name"] for one in json.load(open("got"))])' >got.names 2>&1
  echo "${*:4}" >wanted
  same "$1" got.names wanted
}
names 'no name of what is gone' bob:b "/earlier/$one/folder/letters" big plan reply 'ü%?# x'
names 'but to its owner' alice:a "/earlier/$one/folder/letters" \
  big gone moved old plan reply 'ü%?# x'
names 'and to who manages it' root:r "/earlier/$one/folder/letters" \
  big gone moved old plan reply 'ü%?# x'
# As one ZIP, with the same names, but as any system takes them.
zipped() { # USER:PASSWORD
  curl -s -D head -u "$1" "$base/earlier/$one/zip/letters" >got.zip
  python3 -c 'import zipfile
with zipfile.ZipFile("got.zip") as whole:
    assert whole.testzip() is None
    print(*sorted(whole.namelist()), sep="\n")' >got.names 2>&1
}
zipped root:r
for name in letters/ letters/big letters/gone letters/moved letters/old/deep letters/reply \
  'letters/ü%_# x'; do
  holds "a ZIP of who manages it has $name" grep -qxF "$name" got.names
done
holds 'as a file' grep -qi '^Content-Disposition: attachment; filename="letters.zip"' head
holds 'and one disposition' [ "$(grep -ci '^Content-Disposition' head)" = 1 ]
zipped bob:b
printf 'letters/%s\n' '' big 'not in this ZIP.txt' reply 'ü%_# x' >wanted
same 'that of bob has what he sees of then, and what he may read' got.names wanted
ask 'nobody without a password has one' 401 - '' "/earlier/$one/zip/letters"
names 'of what was in it, each their own' alice:a "/earlier/$one/folder/letters/old" deep
names 'or all' root:r "/earlier/$one/folder/letters/old" deep mine

# The other values of the setting count at once.
sets office EARLIER members
ask 'members: who may list and add there' 200 'removed later' bob:b \
  "/earlier/$one/doc/letters/gone"
ask 'also what was moved away' 200 'moved later' bob:b "/earlier/$one/doc/letters/moved"
ask 'who only reads sees what is there' 200 first eve:e "/earlier/$one/doc/letters/reply"
ask 'and not what is gone' 403 "$now" eve:e "/earlier/$one/doc/letters/gone"
names 'nor its name' eve:e "/earlier/$one/folder/letters" big plan reply 'ü%?# x'
names 'but who may add does' bob:b "/earlier/$one/folder/letters" \
  big gone moved old plan reply 'ü%?# x'
sets office EARLIER no
ask 'no: no night' 404 '{"why":"no-earlier"}' bob:b /earlier/nights
ask 'and no document' 404 '{"why":"no-night"}' bob:b "/earlier/$two/doc/letters/reply"
sets office EARLIER owners
for first in 2026-11-02 2026-11-02.030000; do
  sets office EARLIER_FROM "$first"
  ask "from $first: no night before it" 404 '{"why":"no-night"}' bob:b \
    "/earlier/$one/doc/letters/reply"
  ask 'that one' 200 second bob:b "/earlier/$two/doc/letters/reply"
done
ask 'the list neither' 200 "{\"gone\":\"owners\",\"nights\":$(night_rows $bad $two)}" bob:b \
  /earlier/nights
sets office EARLIER_FROM ''

# Only reading.
for method in PUT POST DELETE PATCH OPTIONS HEAD PROPFIND; do
  got=$(curl -s -o /dev/null -w '%{http_code}' -u alice:a -X $method -m 20 \
    "$base/earlier/$one/doc/letters/reply" 2>/dev/null)
  holds "$method: $got" [ "${got:0:1}" = 4 ]
done
ask 'nothing was changed' 200 first bob:b "/earlier/$one/doc/letters/reply"
for field in 'X-HTTP-Method-Override: PUT' 'METHOD: PUT' 'X-Original-URL: /move/x'; do
  ask "$field" 200 first bob:b "/earlier/$one/doc/letters/reply" -H "$field"
done

# Tricks with the night, the path and the room.
trick() { # TARGET
  local got
  got=$(curl -s -o "$work/body" -w '%{http_code}' --path-as-is -u alice:a "$base$1")
  holds "$1: $got $(head -c 60 "$work/body" | tr '\n' ' ')" [ "${got:0:1}" = 4 ]
}
for night in ../../etc .. . latest standby 2026-11-01 $one.part $one.unsound 2026-11-01.03000 \
  2026-11-01.0300000 ..%2F$one $one%00 $one%0a $one%20 $one/.. %32${one:1} 9999-99-99.999999 \
  $one%2F.. '２026-11-01.030000' ''; do
  trick "/earlier/$night/doc/letters/reply"
done
for path in doc/letters/../private/plan doc//private/plan doc/letters%2F..%2Fprivate/plan doc/. \
  doc/letters%2Freply doc/%ff doc/a%00b object/letters/reply move/letters/reply sacl/letters/reply \
  attr/letters/reply 'can/letters/reply?r' 'doc/letters/reply?r' doc/letters/reply/ \
  doc/letters/reply%2f ../doc/private/plan doc/%2e%2e/private/plan; do
  trick "/earlier/$one/$path"
done
trick "/x/../earlier/$one/doc/letters/reply"
trick "//earlier/$one/doc/letters/reply"
trick "/invoices/earlier/$one/doc/letters/reply"
trick /earlier
ask 'whether there are nights' 204 '' bob:b /earlier/
ask 'a document that is called earlier' 201 '' root:r /doc/earlier -X PUT --data-binary x
ask 'is one of the room' 200 x root:r /doc/earlier
ask 'and below it is the room too' 409 - root:r /doc/earlier/nights

# Who reaches what, as whom.
as_other() { setpriv --reuid 64126 --regid 64126 --clear-groups "$@"; }
as_judge() {
  setpriv --reuid "$judge_user" --regid www-data --groups "$judge_user" --bounding-set=-all "$@"
}
reaches() { # SOCKET LINE
  python3 -c 'import socket, sys
asking = socket.socket(socket.AF_UNIX)
asking.settimeout(20)
asking.connect(sys.argv[1])
asking.sendall(sys.argv[2].encode() + b"\n")
asking.shutdown(1)
print(asking.recv(99).decode())' "$PWD/run/$1" "$2" 2>/dev/null
}
export -f reaches
holds 'others enter no copy' eval "! as_other ls copies/office.$one.* 2>/dev/null"
holds 'nor its socket' eval "! as_other ls run/rooms-nights/open/office.$one.* 2>/dev/null"
holds 'the judge does' as_judge ls "$(echo run/rooms-nights/open/office.$one.*)/socket"
holds 'and reads no backup' eval '! as_judge ls backups 2>/dev/null'
holds 'nor a copy' eval "! as_judge ls copies 2>/dev/null"
holds 'others get to no service' \
  [ -z "$(as_other bash -c 'reaches rooms-nights/socket "list office"')" ]
chmod 666 run/rooms-nights/socket
holds 'nobody else is answered' \
  [ -z "$(as_other bash -c 'reaches rooms-nights/socket "list office"')" ]
chmod 660 run/rooms-nights/socket
for line in 'open office ../x' 'open ../office x' 'open office' "list office $one" \
  "open none $one" "open office $one extra" 'list none' '' "$(printf 'x%.0s' {1..200})"; do
  got=$(reaches rooms-nights/socket "$line")
  holds "the line ${line:0:40}: $got" [ "${got#ready}" = "$got" -a "${got#nights}" = "$got" ]
done
caps() { sed -n 's/^CapEff:[[:space:]]*//p' "/proc/$1/status"; }
serving() { pgrep -P "$(supervisor)"; }
for process in $(serving); do
  holds 'a program has no right to read backups' [ "$(caps "$process")" = 0000000000000000 ]
done
holds 'who starts them has that one' [ "$(caps "$(supervisor)")" = 0000000000000004 ]
holds 'the judge none' [ "$(caps "$(tail -n 1 earlier.pids)")" = 0000000000000000 ]

# Records of today's room.
at_rest eval '"$rooms" audit office.rooms >records'
holds 'who read what is there is in them' grep -q ,bob,/letters/reply,r,yes, records
holds 'and who may not' grep -q ,carol,/letters/reply,r,yes, records

# A damaged backup, one that goes, one that comes, one of which a part goes.
ask 'a damaged one' 410 '{"why":"damaged"}' alice:a "/earlier/$bad/doc/letters/reply"
ask 'the others go on' 200 first bob:b "/earlier/$one/doc/letters/reply"
cp -a "backups/office/$one" kept
rm -r "backups/office/$one"
ask 'one that was removed' 404 '{"why":"no-night"}' bob:b "/earlier/$one/doc/letters/reply"
no_copy() { ! compgen -G "copies/office.$one.*" >/dev/null; }
for turn in {1..100}; do no_copy && break; sleep 0.1; done
holds 'has no copy any more' no_copy
ask 'is not among the nights' 200 "{\"gone\":\"owners\",\"nights\":$(night_rows $bad $two)}" \
  bob:b /earlier/nights
rm -r "backups/office/$bad"
mkdir -m 700 "backups/office/$bad"
cp -a kept/* "backups/office/$bad"
chown 64126 "backups/office/$bad"
ask 'one that is not root'\''s' 404 '{"why":"no-night"}' bob:b "/earlier/$bad/doc/letters/reply"
rm -r "backups/office/$bad"
ln -s "$two" "backups/office/$bad"
ask 'a link' 404 '{"why":"no-night"}' bob:b "/earlier/$bad/doc/letters/reply"
rm "backups/office/$bad"
# Removed while the copy is made: the document, or no night.
: >codes
for n in {1..8}; do
  cp -a kept "backups/office/$one"
  truncate -s +200M "backups/office/$one/office.rooms-wal"
  curl -s -o "$work/body" -w '%{http_code}' -u bob:b \
    "$base/earlier/$one/doc/letters/reply" >code &
  asking=$!
  sleep "0.0$n"
  rm -r "backups/office/$one"
  wait "$asking"
  echo "$(cat code) $(head -c 30 "$work/body")" >>codes
done
echo "  removed while it is opened: $(sort codes | uniq -c | tr -s ' \n' ' ')"
holds 'a part of it is never shown' \
  [ -z "$(grep -vx -e '200 first' -e '404 {"why":"no-night"}' codes)" ]
ask 'the others still go on' 200 second bob:b "/earlier/$two/doc/letters/reply"

# Twenty nights at once: four are open, and no more come.
for n in {10..29}; do copy_night "$two" "2026-11-$n.030000" "$n"; done
codes_of() { sort codes | uniq -c | tr -s ' \n' ' '; }
asking=()
: >codes
for n in {10..29}; do
  who=alice:a
  [ $((n % 2)) = 0 ] || who=bob:b
  curl -s -o /dev/null -w '%{http_code}\n' -u "$who" \
    "$base/earlier/2026-11-$n.030000/doc/letters/reply" >>codes &
  asking+=("$!")
done
wait "${asking[@]}"
echo "  twenty nights at once: $(codes_of)"
holds "each is answered: $(codes_of)" [ "$(grep -cx -e 200 -e 503 codes)" = 20 ]
holds 'four at most are open' [ "$(ls copies | wc -l)" -le 4 ]
sleep 1.1
ask 'after a while another one' 200 second bob:b /earlier/2026-11-29.030000/doc/letters/reply
sleep 1.1
# Twelve callers of one night start it once.
asking=()
: >codes
for n in {1..12}; do
  curl -s -o /dev/null -w '%{http_code}\n' -u bob:b \
    "$base/earlier/2026-11-11.030000/doc/letters/reply" >>codes &
  asking+=("$!")
done
wait "${asking[@]}"
holds "callers of one night: $(codes_of)" [ "$(sort -u codes)" = 200 ]
# One user who asks a hundred times is refused beyond some, and another one is answered.
for n in {1..100}; do
  printf '%s\n' "url = \"$base/earlier/2026-11-11.030000/doc/letters/big\"" 'user = "bob:b"' \
    'output = "/dev/null"' 'write-out = "%{http_code}\n"'
done >hundred
curl -s --no-progress-meter -Z --parallel-max 100 --parallel-immediate -K hundred >codes &
asking=$!
takes=$(curl -s -o /dev/null -w '%{time_total}' -u alice:a \
  "$base/earlier/2026-11-11.030000/doc/letters/reply")
wait "$asking"
echo "  a hundred at once: $(codes_of); another user: $takes s"
# (503 where alice has one of the places meanwhile that one user may fill)
holds "some are refused, and none is lost: $(codes_of)" \
  [ "$(grep -cx -e 200 -e 429 -e 503 codes)" = 100 ]
holds "alice waits for $takes s" awk -v took="$takes" 'BEGIN { exit !(took < 5) }'
# More than all may have.
sleep 1.1
copy_night "$two" 2026-11-30.030000 30
truncate -s 1000M backups/office/2026-11-30.030000/office.rooms-wal
ask 'a night that needs too much' 503 '{"why":"large"}' bob:b \
  /earlier/2026-11-30.030000/doc/letters/reply

# A copy whose server is killed comes again, and one that hangs.
ask 'a night' 200 second bob:b /earlier/2026-11-12.030000/doc/letters/reply
kill -9 $(serving)
sleep 0.2
ask 'a killed copy is opened anew' 200 second bob:b /earlier/2026-11-12.030000/doc/letters/reply
kill -STOP $(serving)
ask 'one that hangs too' 200 second bob:b /earlier/2026-11-12.030000/doc/letters/reply
# After a kill of who opens them nothing is left, and systemd starts it again.
children=$(serving)
kill -9 "$(supervisor)"
gone() { for one in $children; do [ ! -e "/proc/$one" ] || return 1; done; }
for turn in {1..100}; do gone && break; sleep 0.05; done
holds 'no copy is served any more' gone
ask 'a night after that' 200 second bob:b /earlier/2026-11-13.030000/doc/letters/reply
holds 'what was left is gone' [ "$(ls copies)" = office.2026-11-13.030000.1 ]
kill -9 "$(tail -n 1 earlier.pids)"
ask 'a judge that was killed' 200 second bob:b /earlier/2026-11-13.030000/doc/letters/reply
# Who opens them hangs.
kill -STOP "$(supervisor)"
ask 'who is not there is said' 502 '{"why":"away"}' bob:b /earlier/nights
kill -CONT "$(supervisor)"
ask 'and goes on' 200 - bob:b /earlier/nights
# Today's room is away, or hangs: nothing is shown.
stop_server
ask "without today's room" 503 '{"why":"no-room"}' bob:b \
  /earlier/2026-11-13.030000/doc/letters/reply
start_room office.rooms 1000000
lets_nginx
stop_others
idle=3 start_earlier
ask 'a night again' 200 second bob:b /earlier/2026-11-13.030000/doc/letters/reply
for turn in {1..200}; do [ -z "$(ls copies)" ] && break; sleep 0.1; done
holds 'a copy ends after a while' [ -z "$(ls copies)" ]
holds 'and its server' [ -z "$(serving)" ]

# The budget: a night of 30,000 objects.
big=$(mktemp -d /dev/shm/rooms-tests.XXXXXX 2>/dev/null || mktemp -d)
new_room "$big/office.rooms"
stop_server
start_at_socket "$big/office.rooms" "$PWD/big.socket" 1000000 &&
  python3 "$here/services/tree.py" flat "$PWD/big.socket" 30000
stop_server
mkdir -m 700 backups/office/2026-12-01.030000
cp "$big"/office.rooms* backups/office/2026-12-01.030000/
echo 'number 31' >backups/office/2026-12-01.030000/run
chmod 600 backups/office/2026-12-01.030000/*
cp "$big"/office.rooms* .
rm -r "$big"
start_room office.rooms 1000000
lets_nginx
takes=$(curl -s -o got -w '%{http_code} %{time_total}' -u root:r \
  "$base/earlier/2026-12-01.030000/folder/")
echo "  a night of 30,000 objects, opened: $takes s"
holds "in $takes s" awk -v took="${takes#200 }" 'BEGIN { exit !(took < 1) }'
holds 'is it' grep -qF '"name":"flat"' got
takes=$(curl -s -o got -w '%{time_total}' -u root:r "$base/earlier/2026-12-01.030000/folder/flat")
echo "  and a folder of it after that: $takes s"
cat nights.err earlier.err | sort | uniq -c | head -n 12
