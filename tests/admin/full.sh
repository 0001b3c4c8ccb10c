# rooms-admin full: how much of a room is in use, what it refuses, and what nginx answers while a
# room is full. systemctl is a stand-in that says what MemoryMax is.

. "$here/lib/front.sh"
if [ "$loopback" = no ] || ! has flock || ! has setpriv || ! has python3; then
  skip 'a full room' 'no loopback, or no flock, setpriv, python3'
  return
fi
mkdir bin room run backups
cat >bin/systemctl <<END
#!/bin/sh
case "\$*" in *rooms.slice) cat '$PWD/together' ;; *) cat '$PWD/memory' ;; esac
END
chmod 755 bin/systemctl
echo infinity >together
mkdir -p root/proc settings
echo 'SwapTotal:             0 kB' >root/proc/meminfo
write_conf() { # LIMIT
  printf '%s\n' "FILE=$PWD/room/F" "PORT=$port" "BACKUPS=$PWD/backups" \
    "LIMIT=$1" UNIT=rooms@office "PROGRAM=$rooms" >office.conf
}
fulls() { # WORD ..
  PATH=$PWD/bin:$PATH ROOMS_RUN=$PWD/run ROOMS_ROOT=$PWD/root ROOMS_SETTINGS=$PWD/settings \
    timeout "$patience" "$repo/admin/rooms-admin" full "$@" \
    --room "$PWD/office.conf" </dev/null >"$work/out" 2>"$work/err"
  status=$?
}
megabytes() { # USER PLACE COUNT: that many documents of 1 MiB, in one connection
  local n
  head -c 1048576 /dev/zero >mebibyte
  for ((n = 1; n <= $3; n++)); do
    printf 'PUT /doc%s%s HTTP/1.1\r\nRoom-User: %s\r\nContent-Length: 1048576\r\n' "$2" "$n" "$1"
    [ "$n" != "$3" ] || printf 'Connection: close\r\n'
    printf '\r\n'
    cat mebibyte
  done >"$work/sent"
  exchange
}

# Settings: what is refused, and what LIMIT means.
echo infinity >memory
open_room room/F
for wrong in many 0 -1 1.5 010 12345678 None '1 none'; do
  write_conf "$wrong"
  fulls --look
  told "LIMIT=$wrong" 2 'bad settings: LIMIT in'
done
write_conf 5
fulls --other
told 'an unknown word' 2 'bad arguments'
means() { # MEMORYMAX LIMIT TEXT
  echo "$1" >memory
  write_conf "$2"
  fulls --look
  told "MemoryMax $1, LIMIT '$2'" 0 "0 MB of $3 are in use"
}
means 1073741824 '' 816
means 4294967296 '' 3696
means 104857600 '' 1
means infinity '' 'any number'
means 1073741824 none 'any number'
# All servers together have less, which the rooms share.
echo 3221225472 >together
means 4294967296 '' 2736
touch settings/office.conf settings/invoices.conf
means 4294967296 '' 1296
means infinity '' 'any number'
echo infinity >together
# Half of the swap is for the nightly runs, and rooms share the other half.
echo 'SwapTotal:       8388608 kB' >root/proc/meminfo
means 1073741824 '' 2736
rm settings/*.conf
means 1073741824 '' 4656
echo 'SwapTotal:             0 kB' >root/proc/meminfo
means 104857600 7 7
fulls --json
rows_are 'for a program' \
  '{"room": "office", "used": '"$(stat -c %s room/F)"', "limit": 7340032, "full": false}'
holds 'a room that is not full' [ "$status" = 0 ]
write_conf none
fulls --json --room ./office.conf
rows_are 'two rooms' \
  '{"room": "office", "used": '"$(stat -c %s room/F)"', "limit": null, "full": false}' \
  '{"room": "office", "used": '"$(stat -c %s room/F)"', "limit": null, "full": false}'
fulls --look --room ./office.conf
told 'two rooms in one line' 2 'bad arguments: --look looks at one room, --json at several'
printf '#!/bin/sh\nexit 1\n' >bin/systemctl
write_conf ''
fulls --look
told 'systemd says nothing' 1 "doesn't say what MemoryMax"
group=root/sys/fs/cgroup/rooms.slice
mkdir -p "$group/rooms@office.service"
echo max >$group/memory.max
echo 1073741824 >"$group/rooms@office.service/memory.max"
fulls --look
told 'and need not while the server runs' 0 '0 MB of 816 are in use'
rm -r root/sys
write_conf 7
fulls --look
told 'and need not where LIMIT is a number' 0 '0 MB of 7'
echo nonsense >room/F
fulls --look
told 'a file that is no room' 2 "can't be read"
rm room/F
fulls --look
told 'a file that is not there' 2 "can't be read"

# What is in use, while a server runs: removing makes it less at once, though the file stays as
# large.
open_room room/F
write_conf 5
start_room room/F 1000 || return
write_conf 5
megabytes root /m 8
fulls --look
told 'a room that is too large' 1 '8 MB of 5 are in use'
fulls --json
holds 'the same for a program' [ "$status" = 1 ]
holds 'which says so' grep -q '"full": true' "$work/out"
size=$(stat -c %s room/F)
for n in 1 2 3 4 5; do asks "document $n is removed" done_reply DELETE "/object/m$n" root; done
fulls --look
told 'once enough was removed' 0 '3 MB of 5 are in use'
holds 'the file is no smaller' [ "$(stat -c %s room/F)" -ge "$size" ]
if has_sqlite; then
  stop_server
  cp room/F counted
  cp room/F-wal counted-wal
  wanted=$(sqlite3 counted 'SELECT (page_count - freelist_count) * page_size
    FROM pragma_page_count, pragma_freelist_count, pragma_page_size')
  holds 'it is what sqlite3 counts' [ "$(python3 -IBc 'import sys
sys.path.insert(0, sys.argv[1])
from rooms_admin.room.size import Used
print(Used().look(sys.argv[2]))' "$repo/admin" room/F)" = "$wanted" ]
  start_room room/F 100000 || return
else
  skip 'what sqlite3 counts' 'no sqlite3, or one that is too old'
fi

# An import in a user's name asks the server past nginx, so it looks itself how much is in use.
write_conf 5
mkdir -p tree/sub
for n in 1 2 3 4; do head -c 1000000 /dev/zero >"tree/b$n"; done
imports() {
  PATH=$PWD/bin:$PATH ROOMS_RUN=$PWD/run "$repo/admin/rooms-admin" import --as root "$@" \
    --room "$PWD/office.conf" tree /import </dev/null >"$work/out" 2>"$work/err"
  status=$?
}
imports
told 'an import into a room that gets full' 1 'the room is full: ' 'made '
fulls --look
told 'ends there' 0 ' MB of 5 are in use'
imports
told 'again' 1 'the room is full: ' 'made 0, replaced 0, there already '
imports --force
told 'or is told to go on' 0 'left out 0'
fulls --look
told 'and then fills it' 1 ' MB of 5 are in use'
imports --replace
told 'into a room that is full none begins' 2 'the room is full: '
write_conf none
imports
told 'without a limit it does' 0 'made 0, replaced 0, there already 6, left out 0'
write_conf 5
for name in /b1 /b2 /b3 /b4 /sub ''; do
  asks "import$name is removed" done_reply DELETE "/object/import$name" root
done

# The flag comes, goes, and stays as it should.
flag=run/rooms-full/office.full
left=run/rooms-full/office.left
watcher=
watch() {
  write_conf "$1"
  PATH=$PWD/bin:$PATH ROOMS_RUN=$PWD/run "$repo/admin/rooms-admin" full --room "$PWD/office.conf" \
    </dev/null 2>>watched &
  watcher=$!
}
unwatch() { # SIGNAL
  kill -s "$1" "$watcher"
  wait "$watcher" 2>/dev/null
}
within() { # NAME COMMAND ..: it holds after a while
  local name=$1 began=$SECONDS
  shift
  until "$@" 2>/dev/null || [ $((SECONDS - began)) -ge "$patience" ]; do sleep 0.1; done
  holds "$name" "$@"
}
holds 'no flag before' is_missing "$flag"
watch 2
within 'a LIMIT below what is in use' is_there "$flag"
holds 'it says so' grep -qF 'the room is full: 3 MB are in use, and LIMIT is 2' watched
within 'nothing is left' grep -qx 0 "$left"
# A look starts no process, and reads of the log what is new.
spent() { # hundredths of a second, of the watch and whatever it started
  local one fields all=0
  for one in "$watcher" $(cat "/proc/$watcher/task/"*/children 2>/dev/null); do
    read -r -a fields <"/proc/$one/stat" 2>/dev/null || continue
    all=$((all + fields[13] + fields[14] + fields[15] + fields[16]))
  done
  echo "$all"
}
before=$(spent)
sleep 5
holds "five looks take less than 0.06 s: $before, $(spent)" [ $(($(spent) - before)) -lt 6 ]
# root's locks are where nobody else gets to, and others' are closed.
if [ "$(id -u)" = 0 ]; then set -- 700 run/.rooms-admin; else set -- 600 run/rooms-full/full.*; fi
holds 'its lock is nobody else'"'"'s' [ "$(stat -c '%a %u' "${@:2}" | sort -u)" = "$1 $(id -u)" ]
fulls
told 'a second one for the same port' 2 'busy: another verb of rooms-admin is at work with full'
holds 'leaves the flag' is_there "$flag"
unwatch KILL
holds 'the flag stays after a kill' is_there "$flag"
watch 2
sleep 0.5
holds 'and is there for the next one' is_there "$flag"
mv room/F room/G
within 'a file that vanishes is said' grep -qF "F can't be read" watched
holds 'and leaves the flag' is_there "$flag"
mv room/G room/F
within 'it is back' grep -qF 'F can be read again' watched
unwatch TERM
within 'no flag stays after a stop' is_missing "$flag"
holds 'nor what was left' is_missing "$left"
watch 9
within 'what is left is told in whole megabytes' grep -qx 5242880 "$left"
megabytes root /more 1
within 'and told anew' grep -qx 4194304 "$left"
asks 'it is removed' done_reply DELETE /object/more1 root
unwatch KILL
watch 2
within 'a flag once more' is_there "$flag"
unwatch KILL
watch none
within 'LIMIT=none takes a flag away that was left' is_missing "$flag"
holds 'and says so' grep -qF 'the room has no limit' watched
holds 'and what was left' is_missing "$left"
unwatch TERM
# Behind nginx: what adds is refused, all else goes on, and removing makes room.
if [ -z "$nginx" ] || ! has curl; then
  skip 'a full room behind nginx' 'nginx or curl is missing'
  return
fi
printf 'root:{PLAIN}r\nbob:{PLAIN}b\n' >rooms.htpasswd
head -c 1048577 /dev/zero >larger
start_front 'a full room behind nginx' || return
for name in doc folder f; do ask "a folder $name" 201 '' root:r "/folder/$name" -X POST; done
ask 'a document' 201 '' root:r /doc/f/d -X PUT --data-binary hello
set_all() { printf 'list:a\nA::EVERYONE@:x\nA:fd:root:%s\n' "$ALL"; }
watch 6
for ((n = 1; n <= 600; n++)); do
  sleep 0.1
  got=$(curl -s -o "$work/body" -w '%{http_code}' -u root:r -X PUT -H Expect: \
    --data-binary @mebibyte "$base/doc/f/m$n")
  [ "$got" = 201 ] || break
done
holds 'uploads are refused in the end' [ "$got" = 507 ]
holds 'after the limit' [ "$n" -gt 3 ]
ask 'a document that is replaced' 507 - root:r /doc/f/d -X PUT --data-binary x
ask 'one that is added to' 507 - root:r /doc/f/d -X POST --data-binary x
ask 'a new one' 507 - root:r /doc/new -X PUT --data-binary x
ask 'a folder' 507 - root:r /folder/new -X POST
ask 'a path with escapes' 507 - root:r /%64oc/new -X PUT --data-binary x
ask 'a path with dots' 507 - root:r /f/../doc/new -X PUT --data-binary x --path-as-is
ask 'a path with slashes' 507 - root:r //doc/new -X PUT --data-binary x
# Only who has signed in is told so, and nobody gets there by its address.
ask 'nobody without a password is told' 401 - '' /doc/new -X PUT --data-binary x
ask 'nor with a wrong one' 401 - root:x /doc/new -X PUT --data-binary x
ask 'another site is told nothing' 403 - \
  '' /doc/new -X PUT --data-binary x -H 'Origin: http://elsewhere.example'
ask 'more than a room takes' 413 - root:r /doc/new -X PUT -H Expect: --data-binary @larger
ask 'nothing is at its address' 404 - root:r /rooms/full
ask 'whatever is asked' 404 - root:r /rooms/full -X PUT --data-binary x
answer root:r /doc/new -X PUT --data-binary x
holds 'the answer has the policy' grep -q '^Content-Security-Policy: ' "$work/head"
ask 'reading' 200 hello root:r /doc/f/d
ask 'listing' 200 - root:r /folder/f
ask 'what one may' 200 '{}' root:r '/can/f/d?'
ask 'a list is read' 200 - root:r /dacl/f
ask 'a list is changed' 204 '' root:r /dacl/f -X PUT --data-binary "$(set_all)"
for name in doc folder; do
  ask "a list of $name" 204 '' root:r "/dacl/$name" -X PUT --data-binary "$(set_all)"
  ask "an owner of $name" 204 '' \
    root:r "/attr/$name" -X PUT --data-binary '{"group":"staff","owner":"root"}'
done
ask 'a move' 204 '' root:r /move/f/d -X POST --data-binary '{"to":"/doc/d"}'
ask 'another site still is one' 403 - \
  root:r /doc/new -X PUT --data-binary x -H 'Origin: http://elsewhere.example'
ask 'nobody without a password reads' 401 - '' /doc/doc/d
# Another room of the same nginx isn't full.
admin add invoices
take_front
printf 'root:{PLAIN}r\n' >rooms-invoices.htpasswd
second() {
  [ "$(curl -s -o "$work/body" -w '%{http_code}' -u root:r "$base/invoices/doc/f")" = 502 ]
}
reloaded second
ask 'it is not full' 502 - root:r /invoices/doc/new -X PUT --data-binary x
: >run/rooms-full/invoices.full
ask 'until it is' 507 - root:r /invoices/doc/new -X PUT --data-binary x
ask 'a folder in it' 507 - root:r /invoices/folder/new -X POST
ask 'nobody without a password is told of it' 401 - '' /invoices/folder/new -X POST
ask 'nor with one of the room office' 401 - bob:b /invoices/folder/new -X POST
ask 'nothing is at its address either' 404 - root:r /invoices/rooms/full
ask 'what it removes goes to the server' 502 - root:r /invoices/object/f -X DELETE
ask 'a list of it too' 502 - root:r /invoices/dacl/doc -X PUT --data-binary x
# Who is remembered is told so too.
for place in '' /invoices; do
  ask "who is remembered, at '$place'" 507 - root:r "$place/folder/new" -X POST
  ask "who isn't, at '$place'" 401 - root:x "$place/folder/new" -X POST
  ask "nobody, at '$place'" 401 - '' "$place/folder/new" -X POST
done
rm run/rooms-full/invoices.full
# Removing helps.
for ((one = 1; one < n; one++)); do
  curl -s -o "$work/body" -w '%{http_code}\n' -u root:r -X DELETE "$base/object/f/m$one"
done | sort | uniq -c | awk '{ print $2 }' >removed
printf '204\n' >wanted
same 'all of them are removed' removed wanted
within 'the room is not full any more' is_missing "$flag"
ask 'uploads go on' 201 '' root:r /doc/f/new -X PUT --data-binary x
holds 'it says so' grep -qF "the room isn't full any more" watched
unwatch TERM
stop_proxy
stop_server
gives 'the room is sound' 0 'sound\n' '' verify room/F
