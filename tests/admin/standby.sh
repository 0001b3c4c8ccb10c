# Copies of a room that is served: rooms-standby and rooms-nightly beside writers who don't pause,
# a server that is restarted or stopped meanwhile, and an interruption at each call. admin/held has
# what holds a room, and for how long.

if [ "$loopback" = no ] || ! has flock || ! has setpriv || ! has setsid || ! has curl; then
  skip 'copies of a room that is served' 'no loopback, or no flock, setpriv, setsid, curl'
  return
fi
make_stand
listens_at_socket
stands() { verb standby --room "$PWD/conf"; }
set_value() { # NAME VALUE
  grep -v "^$1=" conf >conf.new
  echo "$1=$2" >>conf.new
  mv conf.new conf
}
new_office() {
  unit stop
  as_user rm -f office/F office/F-wal
  as_user "$rooms" init "$PWD/office/F" root staff >/dev/null
  printf '%s\n' 'list:a' "A:fd:root:$ALL" | as_user "$rooms" reset "$PWD/office/F" / dacl >/dev/null
  unit start
}
new_office
stands_dry() { verb standby --dry-run --room "$PWD/conf"; }
stands_dry
told 'what would be copied' 0 "would: $PWD/office/F, 0 MB, is copied to $PWD/backups/conf/standby/F"
holds 'nothing is' [ ! -e backups/conf/standby ]
answers() { # NAME
  asks_there "$1" "json '200 OK' '{}'" GET '/can/?' root
}
has_document() { # FOLDER NAME
  rm -f look look-wal
  cp "$1/F" look && { [ ! -e "$1/F-wal" ] || cp "$1/F-wal" look-wal; } &&
    "$rooms" dump look >dumped 2>&1 && grep -q "^document root staff [0-9]* /$2\$" dumped
}
put() { # NAME
  asks_there "a document $1" made PUT "/doc/$1" root hello
}

# Beside writers: each copy is sound, nobody goes without an answer, and what was answered before a
# copy began is in it, unless somebody has asked to remove it before it ended.
: >answered >going >other
write() { # NUMBER: documents of up to 64 kB; every third one is removed again
  local n name got url=http://localhost
  for ((n = 1; ; n++)); do
    [ ! -e enough ] || return 0
    name=w$1-$n
    head -c $((RANDOM * 2)) /dev/urandom >"body.$1"
    got=$(curl -q -s -m "$patience" -o "said.$1" -w '%{http_code}' -X PUT -H 'Room-User: root' \
      -H Expect: --unix-socket "$sock" --data-binary "@body.$1" "$url/doc/$name")
    if [ "$got" = 201 ]; then echo "$name" >>answered; else echo "$got" >>other; fi
    ((n % 3 == 0)) || continue
    name=w$1-$((n - 2))
    echo "$name" >>going
    got=$(curl -q -s -m "$patience" -o "said.$1" -w '%{http_code}' -X DELETE \
      -H 'Room-User: root' --unix-socket "$sock" "$url/object/$name")
    [ "$got" = 204 ] || echo "$got" >>other
  done
}
missing_in() { # FOLDER: what was answered before, and isn't there
  rm -f look look-wal
  cp "$1/F" look
  [ ! -e "$1/F-wal" ] || cp "$1/F-wal" look-wal
  "$rooms" dump look 2>&1 | sed -n 's/^document root staff [0-9]* \/\(w[0-9-]*\)$/\1/p' | sort >have
  sort going >gone
  sort before | comm -23 - gone | comm -23 - have
}
began=$SECONDS
write 1 &
writers[1]=$!
write 2 &
writers[2]=$!
lost=0
copies=0
for turn in {1..20}; do
  cp answered before
  if ((turn % 5 == 0)); then
    verb backup --room "$PWD/conf"
    copy=$(find backups/conf -maxdepth 1 -name '????-??-??.??????' | sort | tail -n 1)
  else
    stands
    copy=backups/conf/standby
  fi
  [ "$status" = 0 ] || fail 'a copy beside writers' "status $status: $(cat "$work/err")"
  [ "$("$rooms" verify "$copy/F" 2>&1)" != sound ] || copies=$((copies + 1))
  lost=$((lost + $(missing_in "$copy" | wc -l)))
done
: >enough
wait "${writers[@]}"
holds 'each copy is sound' [ "$copies" = 20 ]
holds 'has all that was answered before' [ "$lost" = 0 ]
holds 'and everybody got an answer' [ ! -s other ]
holds 'of many' [ "$(wc -l <answered)" -gt 40 ]
unit_runs 'the same server runs after it'
holds 'it was never stopped' [ "$(cat "$stand/out")" = "listening $sock" ]
answers 'and answers'
rm -rf backups/conf/*

# A standby copy is one file, with all that the log had. (Of a small room, from here on.)
new_office
put f
mkdir backups/standby
echo theirs >backups/standby/F
stands
holds 'a standby copy' [ "$status" = 0 ]
holds 'leaves that of a machine whose standby this is' [ "$(cat backups/standby/F)" = theirs ]
rm -r backups/standby
holds 'is one file' [ "$(find backups -type f)" = backups/conf/standby/F ]
holds 'which has the last document' has_document backups/conf/standby f
holds 'nobody else may read it' [ -z "$(find backups/conf/* -perm /077)" ]
holds 'nothing is owed' [ "$(ls run)" = rooms ]

# Hourly copies: HOURS=0 keeps none, and otherwise as many as it says, one an hour.
hours() { (cd backups/conf/hours && ls); }
hour() { hours | sed -n "$1p"; }
earlier() { # FOLDER SECONDS: as if it had been made so long before
  touch -d "$2 seconds ago" "backups/conf/hours/$1/run"
  mv "backups/conf/hours/$1" "backups/conf/hours/$(date -d "$2 seconds ago" +%F.%H%M%S)"
}
set_value HOURS 2
stands
says 'the first hourly copy' 0 'hourly copies of conf begin: 2 of them take'
holds 'is there' [ "$(hours | wc -l)" = 1 ]
holds 'and is whole' has_document "backups/conf/hours/$(hour 1)" f
holds 'for root alone' [ -z "$(find backups/conf/hours -perm /077)" ]
stands
holds 'no other one within the hour' [ "$(hours | wc -l)" = 1 ]
put within-the-hour
earlier "$(hour 1)" 8000
stands
holds 'after an hour another one' [ "$(hours | wc -l)" = 2 ]
holds 'of now' has_document "backups/conf/hours/$(hour 2)" within-the-hour
holds 'by their numbers' [ "$(cat backups/conf/hours/*/run | tr '\n' ' ')" = 'number 1 number 2 ' ]
earlier "$(hour 2)" 4000
stands
holds "the oldest goes: $(head -c 300 "$work/err")" \
  [ "$(cat backups/conf/hours/*/run | tr '\n' ' ')" = 'number 2 number 3 ' ]
# A clock that was set back: the last one is of a time to come.
earlier "$(hour 2)" -8000
stands
holds 'one of a time to come hinders no other one' \
  [ "$(cat backups/conf/hours/*/run | tr '\n' ' ')" = 'number 4 number 3 ' ]
rm -r "backups/conf/hours/$(hour 2)"
mkdir backups/conf/hours/2001-01-01.000000.part
stands
holds 'what was cut off goes' is_missing backups/conf/hours/2001-01-01.000000.part
# Backups, and what tidies them, know nothing of them.
verb backup --room "$PWD/conf"
verb latest --room "$PWD/conf"
holds 'the newest backup is one of a night' grep -qx "$PWD/backups/conf/20[^/]*" "$work/out"
verb backups --room "$PWD/conf"
holds 'all of them are listed' \
  [ "$(grep -c "/backups/conf/hours/20[^/]*  hourly$" "$work/out")" = "$(hours | wc -l)" ]
before=$(hours)
set_value KEEP 1
for turn in 1 2; do
  verb backup --room "$PWD/conf"
  sleep 1
done
holds 'one night is kept' [ "$(cd backups/conf && ls -d 20* | wc -l)" = 1 ]
holds 'and each hourly copy' [ "$(hours)" = "$before" ]
set_value KEEP 0
rm -r backups/conf/20*
# One of them can be taken by its name.
put after-the-hour
unit stop
verb restore --room "$PWD/conf" "$(hour 1)"
says 'it is restored' 0 "restored $PWD/office/F"
unit start
holds 'without what came later' eval '! has_document office after-the-hour'
verb get --room "$PWD/conf" "$(hour 1)" /f
holds 'a document of it' [ "$(cat "$work/out")" = hello ]
rm -rf office/before-restore*
# What isn't as a run leaves it keeps the others.
earlier "$(hour 1)" 3700
mkdir backups/conf/hours/2001-01-01.000000
: >backups/conf/hours/2001-01-01.000000/F
chown 64126 backups/conf/hours/2001-01-01.000000
before=$(hours | wc -l)
stands
says 'something else is told' 1 'no older hourly copy is removed: '
holds 'and none goes' [ "$(hours | wc -l)" = $((before + 1)) ]
has_document backups/conf/standby f
holds 'the copy for the standby is there even so' [ "$?" = 0 ]
rm -r backups/conf/hours/2001-01-01.000000
for line in HOURS=-1 HOURS=x HOURS=1000 HOURS=; do
  cp conf kept
  echo "$line" >>conf
  stands
  says "settings with $line" 2 'bad settings: HOURS'
  cp kept conf
done
if mkdir tiny && mount -t tmpfs -o size=100m,mode=700 none tiny 2>/dev/null; then
  set_value BACKUPS "$PWD/tiny"
  stands
  says 'a disk with no space for more' 1 'no hourly copy: the disk of '
  holds 'has the copy for the standby' has_document tiny/conf/standby f
  holds 'and no other' [ -z "$(ls tiny/conf/hours)" ]
  umount tiny
  set_value BACKUPS "$PWD/backups"
else
  skip 'hourly copies on a full disk' 'no leave to mount'
fi
set_value HOURS 0
rm -rf backups/conf/hours
new_office
put f
stands

# What happens to the server while it is copied: it is copied once more.
# The files are read by setpriv, where the room belongs to another user.
reader=cat
[ "$STAND_USER" = "$(id -u)" ] || reader=setpriv
played() {
  printf 'PATH="%s:$PATH" KILL_AT=0 "%s" %s rooms\n' "$stand/bin" "$stand/bin/systemctl" "$1"
}
hooks() { # WORD ..: what somebody does with the unit while the first file is copied
  local word
  for word in "$@"; do played "$word"; done >"$stand/at-$reader"
}
put before-the-restart
hooks stop start
stands
says 'a server that is restarted meanwhile' 0 'so the room is copied again'
unit_runs 'a server that is restarted meanwhile: it runs'
answers 'a server that is restarted meanwhile: it answers'
holds 'the copy has what was there' has_document backups/conf/standby before-the-restart
put before-the-stop
hooks stop
stands
says 'a server that is stopped meanwhile' 0 'so the room is copied again'
unit_rests 'it stays stopped'
holds 'the copy has what was answered' has_document backups/conf/standby before-the-stop
unit start
hooks stop
verb backup --room "$PWD/conf"
says 'a server that is stopped at night' 0 'so the room is copied again'
unit_rests 'stays stopped'
holds 'the backup has what was answered' \
  has_document "backups/conf/$(cd backups/conf && echo 20*)" before-the-stop
rm -rf backups/conf/20*
stands
says 'a server that does not run' 0 "isn't running: the last copy stays"
holds 'it does' has_document backups/conf/standby before-the-stop
unit start
: >"$stand/no-answer"
unit stop
unit start
stands
says 'a server that has not opened the room' 1 "doesn't answer: [Errno 111]"
holds 'the last copy stays' has_document backups/conf/standby before-the-stop
verb backup --room "$PWD/conf"
holds 'rooms-nightly stops such a server' grep -q ' systemctl stop' "$stand/steps"
holds 'and has a backup' has_document "backups/conf/$(cd backups/conf && echo 20*)" before-the-stop
rm -rf backups/conf/20* "$stand/no-answer"
unit stop
unit start

# What is refused, and what fails.
cp conf kept
for line in 'STANDBY=b' 'STANDBY=a b:/x' 'STANDBY=-x:/y' 'STANDBY=b:' 'STANDBY=b::x' 'LIMIT=0'; do
  { cat kept; echo "$line"; } >conf
  stands
  says "settings with $line" 2 'bad settings: '
done
cp kept conf
verb standby --other
says 'an unknown word' 2 'bad arguments'
set_value BACKUPS "$PWD/not-mounted"
stands
says 'no folder of backups' 2 'no folder'
cp kept conf
mkdir -p root/etc
echo "UUID=none $(realpath backups) ext4 nofail 0 2" >root/etc/fstab
stands
says 'backups on a disk that is not mounted' 2 'not mounted: '
rm root/etc/fstab
for tool in cat sync mkdir mv; do
  echo "$tool" >"$stand/no-tool"
  stands
  holds "a $tool that fails" [ "$status" = 1 ]
  rm "$stand/no-tool"
  answers "a $tool that fails: the server answers"
  holds "a $tool that fails: the last copy stays" has_document backups/conf/standby before-the-stop
done
echo verify >"$stand/no-word"
stands
says 'a copy that is not sound' 1 'verify of the copy failed'
rm "$stand/no-word"
holds 'does not take the place of the last one' has_document backups/conf/standby before-the-stop
if mkdir small && mount -t tmpfs -o size=1m,mode=700 none small 2>/dev/null; then
  set_value BACKUPS "$PWD/small"
  head -c 2000000 /dev/zero >small/filler 2>/dev/null
  stands
  says 'a full disk' 1 'failed'
  holds 'a full disk is left as it was' [ "$(find small -type f)" = small/filler ]
  answers 'a full disk: the server answers'
  umount small
  cp kept conf
else
  skip 'a standby copy on a full disk' 'no leave to mount'
fi
exec 8<>run/.rooms-admin/rooms
flock 8
stands
says 'rooms-nightly at work' 0 'at work'
exec 8<&-

# To another folder, and back into a room.
if has rsync; then
  mkdir there
  set_value STANDBY "$PWD/there"
  put to-be-sent
  stands
  holds 'it is brought there' [ "$status" = 0 ]
  holds 'all of it' has_document there to-be-sent
  holds 'as one file' [ "$(ls -A there)" = F ]
  # While it is sent, which may take long, a nightly run may begin.
  printf '#!/bin/bash\nflock -n "%s" true && echo free >"%s"\nexec "%s" "$@"\n' \
    "$PWD/run/.rooms-admin/rooms" "$PWD/lock" "$(command -v rsync)" >"$stand/bin/rsync"
  chmod 755 "$stand/bin/rsync"
  put to-be-sent-too
  stands
  holds 'the lock is free meanwhile' [ "$status" = 0 -a "$(cat lock)" = free ]
  rm "$stand/bin/rsync"
  touch -d '2001-01-01' backups/conf/standby/F there/F
  stands
  holds 'once more' has_document there to-be-sent-too
  watch=$(grep -h 'name office.rooms -mmin' "$here/../docs/machines.md" |
    sed "s#/var/backups/rooms/standby#$PWD/there#; s/office.rooms/F/")
  holds 'who watches it there sees it' [ "$(bash -c "$watch")" = "$PWD/there/F" ]
  touch -d '20 minutes ago' there/F
  holds 'and sees one that is too old' [ "$(bash -c "$watch")" = 'no standby' ]
  rm -rf there
  : >there
  stands
  says 'a place that is no folder' 1 'no folder: '
  rm there
  stands
  says 'one that is not there' 1 "no folder: $PWD/there, of STANDBY in $PWD/conf, isn't there"
  holds 'and is not made' is_missing there
  mkdir there
  echo "UUID=none $(realpath there) ext4 nofail 0 2" >root/etc/fstab
  put kept-here
  stands
  says 'one whose disk is not mounted' 1 "so $PWD/there, of STANDBY, isn't on its disk"
  holds 'nothing is written below its mount point' [ -z "$(ls -A there)" ]
  holds 'and the copy is kept here' has_document backups/conf/standby kept-here
  stands_dry
  says 'as is told before' 0 'not mounted: '
  rm root/etc/fstab
  stands
  unit stop
  cp -Rp office lost
  as_user rm office/F office/F-wal
  verb restore --room "$PWD/conf" "$PWD/there"
  says 'it is restored' 0 "restored $PWD/office/F"
  unit start
  asks_there 'with the last document' "reply '200 OK' application/octet-stream hello" \
    GET /doc/to-be-sent-too root
  cp kept conf
  . "$here/lib/elsewhere.sh"
else
  skip 'a standby copy elsewhere' 'no rsync'
fi

# An interruption at each call: after a kill too the next request is answered.
for how in TERM KILL; do
  for number in {1..60}; do
    cut_off "$how" "$number" stands || break
    answers "$name"
    stands
    holds "$name: the next run ends well" [ "$status" = 0 ]
    cp backups/conf/standby/F look
    holds "$name: there is a copy" [ "$("$rooms" verify look 2>&1)" = sound ]
    holds "$name: nothing else is left" [ "$(ls -A backups/conf) $(ls run)" = 'standby rooms' ]
  done
  holds "$how: the calls came to an end" [ "$number" -gt 10 -a "$number" -lt 60 ]
done
