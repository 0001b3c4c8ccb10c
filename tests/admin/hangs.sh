# A disk of backups that hangs or fails at one call of a night: no lock of the room is kept, so
# other verbs go on; it is told, and no backup is lost. The program is a stand-in, and no server
# runs.

if [ "$(id -u)" != 0 ] || ! has python3 || ! has flock || ! [ -c /dev/fuse ]; then
  skip 'a disk that hangs' 'no root, python3, flock or /dev/fuse'
  return
fi
mkdir bin run root back disk room own
chmod 755 "$work" .
chmod 700 back own
cat >bin/rooms <<'END2'
#!/bin/sh
case $1 in
  dump) printf '%s\n' 'folder root root /' 'dacl list:a' 'sacl list:a' ;;
  audit) echo at,user,path,bits,granted,entry,kind ;;
  review) echo path,kind,user,rights,remove ;;
  --version) echo 'rooms 9.9.9' >&2 ;;
esac
END2
printf '%s\n' '#!/bin/sh' 'echo inactive' 'exit 3' >bin/systemctl
printf '%s\n' '#!/bin/sh' "cat >>'$PWD/mailed'" >bin/mail
chmod 755 bin/*
head -c 3000000 /dev/urandom >room/office.rooms
printf '%s\n' "FILE=$PWD/room/office.rooms" "BACKUPS=$PWD/disk" "PROGRAM=$PWD/bin/rooms" MAIL=root \
  KEEP=2 EARLIER=no >office.conf
python3 -B "$here/admin/hanging_disk.py" "$PWD/back" "$PWD/disk" "$PWD/hangs" >said 2>&1 &
others+=("$!")
began=$SECONDS
until mountpoint -q disk || [ $((SECONDS - began)) -ge "$patience" ]; do sleep 0.1; done
if ! mountpoint -q disk; then
  skip 'a disk that hangs' "no mount: $(head -c 200 said)"
  return
fi
admin() { # WORD ..
  PATH=$PWD/bin:$PATH ROOMS_RUN=$PWD/run ROOMS_ROOT=$PWD/root TMPDIR=$PWD/own \
    python3 -IB "$repo/admin/rooms-admin" "$@" --room "$PWD/office.conf"
}
night() { admin backup >told 2>&1; }
count() { ls back/office | grep -c '^[0-9.-]*$'; }
ends() { # PROCESS
  local began=$SECONDS
  while [ -d "/proc/$1" ] && [ $((SECONDS - began)) -lt "$patience" ]; do sleep 0.1; done
}
for _ in 1 2; do
  night
  status=$?
  holds "a night: $(tail -n 3 told)" [ "$status" = 0 ]
done
hung() { # NAME PROCESS: the disk holds it, and it holds nobody
  local began=$SECONDS
  until [ -e hangs.seen ] || [ $((SECONDS - began)) -ge "$patience" ]; do sleep 0.1; done
  holds "$1 waits" [ -d "/proc/$2" ]
  holds "$1: the room is nobody's" flock -n run/.rooms-admin/rooms@office true
}
for call in MKDIR CREATE WRITE FSYNC 'FSYNC run' RENAME 'READ lists.txt' 'READ review.csv'; do
  rm -f hangs.seen
  echo "$call" >hangs
  night &
  run=$!
  hung "$call hangs: the night" "$run"
  rm hangs
  ends "$run"
  wait "$run"
  status=$?
  holds "$call hung: the night ends: $(tail -n 3 told)" [ "$status" = 0 ]
  holds "$call hung: two backups stay" [ "$(count)" = 2 ]
  newest=$(ls -d back/office/[0-9]* | tail -n 1)
  same "$call hung: the newest is whole" "$newest/office.rooms" room/office.rooms
done

# It may begin to hang behind the last text that is read.
rm -f hangs.seen
echo 'READ lists.txt' >hangs
night &
run=$!
hung 'a text is read: the night' "$run"
echo READDIR >hangs
sleep 0.5
rm -f hangs.seen
hung 'the number of the newest is asked for: the night' "$run"
rm hangs
ends "$run"
wait "$run"
status=$?
holds "and the night ends: $(tail -n 3 told)" [ "$status" = 0 ]
newest=$(ls -d back/office/[0-9]* | tail -n 1)
holds 'whose number is known' grep -q "^group,user after .* ${newest##*/} of " \
  root/var/lib/rooms-web/office/members.csv

# Whoever reads a backup is told, and holds nobody meanwhile.
kept=$(cksum <room/office.rooms)
ends_told() { # NAME
  ends "$run"
  rm hangs
  wait "$run"
  status=$?
  holds "$1 ends: $(tail -n 1 told)" [ "$status" = 1 ]
  holds "$1: it is told" grep -q "doesn't answer within 20 s: does its disk hang?" told
}
told_of() { # NAME CALL WORD ..
  rm -f hangs.seen
  echo "$2" >hangs
  admin "${@:3}" >told 2>&1 &
  run=$!
  hung "$1" "$run"
  ends_told "$1"
}
told_of 'a restore' 'READ office.rooms' restore latest
left="$(ls room) $(cksum <room/office.rooms)"
holds 'and the room is as it was' [ "$left" = "office.rooms $kept" ]
told_of 'a restore that only looks' 'READ office.rooms' restore --dry-run latest
told_of 'what each was given' 'READ review.csv' mine
told_of 'a night that only says what it would do' LOOKUP backup --dry-run

# A part of a log is a room too, as it was before: whatever a disk gives less of than it has is no
# room.
for word in restore get; do
  echo 'SHORT office.rooms' >hangs
  admin "$word" latest $([ "$word" = restore ] || echo /f) >told 2>&1
  status=$?
  rm hangs
  holds "half a backup: $word" [ "$status" = 1 ]
  holds "half a backup: $word: $(tail -n 1 told)" \
    grep -q 'its disk gives 1500000 bytes less than it has' told
  left="$(ls room) $(cksum <room/office.rooms)"
  holds "half a backup: $word: the room is as it was" [ "$left" = "office.rooms $kept" ]
done

# Of a large room the files of what each was given are written before the room is locked.
{
  echo path,kind,user,rights,remove
  seq 100000 299999 | sed 's#^\(.*\(...\)\)$#/d\1,folder,u\2,rwaC,yes#'
} >"$newest/review.csv"
admin mine >told 2>&1 &
run=$!
free=yes
while [ -d "/proc/$run" ]; do flock -w 2 run/.rooms-admin/rooms@office sleep 0.05 || free=no; done
wait "$run"
status=$?
holds "what each was given in a large room: $(tail -n 1 told)" [ "$status" = 0 ]
holds 'and nobody waited for it' [ "$free" = yes ]

# What a machine had is kept there before it is brought back, while all its rooms are locked.
"$repo/deploy/install" --destdir "$PWD/root" --program "$PWD/bin/rooms" >/dev/null </dev/null
sed -i "s#^PROGRAM=.*#PROGRAM=$PWD/bin/rooms#" root/etc/rooms/office.conf
ROOMS_ROOT=$PWD/root python3 -IBc 'import sys
sys.path.insert(0, sys.argv[1])
from rooms_admin.machine_tar import machine
machine.save("machine.tar", "9.9.9")' "$repo/admin"
rmdir root/var/backups/rooms
ln -s "$PWD/disk" root/var/backups/rooms
for call in MKDIR WRITE RENAME; do
  sed -i 's/^KEEP=.*/KEEP=9/' root/etc/rooms/office.conf
  cksum <root/etc/rooms/office.conf >before
  rm -f hangs.seen
  echo "$call" >hangs
  admin restore --machine "$PWD/machine.tar" >told 2>&1 &
  run=$!
  ends_told "a machine that isn't brought back, since $call hangs,"
  cksum <root/etc/rooms/office.conf >after
  same "$call hung: nothing was changed" after before
done
admin restore --machine "$PWD/machine.tar" >told 2>&1
status=$?
holds "and then it is: $(tail -n 3 told)" [ "$status" = 0 ]
holds 'and what was there is kept' [ "$(ls back | grep -v office)" != '' ]
holds 'and nothing else' [ -z "$(ls back | grep -v -e '^office$' -e '^before-machine')" ]
rm back/before-machine.*

ls back/office >before
for call in 'CREATE 28' 'WRITE 5' 'RENAME 30' 'READDIR 5'; do
  : >mailed
  echo "$call" >hangs
  night
  status=$?
  rm hangs
  holds "$call: the night fails" [ "$status" = 1 ]
  holds "$call: it is mailed: $(tail -n 1 told)" [ -s mailed ]
  comm -13 <(ls back/office) before >gone
  same "$call: no backup goes" gone /dev/null
  night
  ls back/office >before
done
left=$(ls back/office | grep -cv '^[0-9.-]*$')
holds 'nothing is left that is no backup' [ "$left" = 0 ]
