# What a hung, full or foreign disk and a link can do to the nightly run and to restores, and a
# restore that is killed: the server goes on, somebody is told, and the room is whole.

. "$here/lib/nights.sh"
if [ "$loopback" = no ] || ! has flock || ! has setpriv || ! has setsid; then
  skip 'harm to copies of a room' 'no loopback, or no flock, setpriv, setsid'
  return
fi
make_stand
new_office
answers 'a document' /doc/later made PUT later
night
holds 'a night' [ "$status" = 0 ]

# A restore out of the room's own folder follows no link, and what it writes is never of root's.
if [ "$(id -u)" = 0 ] && [ "$STAND_USER" != 0 ]; then
  (umask 077 && echo 'a secret of root' >secret)
  as_user mkdir office/before-restore.2026-11-27.120000
  as_user ln -s "$PWD/secret" office/before-restore.2026-11-27.120000/F
  unit stop
  verb restore --room "$PWD/conf" "$PWD/office/before-restore.2026-11-27.120000"
  says 'a link in the place of a backup' 1 'a link, which is not followed'
  holds 'nothing of it is copied' [ "$(grep -rls 'secret of root' office)" = '' ]
  as_user rm -r office/before-restore.2026-11-27.120000
  # A folder of the restore that somebody swaps for a link while the copy is made.
  mkdir elsewhere
  cat >"$stand/at-cat" <<END
# The copy that is verified comes first, and lies elsewhere.
[ -d "$PWD/office/restoring.F/new" ] || exec cp "$stand/hook" "$stand/at-cat"
rm -rf "$PWD/office/restoring.F/new"
ln -s "$PWD/elsewhere" "$PWD/office/restoring.F/new"
END
  verb restore --room "$PWD/conf" latest
  holds 'a folder that becomes a link' [ "$status" != 0 ]
  holds 'nothing is written through it' [ -z "$(ls elsewhere)" ]
  holds 'somebody was there meanwhile' is_missing "$stand/at-cat"
  rm -rf office/restoring.F
  unit start
  answers 'the room is as it was' /doc/later "reply '200 OK' application/octet-stream later"
fi

# A restore that stops and starts the server itself, and one that is killed meanwhile.
answers 'a document after the backup' /doc/after made PUT after
verb restore --room "$PWD/conf" latest
says 'a server that runs' 2 'the server runs'
verb restore --room "$PWD/conf" --start latest
says 'with --start' 0 "restored $PWD/office/F"
holds 'the way back starts it too' \
  grep -q "to put it back: rooms-admin restore --start .*before-restore" "$work/out"
unit_runs 'with --start'
answers 'it is the backup' /doc/after \
  "json '404 Not Found' '{\"at\":\"/after\",\"why\":\"no-such\"}'"
echo verify >"$stand/no-word"
verb restore --room "$PWD/conf" --start latest
says 'no sound backup' 1 'no backup: verify of'
rm "$stand/no-word"
unit_runs 'no sound backup: the server runs'
for how in TERM KILL; do
  for number in {1..60}; do
    rm -rf office/before-restore.*
    cut_off "$how" "$number" verb restore --room "$PWD/conf" --start latest || break
    # Another process may have to put the room in place and start the server. It has the lock.
    flock -w "$patience" run/.rooms-admin/rooms true
    unit_runs "$name"
    answers "$name: a whole room" /doc/later "reply '200 OK' application/octet-stream later"
  done
  holds "$how: the calls came to an end" [ "$number" -gt 12 -a "$number" -lt 60 ]
done

# The room's disk is full: each change gets 500, which the run tells, and there is a backup even so.
if mkdir small && mount -t tmpfs -o size=8m,mode=755 none small 2>/dev/null; then
  chown "$STAND_USER" small
  unit stop
  cp -p office/F small/F
  cp conf kept
  # The stand serves office/F.
  mount --bind small office
  unit start
  head -c 8000000 /dev/zero >small/filler 2>/dev/null
  answers 'a change on a full disk' /doc/more \
    "json '500 Internal Server Error' '{\"why\":\"store\"}'" PUT \
    "$(head -c 100000 /dev/zero | tr '\0' a)"
  sleep 1
  night
  says 'a full disk' 1 "the disk of $PWD/office/F takes no change, which needs 4 MB"
  mailed 'a full disk' 'takes no change'
  unit_runs 'a full disk: the server runs'
  holds 'a full disk: there is a backup' \
    [ "$("$rooms" verify "backups/conf/$(newest)/F" 2>&1)" = sound ]
  rm small/filler
  sleep 1
  night
  holds 'once it has space' [ "$status" = 0 ]
  unit stop
  umount office
  umount small
  mv kept conf
  unit start
else
  skip 'a full disk' 'no leave to mount'
fi

# A disk of backups that hangs: the server goes on, and somebody is told.
frozen=
if [ "$(id -u)" = 0 ] && has fsfreeze && has mkfs.ext4 && truncate -s 24M disk &&
  mkfs.ext4 -q disk 2>/dev/null &&
  mkdir hung && mount -o loop disk hung 2>/dev/null; then
  frozen=$PWD/hung
fi
if [ -n "$frozen" ]; then
  chmod 700 hung
  setting BACKUPS "$frozen"
  # A run whose disk hangs from the copy on, and for how long the server may be held.
  hangs() { # SECONDS
    echo "fsfreeze -f '$frozen'" >"$stand/at-cat"
    (
      unset KILL_AT
      night
      echo "$status" >ended
    ) &
    run=$!
    until [ ! -e "$stand/at-cat" ]; do sleep 0.1; done
    began=$SECONDS
    answers "a disk that hangs: the server answers within $1 s" '/can/?' "json '200 OK' '{}'"
    holds "a disk that hangs: it was held for less than $1 s" [ $((SECONDS - began)) -lt "$1" ]
    holds 'a disk that hangs: the run is not done' [ -d "/proc/$run" ]
  }
  hangs 10
  fsfreeze -u "$frozen"
  wait "$run"
  holds 'once it goes on there is a backup' [ "$(cat ended)" = 0 -a -n "$(ls hung | grep -v lost)" ]
  # Where the room's own disk has no space for a copy, it goes to the other one while the server is
  # held: for so long at most.
  mount -t tmpfs -o size=32m,mode=755 none small
  chown "$STAND_USER" small
  unit stop
  cp -p office/F small/F
  mount --bind small office
  unit start
  head -c 3000000 /dev/urandom >body
  for n in 1 2 3; do
    answers "a large document $n" "/doc/large$n" made PUT "$(head -c 1000000 /dev/zero | tr '\0' a)"
  done
  echo SHORTEST=5 >"$stand/waits"
  hangs 20
  until grep -qF "took more than 5 s" "$stand/messages" || [ ! -d "/proc/$run" ]; do sleep 0.5; done
  mailed 'a disk that hangs while it is copied to' \
    "MB, and is given up: its disk or that of $frozen"
  fsfreeze -u "$frozen"
  wait "$run"
  holds 'the run fails' [ "$(cat ended)" = 1 ]
  answers 'and the server answers' '/can/?' "json '200 OK' '{}'"
  holds 'which was not stopped' [ "$(grep -c 'systemctl stop' "$stand/steps")" = 0 ]
  # A kill of the run, whose process that copies can't end: it holds nobody, and has no lock.
  echo SHORTEST=60 >"$stand/waits"
  echo "fsfreeze -f '$frozen'" >"$stand/at-cat"
  (unset KILL_AT && night) 2>/dev/null &
  run=$!
  until [ ! -e "$stand/at-cat" ]; do sleep 0.1; done
  sleep 1
  kill -KILL "$(cat "$stand/script")"
  began=$SECONDS
  answers 'a run that is killed while its disk hangs: the server answers' '/can/?' \
    "json '200 OK' '{}'"
  holds 'at once' [ $((SECONDS - began)) -lt 10 ]
  holds 'and nobody waits for its locks' flock -n run/.rooms-admin/rooms true
  fsfreeze -u "$frozen"
  wait "$run"
  rm "$stand/waits"
  unit stop
  umount office
  umount small
  umount hung
  setting BACKUPS "$PWD/backups"
  unit start
else
  skip 'a disk that hangs' 'no root, fsfreeze or mkfs.ext4, or no leave to mount'
fi

# Names in the folders of a machine that can't be kept are told.
if [ "$(id -u)" = 0 ]; then
  odd=$(printf 'no\377text')
  echo x >root/etc/rooms/$'tab\tname'
  echo x >"root/etc/rooms/$odd"
  sleep 1
  LC_ALL=C.UTF-8 night
  says 'a name with a control byte' 1 "it lacks 'etc/rooms/tab\\tname', whose name isn't plain text"
  says 'a name that is no text' 1 "it lacks 'etc/rooms/no"
  rm root/etc/rooms/$'tab\tname' "root/etc/rooms/$odd"
fi

# A disk that loses what it took, as a stick does that has less than it says: what is verified is
# what it has, and not what the memory has of it.
if has mkfs.ext4 && truncate -s 30M lossy.img && mkfs.ext4 -q -F lossy.img && mkdir lossy &&
  mount -o loop lossy.img lossy 2>/dev/null; then
  setting BACKUPS "$PWD/lossy"
  cat >"$stand/at-mkdir" <<END
# Once the copy is there.
[ -n "\$(ls "$PWD"/lossy/conf/*.part/F)" ] || exec cp "$stand/hook" "$stand/at-mkdir"
/usr/bin/python3 -c 'import re, sys
with open(sys.argv[1], "r+b") as disk:
    for found in list(re.finditer(b"SQLite format 3\\0", disk.read())):
        disk.seek(found.start())
        disk.write(bytes(4096))' "$PWD/lossy.img"
END
  night
  says 'a disk that loses what it took' 1 'verify of the copy failed'
  holds 'it was lost meanwhile' is_missing "$stand/at-mkdir"
  holds 'and it is no backup' [ -z "$(ls -d lossy/conf/20* | grep -v unsound)" ]
  umount lossy
  setting BACKUPS "$PWD/backups"
else
  skip 'a disk that loses what it took' 'no mkfs.ext4, or no leave to mount'
fi
# One that goes away once the copy is there: what lies below its mount point stays.
mkdir away
setting BACKUPS "$PWD/away"
setting KEEP 0
for turn in 1 2; do
  sleep 1
  night
done
cp -a away/conf below
if mount -t tmpfs -o mode=700 none away 2>/dev/null; then
  cp -a below away/conf
  setting KEEP 2
  printf "echo \"umount -l '%s'\" >'%s'\n" "$PWD/away" "$stand/at-mv" >"$stand/at-mv"
  sleep 1
  night
  says 'a disk that goes away' 1 "isn't there any more"
  holds 'it has gone' eval '! mountpoint -q away'
  holds "what lies below it stays: $(ls away/conf)" [ "$(ls away/conf | wc -l)" = 2 ]
  setting KEEP 0
else
  skip 'a disk that goes away' 'no leave to mount'
fi
