# rooms-admin backup: each thing that makes a night fail, and what is refused before it begins.

. "$here/lib/nights.sh"
if [ "$loopback" = no ] || ! has flock || ! has setpriv || ! has setsid; then
  skip 'nights that fail' 'no loopback, or no flock, setpriv, setsid'
  return
fi
make_stand
new_office
answers 'a document before the nights' /doc/f made PUT hello

# Each failure is reported, and the server runs.
failing() { # NAME TEXT
  says "$1" 1 "$2"
  unit_runs "$1: the server runs"
  holds "$1: mail" grep -q '^mail -s .* root$' "$stand/messages"
  holds "$1: the mail says it" grep -qF "$2" "$stand/messages"
  holds "$1: nothing is taken for a backup" [ -z "$(backups | grep -vE 'unsound$')" ]
}
for tool in cat sync; do
  echo "$tool" >"$stand/no-tool"
  night
  failing "a $tool that fails" 'copy of'
done
echo mkdir >"$stand/no-tool"
night
failing 'no folder' 'so nothing was copied'
rm "$stand/no-tool"
if mkdir small && mount -t tmpfs -o size=1m,mode=700 none small 2>/dev/null; then
  setting BACKUPS "$PWD/small"
  head -c 2000000 /dev/zero >small/filler 2>/dev/null
  night
  failing 'a full disk' 'failed'
  holds 'a full disk is left as it was' [ "$(find small -type f)" = small/filler ]
  umount small
  setting BACKUPS "$PWD/backups"
else
  skip 'a night on a full disk' 'no leave to mount'
fi
echo mail >"$stand/no-tool"
setting PROGRAM /bin/false
night
says 'mail that fails' 1 'mail to root failed'
holds 'goes to the log' grep -q '^logger .*verify of' "$stand/messages"
setting MAIL ''
night
holds 'nobody named: the log' grep -q '^logger .*verify of' "$stand/messages"
setting MAIL root
setting PROGRAM "$stand/bin/rooms"
rm -f "$stand/no-tool"
# One that has ended is stopped, copied and started.
: >"$stand/no-start"
kill -KILL "$(cat "$stand/pid")"
night
says 'a server that does not start' 1 "doesn't start"
rm "$stand/no-start"
holds 'is left to the next run' [ "$(ls run)" = "$(printf '%s\n' rooms rooms-directory.rooms)" ]
sleep 1
night
holds 'which starts it' [ "$status" = 0 ]
owes_nothing 'a second start'
unit_runs 'a second start'
rm -rf backups/conf/*
if has_sqlite; then
  unit stop
  as_user sqlite3 office/F "UPDATE nodes SET dacl_inh = 'A:I:bob:r' || char(10)" >/dev/null
  unit start
  night
  failing 'an unsound room' 'V3 broken-law'
  holds 'its copy is named so' [ "$(backups | grep -c '\.unsound$')" = 1 ]
else
  skip 'an unsound room at night' 'no sqlite3, or one that is too old'
fi
unit stop
rm -rf backups/conf/* office/F office/F-wal
take unsound.1.db office/F
[ "$STAND_USER" = "$(id -u)" ] || chown "$STAND_USER" office/F
unit start
night
says 'a room of the old schema' 1 'schema 1 is old'
says 'has no server that stays' 1 "doesn't stay"
rm -f office/F
night
says 'a room that is not there' 1 "isn't there"

# What is refused before anything is stopped.
new_office
refused() { # NAME TEXT
  says "$1" 2 "$2"
  unit_runs "$1: the server runs"
  holds "$1: a message" [ -s "$stand/messages" ]
}
cp conf kept
for line in 'KEEP=many' 'KEEP=-1' 'MEMORY=many' 'MEMORY=99' 'PORT=many' 'PORT=0' \
  'FILE=F' 'UNIT=a b' 'UNIT=-a' 'MAIL=-s' 'REVIEW=/audit' 'REVIEWER=carl' 'PROGRAM=/nowhere' \
  'FILE=/nowhere/F' 'rm -rf /' 'OTHER=x'; do
  { cat kept; echo "$line"; } >conf
  night
  refused "settings with $line" "$([[ $line = *nowhere* ]] && echo 'no ' || echo 'bad settings: ')"
done
cp kept conf
setting BACKUPS "$PWD/not-mounted"
night
refused 'no folder of backups' 'no folder'
cp kept conf
# A mount point is a folder even so. The case has no disk: what is mounted here is the root alone.
before=$(backups)
for place in . ..; do
  echo "UUID=none $(realpath "backups/$place") ext4 nofail 0 2" >root/etc/fstab
  night
  refused "a disk that isn't mounted at backups/$place" 'not mounted: '
  holds 'nothing is written there' [ "$(backups)" = "$before" ]
done
# What lies below the mount point is from before the disk came: it is no latest backup.
mv root/etc/fstab table
night
holds 'a backup before the disk' [ "$status" = 0 ]
mv table root/etc/fstab
for asked in latest 'restore --dry-run --start latest' "restore --dry-run --start $(newest)" \
  'get latest /f' 'export --backup latest / out' 'lists /f'; do
  # shellcheck disable=SC2086
  verb ${asked%% *} --room "$PWD/conf" ${asked#"${asked%% *}"}
  says "$asked" 2 'not mounted: '
done
verb restore --dry-run --start --room "$PWD/conf" "$PWD/backups/conf/$(newest)"
says "by its path it can't while the room's own disk isn't there" 2 'of FILE, '
echo "UUID=none $(realpath backups) ext4 nofail 0 2" >root/etc/fstab
verb restore --dry-run --start --room "$PWD/conf" "$PWD/backups/conf/$(newest)"
says 'by its path it can be had' 0 'would: restored'
verb backups --room "$PWD/conf"
says 'which there are' 1 'not mounted: '
mkdir 'a disk' 'a disk/rooms'
setting BACKUPS "$PWD/a disk/rooms"
echo "LABEL=none $PWD/a\\040disk ext4 nofail 0 2" >root/etc/fstab
night
refused 'a disk with a blank in its place' "not mounted: $PWD/a disk, which /etc/fstab has"
if mount -t tmpfs none 'a disk' 2>/dev/null; then
  mkdir 'a disk/rooms'
  night
  holds "a disk that is mounted: $(head -c 300 "$work/err")" [ "$status" = 0 ]
  umount 'a disk'
else
  skip 'a disk that is mounted' 'no leave to mount'
fi
cp kept conf
printf '%s\n' "# /dev/none $PWD/backups ext4 noauto 0 0" 'proc /proc proc defaults 0 0' \
  '/dev/none / ext4 defaults 0 1' "/dev/none $PWD/backups-too ext4 noauto 0 0" \
  '/dev/none none swap sw 0 0' >root/etc/fstab
night
holds "disks that have nothing to do with it: $(head -c 300 "$work/err")" [ "$status" = 0 ]
rm root/etc/fstab
verb backup --room "$PWD/nothing"
refused 'no settings' 'no settings'
verb backup --other
says 'an unknown word' 2 'bad arguments'
exec 8<>run/.rooms-admin/rooms.nightly
flock 8
night
refused 'another run at work' 'busy'
exec 8<>run/.rooms-admin/rooms
flock 8
night
says 'a verb at work with the room' 1 'busy'
holds 'leaves no half copy' [ -z "$(find backups -name '*.part')" ]
exec 8<&-
# Once the room is copied, a run waits for its disk and for the program alone.
printf '%s\n' '#!/bin/sh' '[ "$1" != verify ] || sleep 3' 'exec "$STAND_ROOMS" "$@"' \
  >"$stand/bin/slow"
chmod 755 "$stand/bin/slow"
setting PROGRAM "$stand/bin/slow"
(night) &
for turn in {1..300}; do
  # (in a form in which this line doesn't find itself)
  ! cat /proc/[0-9]*/cmdline 2>"$work/null" | tr '\0' ' ' | grep -q 'bin/slo[w] verify' || break
  sleep 0.1
done
holds 'while a copy is verified, others may work with the room' \
  flock -n run/.rooms-admin/rooms true
wait "$!"
setting PROGRAM "$stand/bin/rooms"
answers 'the room answers' '/can/?' "json '200 OK' '{}'"
