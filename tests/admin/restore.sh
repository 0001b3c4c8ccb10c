# rooms-admin restore: its bad input, and an interruption at each of its calls.

if [ "$loopback" = no ] || ! has flock || ! has setpriv || ! has setsid; then
  skip 'restoring' 'no loopback, or no flock, setpriv, setsid'
  return
fi
make_stand
restores() { verb restore --room "$PWD/conf" "$@"; }
made_by_user() { as_user "$rooms" "$@" >/dev/null; }
# The old room has carol as its root's owner and the backup has dave; the backup's last writes are
# in its log.
made_by_user init "$PWD/office/F" carol staff
made_by_user init "$PWD/office/other" dave staff
cp office/F old.F
cp office/F-wal old.F-wal
mkdir backups/good
cp office/other backups/good/F
cp office/other-wal backups/good/F-wal
rm office/other office/other-wal
if start_server backups/good/F 2; then
  asks 'a document in the backup' made PUT /doc/f dave hello
  stop_server
fi
holds 'which is in the log' [ "$(wc -c <backups/good/F-wal)" -gt 1000 ]
cksum backups/good/* >backup.sums
cp -R backups/good backups/torn
head -c 5000 backups/good/F >backups/torn/F
mkdir backups/old-schema backups/empty
take unsound.1.db backups/old-schema/F
old_office() {
  rm -rf office/*
  cp old.F office/F
  cp old.F-wal office/F-wal
  chmod 600 office/*
  [ "$STAND_USER" = "$(id -u)" ] || chown "$STAND_USER:$STAND_USER" office/*
}
owner() {
  as_user "$rooms" dump "$PWD/office/F" 2>&1 | sed -n '1s/folder \([a-z]*\) staff .*/\1/p'
}
aside() { find office -name 'before-restore.*' | grep -q .; }
unchanged() { # NAME
  holds "$1: the room is the old one" \
    [ "$(cat office/F office/F-wal | cksum)" = "$(cat old.F old.F-wal | cksum)" ]
  holds "$1: nothing else lies there" [ "$(cd office && echo *)" = 'F F-wal' ]
}

# Bad input.
old_office
unit start
restores good
says 'while the server runs' 2 "the server runs (rooms is 'active'): --start stops it for a moment"
unit_runs 'which goes on'
# What would be done, by a server that goes on.
cksum office/* >sums
restores --dry-run --start good
says 'what would be done' 0 "would: restored $PWD/office/F from $PWD/backups/good"
restores --dry-run --start torn
says 'of no sound one' 1 "no backup: verify of $PWD/backups/torn/F gives status"
restores --dry-run --start none
says 'of none' 2 'no backup'
restores --dry-run good
says 'what would be refused' 2 "the server runs (rooms is 'active'): --start stops it for a moment"
restores --dry-run --undo
says 'of none that was cut off' 2 'bad arguments: --undo has no --dry-run'
cksum office/* | cmp -s sums -
status=$?
holds 'and nothing is done' [ "$status" = 0 ]
unit_runs 'nor stopped'
unit stop
old_office
sleep 100 7<office/F &
holder=$!
restores good
says 'while a process has the file open' 2 "process $holder has $PWD/office/F open"
kill "$holder"
wait "$holder" 2>/dev/null
unchanged 'refused'
for bad in torn old-schema; do
  restores "$bad"
  says "a backup that is $bad" 1 'no backup: verify of'
  unchanged "$bad"
done
for bad in nowhere empty "$PWD/conf"; do
  restores "$bad"
  says "a backup that isn't there: ${bad##*/}" 2 'no backup'
  unchanged "${bad##*/}"
done
verb restore --room "$PWD/nothing" good
says 'no settings' 2 'no settings'
restores
says 'no words' 2 'bad arguments'
restores --other
says 'an unknown word' 2 'bad arguments'
restores good more
says 'two backups' 2 'bad arguments'
exec 8<>run/.rooms-admin/rooms
flock 8
restores good
says 'beside another run' 2 'busy'
exec 8<&-
restores --undo
says 'nothing to undo' 0 'nothing to undo: no restore of '
unchanged 'nothing to undo'
for tool in cat sync mkdir; do
  echo "$tool" >"$stand/no-tool"
  restores good
  holds "a $tool that fails" [ "$status" = 1 ]
  rm "$stand/no-tool"
  unchanged "a $tool that fails"
done
echo mv >"$stand/no-tool"
restores good
says 'a file that can not be moved' 1 'could not be exchanged'
rm "$stand/no-tool"
restores --undo
unchanged 'a file that can not be moved'

# A good one, and back again.
restores good
says 'a restore' 0 "restored $PWD/office/F"
holds 'the room is the backup' [ "$(owner)" = dave ]
holds 'with its last document' \
  [ "$(as_user "$rooms" dump "$PWD/office/F" | grep -c '^document dave staff 5 /f$')" = 1 ]
holds 'the owner and the rights' \
  [ -z "$(find office -not -user "$STAND_USER" -o -perm /077 -not -path office)" ]
holds 'the backup is as it was' [ "$(cksum backups/good/*)" = "$(cat backup.sums)" ]
kept=$(echo office/before-restore.*)
holds 'the old files are aside' cmp -s "$kept/F" old.F
restores --undo
says 'it is done to its end' 0 "--start $PWD/$kept"
unit start
unit_runs 'a server of what was restored'
unit stop
sleep 1
restores "$PWD/$kept"
holds 'the old files are put back' [ "$status" = 0 -a "$(owner)" = carol ]
rm -rf office/*
restores good
holds 'a restore where no room is' [ "$status" = 0 -a "$(owner)" = dave ]
holds 'leaves the room alone' [ "$(cd office && echo *)" = 'F F-wal' ]

# What an earlier version left of a restore that was cut off, in a folder for whichever room.
old_office
as_user mkdir office/restoring office/restoring/old office/restoring/new
as_user mv office/F office/restoring/old/F
restores --undo
holds 'an earlier version was cut off' [ "$status" = 0 ]
unchanged 'an earlier version was cut off'
as_user mkdir office/restoring office/restoring/old
as_user touch office/restoring/old/G
restores good
holds "another room's restore that was cut off" \
  [ "$status" = 0 -a "$(owner)" = dave -a -e office/restoring/old/G ]
rm -rf office/*

# An interruption at each call: the room is the old or the new one, or there is none, and --undo or
# the same command once more repairs that.
for how in TERM KILL; do
  for number in {1..80}; do
    old_office
    cut_off "$how" "$number" restores good || break
    rm -rf interrupted
    cp -Rp office interrupted
    # No file stands beside the log of another.
    if [ -e office/F ]; then
      case $(owner) in
        carol | dave) pass ;;
        *) fail "$name" "no room: $(ls -lR office)" ;;
      esac
    else
      [ "$how" = KILL ] || fail "$name" 'no room is left'
    fi
    # A signal that can be caught leaves nothing to repair.
    if [ "$how" = TERM ]; then
      holds "$name: nothing is left of it" [ ! -e office/restoring.F ]
      continue
    fi
    rm -rf office
    cp -Rp interrupted office
    restores --undo
    holds "$name: undone" [ "$status" = 0 -a ! -e office/restoring.F ]
    aside || unchanged "$name"
    rm -rf office
    mv interrupted office
    rm -rf office/before-restore.*
    restores good
    holds "$name: once more" [ "$status" = 0 -a "$(owner)" = dave -a ! -e office/restoring.F ]
    holds "$name: the old one is aside" aside
  done
  holds "$how: the calls came to an end" [ "$number" -gt 10 -a "$number" -lt 80 ]
done
