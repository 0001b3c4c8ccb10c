# What a clock that was set back, a killed run and another account can do to the nightly run,
# standby copies and restores: the server goes on, somebody is told, and the newest sound backup is
# the one that is restored.

. "$here/lib/nights.sh"
if [ "$loopback" = no ] || ! has flock || ! has setpriv || ! has setsid; then
  skip 'harm to copies of a room' 'no loopback, or no flock, setpriv, setsid'
  return
fi
make_stand
new_office
answers 'a document' /doc/f made PUT hello

# Locks lie where nobody else gets to. What was one before is none any more.
night
holds 'a night' [ "$status" = 0 ]
holds 'its lock is closed to others' [ "$(stat -c '%a %u' run/.rooms-admin)" = "700 $(id -u)" ]
exec 7<conf 8<backups
flock 7
flock 8
sleep 1
night
holds 'whoever may read the settings stops no night' [ "$status" = 0 ]
exec 7<&- 8<&-
if [ "$(id -u)" = 0 ]; then
  setpriv --reuid=65532 --regid=65532 --clear-groups flock -n run/.rooms-admin/rooms true \
    2>/dev/null
  holds 'nobody else takes the lock' [ "$?" != 0 ]
  chmod 755 run/.rooms-admin
  night
  says 'a folder of locks that is open' 2 "isn't closed to others"
  chmod 700 run/.rooms-admin
fi

# Nothing that the server's user wrote is read as root, nor by the server's user, who could hold the
# program and do what it does: a copy is read by a user who has nothing else.
if [ "$(id -u)" = 0 ] && [ "$STAND_USER" != 0 ]; then
  cat >prog <<END
#!/bin/bash
[ "\$1" = --version ] || echo "\$(id -u) \$*" >>"$PWD/ran"
exec "$rooms" "\$@"
END
  chmod 755 prog
  : >ran
  chmod 666 ran
  mkdir -m 1777 tmp
  setting PROGRAM "$PWD/prog"
  sleep 1
  night
  holds 'a night by another user' [ "$status" = 0 ]
  verb standby --room "$PWD/conf"
  holds 'a standby copy by it' [ "$status" = 0 ]
  reader=$(cut -d ' ' -f 1 ran | sort -u)
  holds "one user has run all, $reader, who is neither root nor the room's" \
    [ "$(wc -w <<<"$reader")" = 1 -a "$reader" != 0 -a "$reader" != "$STAND_USER" ]
  sort -u ran >got
  printf "$reader %s\n" 'audit ./room' 'dump ./room' 'review ./room /' 'verify ./F' \
    'verify ./room' >wanted
  same 'what ran' got wanted
  holds 'the backups are root'"'"'s' [ -z "$(find backups -not -user 0)" ]

  # Whatever the program does meanwhile, all in the folder of backups is root's, and closed. Nobody
  # gets to the copy that it reads but the user who reads it.
  cat >prog <<END
#!/bin/bash
[ "\$1" = --version ] || echo "\$(id -u) \$*" >>"$PWD/ran"
if [ "\$1" = "\$(cat "$PWD/word")" ]; then
  echo "\$\$" >"$PWD/reading"
  until [ -e "$PWD/seen" ]; do sleep 0.05; done
fi
exec "$rooms" "\$@"
END
  as_other() { setpriv --reuid=65532 --regid=65532 --clear-groups "$@" >/dev/null 2>&1; }
  watched() { # NAME VERB WORD [MORE ..]: while the program is at WORD
    local copy one
    rm -f seen
    echo "$3" >word
    chmod 644 word
    : >reading
    chmod 666 reading
    TMPDIR=$PWD/tmp verb "$2" --room "$PWD/conf" "${@:4}" &
    until [ -s reading ] || [ ! -d "/proc/$!" ]; do sleep 0.05; done
    holds "$1: all is root's" [ -z "$(find backups -not -user 0)" ]
    holds "$1: and nobody else's" [ -z "$(find backups -perm /077)" ]
    copy=$(echo tmp/rooms-get.*)
    for one in 'ls backups' 'ls backups/conf' "ls $copy" "cat $copy/room" "stat $copy/room"; do
      # shellcheck disable=SC2086
      as_other $one
      holds "$1: no other account gets to '$one'" [ "$?" != 0 ]
      # shellcheck disable=SC2086
      as_user $one >/dev/null 2>&1
      holds "$1: nor does the room's user, to '$one'" [ "$?" != 0 ]
    done
    as_user ls "/proc/$(<reading)/cwd/" >/dev/null 2>&1
    holds "$1: nor by the program that reads it" [ "$?" != 0 ]
    as_user bash -c "kill -STOP $(<reading)" 2>/dev/null
    holds "$1: whom that user can't hold" [ "$?" != 0 ]
    holds "$1: nothing of it lies beside the room" [ -z "$(find office -name 'restoring*')" ]
    : >seen
    wait "$!"
  }
  for word in verify audit dump review; do
    sleep 1
    watched "a night that is watched at $word" backup "$word"
  done
  watched 'a standby copy that is watched' standby verify
  watched 'a restore that is watched' restore verify --start latest
  holds "a restore of what was verified: $(head -c 300 "$work/err")" \
    grep -q "^restored $PWD/office/F from " "$work/out"
  holds 'the room is its user'"'"'s, and whole' \
    [ -z "$(find office -mindepth 1 -not -user "$STAND_USER")" -a \
    "$(as_user "$rooms" verify "$PWD/office/before-restore."*/F 2>&1)" = sound ]
  rm -r office/before-restore.*
  holds 'both have a copy' \
    [ "$("$rooms" verify "backups/conf/$(newest)/F" 2>&1) $(
      "$rooms" verify backups/conf/standby/F 2>&1
    )" = 'sound sound' ]
  holds 'no private copy stays' [ -z "$(ls tmp)" ]

  # What an earlier version had opened to the group of the room's user is closed again.
  chgrp "$(stat -c %g office)" backups
  chmod 710 backups
  sleep 1
  night
  holds 'backups are root'"'"'s alone again' [ "$status $(stat -c %a backups)" = '0 700' ]
  # Where a folder on the way is closed by somebody, it stays so.
  mkdir -m 750 closed
  chgrp 1 closed
  mkdir -m 700 closed/backups
  cp conf kept
  setting BACKUPS "$PWD/closed/backups"
  : >ran
  night
  holds "backups that are closed: $(head -c 300 "$work/err")" [ "$status" = 0 ]
  verb standby --room "$PWD/conf"
  holds "a standby copy there: $(head -c 300 "$work/err")" [ "$status" = 0 ]
  holds 'nothing of it runs as root' [ "$(cut -d ' ' -f 1 ran | sort -u)" = "$reader" ]
  holds 'a standby copy is one file' [ "$(ls closed/backups/conf/standby)" = F ]
  for copy in closed/backups/conf/{2*,standby}/F; do
    holds "$copy is sound" [ "$("$rooms" verify "$copy" 2>&1)" = sound ]
  done
  mv kept conf
  holds 'a folder that somebody closed stays so' [ "$(stat -c '%u %g %a' closed)" = '0 1 750' ]
  rm -r closed
  setting PROGRAM "$stand/bin/rooms"
else
  skip 'who reads a copy' 'no root, or no other user'
fi

# What has the name of a backup and is none, and one that nobody has made so: it is told, no other
# is removed, and the night makes its backup.
count() { (cd backups/conf && ls -d 2* | wc -l); }
setting KEEP 1
: >backups/conf/2026-01-01.040000
mkdir -m 777 backups/conf/2026-01-02.040000
chmod 777 backups/conf/2026-01-02.040000
cp office/F backups/conf/2026-01-02.040000/
for turn in 1 2; do
  sleep 1
  before=$(newest)
  night
  says "a night beside them, $turn" 1 \
    "no older backup is removed: no backup: $PWD/backups/conf/2026-01-01.040000 has the name of one"
  says "the other one, $turn" 1 \
    "removed: no backup: $PWD/backups/conf/2026-01-02.040000 is not root's alone"
  mailed "a night beside them, $turn" 'has the name of one, and is no folder'
  holds "it made a backup, $turn" [ "$(newest)" != "$before" -a -d "backups/conf/$before" ]
  holds "of all, $turn" [ -s "backups/conf/$(newest)/review.csv" ]
done
verb backups --room "$PWD/conf"
says 'which there are' 1 "$PWD/backups/conf/$(newest)"
says 'and what is none' 1 'has the name of one, and is no folder'
rm -r backups/conf/2026-01-0*
sleep 1
night
holds 'once they are gone, the others go too' [ "$status $(count)" = '0 1' ]
# A number that no run gave: the one with the largest is not the newest, and none is removed.
good=$(newest)
mkdir -m 700 backups/conf/2026-01-01.040000
cp office/F backups/conf/2026-01-01.040000/
echo number 999999999 >backups/conf/2026-01-01.040000/run
for turn in 1 2; do
  sleep 1
  night
  says "a number that no run gave, $turn" 1 \
    "bad number: $PWD/backups/conf/2026-01-01.040000/run is no number that a run has given"
done
holds 'the good ones stay' [ -d "backups/conf/$good" -a "$(count)" = 4 ]
verb latest --room "$PWD/conf"
holds 'and the newest is the last one' \
  [ "$(cat "$work/out")" = "$(ls -d "$PWD"/backups/conf/2* | tail -n 1)" ]
# A number that jumps is told once, and nothing goes that night.
rm -r backups/conf/2026-01-01.040000
last=$(cd backups/conf && ls -d 2* | tail -n 1)
echo number 500 >"backups/conf/$last/run"
sleep 1
night
says 'a number that jumps' 1 "no older backup is removed: numbers jump: $PWD/backups/conf/$last is"
holds 'and nothing goes' [ -d "backups/conf/$good" ]
sleep 1
night
holds 'nor is it told again' [ "$status $(count)" = '0 1' ]
setting KEEP 0

# A backup is known by the number of its run, whatever the clock says.
rm -rf backups/conf/*
night
holds 'the first' [ "$status" = 0 ]
first=$(newest)
holds 'has a number' [ "$(cat "backups/conf/$first/run")" = 'number 1' ]
mv "backups/conf/$first" backups/conf/2999-01-01.030000
answers 'a later document' /doc/later made PUT later
night
says 'the clock was set back' 1 \
  'the clock was set back: the backup 2999-01-01.030000 was made before'
mailed 'the clock was set back' 'the clock was set back'
second=$(newest)
holds 'the second' \
  [ "$second" != 2999-01-01.030000 -a "$(cat "backups/conf/$second/run")" = 'number 2' ]
sleep 1
night
holds 'it is told once' [ "$status" = 0 ]
third=$(newest)
unit stop
verb restore --room "$PWD/conf" latest
says 'latest is the newest' 0 "restored $PWD/office/F from $PWD/backups/conf/$third"
unit start
answers 'with what came last' /doc/later "reply '200 OK' application/octet-stream later"
rm -rf office/before-restore.*
setting KEEP 2
sleep 1
night
holds 'a night that keeps two' [ "$status" = 0 ]
holds 'the oldest goes, and none with a later name than one that stays' \
  [ "$(ls backups/conf | wc -l) $(ls -d backups/conf/2999*)" = '3 backups/conf/2999-01-01.030000' ]
holds 'which is the second' is_missing "backups/conf/$second"
setting KEEP 0

# What a run left that was cut off with its machine goes at the next one, and is told.
mkdir backups/conf/2020-01-01.030000.part backups/conf/2020-01-02.030000.part
cp office/F backups/conf/2020-01-01.030000.part/
echo mine >backups/conf/2020-01-02.030000.part/mine
mkdir "backups/conf/$third/unfinished"
sleep 1
night
says 'a copy that was left' 1 \
  'interrupted: an earlier run was cut off, and left no backup of 2020-01-01.030000'
mailed 'a copy that was left' 'left no backup of 2020-01-01.030000'
says 'a text that was left' 1 "the backup of $third may lack a part"
holds 'they are gone' \
  [ ! -e backups/conf/2020-01-01.030000.part -a ! -e "backups/conf/$third/unfinished" ]
holds 'what is not ours stays' [ "$(cat backups/conf/2020-01-02.030000.part/mine)" = mine ]
rm -r backups/conf/2020-01-02.030000.part
sleep 1
night
holds 'it is told once' [ "$status" = 0 ]

# Backups have to be where nobody else can put a link.
if [ "$(id -u)" = 0 ]; then
  mkdir -p open/backups foreign shared
  chmod 777 open
  chmod 1777 shared
  chown 65534 foreign
  for place in open/backups open foreign shared; do
    cp conf kept
    setting BACKUPS "$PWD/$place"
    night
    says "backups in $place" 2 "not root's: others can change"
    mailed "backups in $place" "not root's"
    verb standby --room "$PWD/conf"
    says "a standby copy in $place" 2 "not root's: others can change"
    holds "nothing is written to $place" [ -z "$(find "$place" -type f)" ]
    mv kept conf
  done
  unit_runs 'the server runs'
fi
