# Private copies of a room where their disk is full, and where the run is killed as a copy gets to
# whom it is for: whose they are afterwards.

. "$here/lib/people.sh"
if ! plays_people || ! has setpriv || ! has flock; then
  skip 'copies of a run that is killed' \
    'no loopback, curl, setsid, setpriv, flock or /usr/bin/python3'
  return
fi
room_of_alice
night() { verb backup --room "$PWD/office.conf"; }
if [ "$(id -u)" != 0 ] || [ "$STAND_USER" = 0 ]; then
  skip 'whose a copy is' 'no root, or no other user'
  return
fi
mkdir -m 1777 tmp

# Where there is no space for a private copy, that disk is named, and there is no backup.
if mkdir small && mount -t tmpfs -o size=16m,mode=1777 none small 2>/dev/null; then
  rm -rf backups/office/*
  TMPDIR=$PWD/small night
  told 'a private copy that would leave others no space' 1 \
    "the backup can't be copied to $PWD/small: it needs 17 MB there, and 16 MB are free"
  holds 'is no backup either' [ -z "$(find backups/office small -mindepth 1)" ]
  head -c 20000000 /dev/zero >small/filler 2>/dev/null
  TMPDIR=$PWD/small night
  told 'no space for a private copy' 1 \
    "the backup can't be copied to $PWD/small: it needs 17 MB there, and 0 MB are free"
  holds 'is no backup' [ -z "$(ls backups/office)" ]
  TMPDIR=$PWD/small verb standby --room "$PWD/office.conf"
  told 'nor a standby copy' 1 "the disk of $PWD/small/"
  holds 'and nothing is left there' [ "$(ls small)" = filler ]
  unit_runs 'no space for a private copy: the server runs'
  umount small
else
  skip 'no space for a private copy' 'no leave to mount'
fi

# A kill as a private copy gets to whom it is for, and after that: all in the folder of backups is
# root's, and the copy goes with the next run.
rm -rf tmp/*
: >"$stand/chowns"
for verb in backup standby; do
  # The first run after one that failed does more than others.
  for turn in 1 2; do
    rm -rf backups/office/*
    TMPDIR=$PWD/tmp verb "$verb" --room "$PWD/office.conf"
    told "$verb, which nothing cuts off, $turn" 0
  done
  grep -A 3 '^[0-9]* fchown ' "$stand/steps" | sed -n 's/^\([0-9]*\) .*/\1/p' | sort -nu >calls
  holds "$verb makes a private copy" [ "$(wc -l <calls)" -ge 5 ]
  for number in $(cat calls); do
    how=$([ $((number % 2)) = 0 ] && echo TERM || echo KILL)
    rm -rf backups/office/* "$stand/hit"
    TMPDIR=$PWD/tmp KILL_AT=$number KILL_HOW=$how verb "$verb" --room "$PWD/office.conf"
    name="$verb, $how at $number, $(cat "$stand/hit")"
    holds "$name: it doesn't end well" [ "$status" != 0 ]
    holds "$name: all is root's" [ -z "$(find backups -not -user 0)" ]
    [ "$how" = KILL ] || holds "$name: no private copy stays" [ -z "$(ls tmp)" ]
    TMPDIR=$PWD/tmp verb "$verb" --room "$PWD/office.conf"
    holds "$name: the next run has a copy" [ -n "$(find backups -name F)" ]
    holds "$name: and no private copy stays" [ -z "$(ls tmp)" ]
    unit_runs "$name: the server runs"
  done
done
rm "$stand/chowns"
