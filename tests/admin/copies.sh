# Copies of a room while rooms-admin works on them: on which disk they lie, and that they go.

. "$here/lib/people.sh"
if ! plays_people || ! has setpriv || ! has flock; then
  skip 'copies that are worked on' 'no loopback, curl, setsid, setpriv, flock or /usr/bin/python3'
  return
fi
room_of_alice
watched_program
room_verb backup
told 'a nightly run' 0

# Whole rooms are copied to where a disk is, which /tmp need not be.
elsewhere() { (unset TMPDIR && verb "$@"; exit "$status"); status=$?; }
lies_on_disk() { # NAME FOLDER WORD: where the copy was when the program ran on it
  told "$1" 0
  holds "$1: the copy is there" grep -q " $3 /var/tmp/$2\.\| /var/tmp/$2\.[^ ]* $3 " ran
  holds "$1: and nowhere else" [ "$(grep " $3 " ran | grep -vc " /var/tmp/$2\.")" = 0 ]
  holds "$1: nothing of it stays" [ -z "$(ls -d "/var/tmp/$2.$$."* 2>/dev/null)" ]
  : >ran
}
night=$(echo backups/office/2*)
: >ran
elsewhere get --room "$PWD/office.conf" latest /f
lies_on_disk get rooms-get get
elsewhere export --room "$PWD/office.conf" --backup latest / "$PWD/out"
lies_on_disk 'export --backup' rooms-get dump
mv "$night/review.csv" .
elsewhere mine --room "$PWD/office.conf"
lies_on_disk 'mine without a review' rooms-get review
mv review.csv "$night/"
unit stop
elsewhere doctor --program "$PWD/prog" \
  --user "$(getent passwd "$STAND_USER" | cut -d : -f 1)" "$PWD/office/F"
lies_on_disk doctor rooms-doctor verify
starts
if [ "$(id -u)" != 0 ] || [ "$STAND_USER" = 0 ]; then
  skip 'whose a copy is' 'no root, or no other user'
  return
fi
# The program never works on a backup itself, wherever that is.
: >ran
elsewhere backup --room "$PWD/office.conf"
for word in audit dump review; do
  holds "backup, $word: its copy lies on a disk" grep -q " /var/tmp/rooms-get\.[^ ]* $word " ran
done
lies_on_disk backup rooms-get verify
elsewhere standby --room "$PWD/office.conf"
lies_on_disk standby rooms-get verify
# What a killed run has left in /var/tmp goes with the next one.
mkdir -m 1777 tmp
: >wait-verify
: >reading
rm -f seen
unit stop
TMPDIR=$PWD/tmp "$repo/admin/rooms-admin" doctor --program "$PWD/prog" \
  --user nobody "$PWD/office/F" \
  >"$work/out" 2>&1 </dev/null &
running=$!
until [ -s reading ] || [ ! -d "/proc/$running" ]; do sleep 0.05; done
kill -KILL "$running"
wait "$running" 2>/dev/null
: >seen
rm wait-verify
holds 'a doctor that is killed leaves its copy' [ "$(ls tmp | wc -l)" = 1 ]
TMPDIR=$PWD/tmp verb doctor --program "$PWD/prog" --user nobody "$PWD/office/F"
told 'until the next one' 0 'nothing is wrong'
holds 'which removes it' [ -z "$(ls tmp)" ]
