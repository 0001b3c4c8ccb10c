# Names that end in a blank, begin with a dash, are as long as a name may be, or turn the direction
# of writing: 500 of them go into a room, and every byte and name comes out, by export, get, a
# backup, a restore and the texts of the night.

if [ "$loopback" = no ] || ! has curl || ! has find || ! has sort || ! has diff; then
  skip 'odd names' 'no loopback, curl, find, sort or diff'
  return
fi

# A verb of rooms-admin, in a locale in which a letter may have several bytes; its status is in
# $status, its output in $work/out and $work/err.
transfers() { # VERB ARGUMENT ..
  PATH=$PWD/bin:$PATH LC_ALL=C.UTF-8 "$repo/admin/rooms-admin" "$@" \
    </dev/null >"$work/out" 2>"$work/err"
  status=$?
}
equal() { # NAME FOLDER FOLDER
  diff -r "$2" "$3" >found 2>&1
  same "$1" found /dev/null
}

. "$here/lib/names.sh"

special_names >special
{ cat special && every_sign; } | sort -u | grep -vx '\.\.' >names
holds 'there are 500 names' [ "$(wc -l <names)" -ge 500 ]
holds 'the longest has 255 bytes' \
  [ "$(awk 'length($0) > most { most = length($0) } END { print most }' names)" = 255 ]

# Each is a document that has its name in it; each tenth is also a folder with one in it.
mkdir -p tree/many tree/folders 'tree/ deep '
while IFS= read -r name; do
  printf '%s' "$name" >"tree/many/$name"
  number=$((${number-0} + 1))
  [ $((number % 10)) = 0 ] || continue
  mkdir "tree/folders/$name"
  printf 'in %s' "$name" >"tree/folders/$name/$name"
done <names
while IFS= read -r name; do printf 'the %s' "$name" >"tree/ deep /$name"; done <special

mkdir bin ' room '
printf '#!/bin/sh\necho inactive\n' >bin/systemctl
printf '#!/bin/sh\n' >bin/logger
chmod 755 bin/systemctl bin/logger
room=$PWD/' room /-office.rooms'
gives 'a room' 0 'ready\n' '' init "$room" root staff
# Bob reads documents and passes through folders, so that each document has a row in a review. Reads
# are recorded.
set_list "$room" / dacl list:a "A:fd:root:$ALL" A:fi:bob:r A:d:bob:x
set_list "$room" / sacl list:a U:fdiS:root:r
start_server "$room" 100000 || return
transfers import --as root --replace --room "http://127.0.0.1:$port" tree /in
told 'odd names go in' 0 "made $(find tree | wc -l), replaced 0, there already 0, left out 0"
holds 'nothing was carried out' is_missing spoilt
transfers export --as root --no-lists --room "http://127.0.0.1:$port" /in out
told 'and come out' 0 "documents $(find tree -type f | wc -l), left out 0"
equal 'each byte and each name' tree out
transfers import --as root --room "http://127.0.0.1:$port" 'tree/ deep ' '/in/ deep '
told 'they are found again' 0 'made 0, replaced 0,' 'left out 0'

# The lists beside them. The file for those of a name with more than 251 bytes isn't one that a file
# system can have, and a document's own name comes first.
transfers export --as root --room "http://127.0.0.1:$port" '/in/ deep ' lists
told 'with their lists' 1 'File name too long'
diff -r 'tree/ deep ' lists | grep -av '^Only in lists' >found
same 'all documents are there' found /dev/null
find 'tree/ deep ' -mindepth 1 -printf '%P\n' | sort >documents
sed 's/$/.acl/' documents | awk 'length($0) <= 255' | sort >wanted
sort -u wanted documents >both
find lists -mindepth 1 -printf '%P\n' | sort >found
same 'and the lists' found both
left=$((2 * $(wc -l <documents) - $(wc -l <both)))
told 'what has no file is left out' 1 "documents $(wc -l <documents), left out $left"

# Names that a room can't have: each is told, and none becomes another.
mkdir bad
for name in $'plan\n' $'\nplan' $'pl\nan' $'plan\t' $'\tplan' $'\177' $'\1' $'no\xfftext' $'\xc3' \
  $'\xed\xa0\x80' $'plan\r'; do
  printf 'bad' >"bad/$name"
done
transfers import --as root --replace --room "http://127.0.0.1:$port" bad '/in/ deep '
told 'names that a room can not have' 1 'made 0, replaced 0, there already 1, left out 11' \
  "'plan\\n': left out, with all below it: no room can have this name: it has a control character" \
  "'\\tplan': left out, with all below it" "'no\\377text': left out, with all below it"
transfers export --as root --no-lists --room "http://127.0.0.1:$port" '/in/ deep ' deep
told 'none became another' 0
equal 'all is as it was' 'tree/ deep ' deep

# Names of an older system, whose last letter isn't whole in UTF-8, don't hide those that come after
# them.
mkdir old
for name in $'caf\xe9' dach ende $'men\xfc' nach $'\xc3' zuletzt; do
  printf %s "$name" >"old/$name"
done
transfers import --as root --room "http://127.0.0.1:$port" old /old
told 'names of an older system' 1 'made 5, replaced 0, there already 0, left out 3'

# Folders whose own names are odd in a command line.
for name in - -x ' ' $'line\nbreak\n'; do
  mkdir -- "./$name"
  printf x >"./$name/x"
  transfers import --as root --room "http://127.0.0.1:$port" -- "$name" "/from"
  told "a folder called $(printf %q "$name") goes in" 0 'made 2,'
  transfers export --as root --no-lists --room "http://127.0.0.1:$port" "/from" "$name.out"
  told "and comes out as $(printf %q "$name.out")" 0 'documents 1, left out 0'
  diff -r -- "./$name" "./$name.out" >found 2>&1
  same 'as it was' found /dev/null
  curl -s -m "$patience" -X DELETE \
    -H 'Room-User: root' "http://127.0.0.1:$port/object/from/x" "http://127.0.0.1:$port/object/from"
done

# An export where something else is: nothing of it is touched.
mkdir there
printf mine >there/x
transfers export --as root --room "http://127.0.0.1:$port" /in there
told 'over a folder' 2 'there is something at there'
printf mine >lists-of.acl
transfers export --as root --room "http://127.0.0.1:$port" /in/many/plan lists-of
told 'where lists would go' 1 \
  "/in/many/plan: its lists aren't written: cannot overwrite existing file" \
  'documents 1, left out 1'
holds 'what was there stays' [ "$(cat there/x lists-of.acl)" = minemine ]
transfers export --as root --room "http://127.0.0.1:$port" /in missing/out
told 'into a folder that is missing' 1 'nor what is in it' 'folders 0, documents 0, left out 2'
# A path that is longer than the system takes.
deep=$PWD/deeper
while [ "${#deep}" -lt 3900 ]; do deep+=/$(long 100 d); done
mkdir -p "$deep"
transfers export --as root --no-lists --room "http://127.0.0.1:$port" '/in/ deep ' "$deep/out"
told 'where a whole path is longer than the system takes' 0 'left out 0'
for name in ' plan' 'plan ' plan; do
  holds 'but others have' [ "$(cat "$deep/out/$name")" = "the $name" ]
done

# A disk that is full: what is there is whole, and the rest is named. Neither is there where replies
# are kept.
mkdir small
if [ "$(id -u)" = 0 ] && mount -t tmpfs -o size=1000k rooms-small small 2>/dev/null; then
  mkdir filled
  for name in ' a' 'b ' c ' d '; do head -c 400000 /dev/zero | tr '\0' x >"filled/$name"; done
  transfers import --as root --room "http://127.0.0.1:$port" filled /filled
  told 'four large documents' 0
  transfers export --as root --no-lists --room "http://127.0.0.1:$port" /filled small/out
  told 'on a full disk' 1 'not written' 'No space left on device'
  for name in ' a' 'b ' c ' d '; do
    [ ! -e "small/out/$name" ] || holds "'$name' is whole" cmp "small/out/$name" "filled/$name"
  done
  whole=$(find small/out -type f | wc -l)
  holds 'the rest is counted' \
    grep -qx "folders 1, documents $whole, left out $((4 - whole))" "$work/out"
  holds 'there are both' [ "$whole" = 2 ]
  rm -rf small/*
  head -c 800000 /dev/zero >small/ballast
  TMPDIR=$PWD/small transfers export --as root \
    --no-lists --room "http://127.0.0.1:$port" /filled filled.out
  told 'no place for replies is needed' 0 'left out 0'
  rm -rf small/* filled.out
  head -c 1019904 /dev/zero >small/ballast
  TMPDIR=$PWD/small transfers import --as root --room "http://127.0.0.1:$port" tree /elsewhere
  told 'nor for names' 0 'left out 0'
  umount small
else
  skip 'a full disk' 'no root, or no mount'
fi
stop_server

# A backup and the texts beside it, of a room whose own name is odd.
mkdir ' backups ' run
printf '%s\n' "FILE=$room" "BACKUPS=$PWD/ backups " KEEP=0 MAIL= UNIT=rooms "PROGRAM=$rooms" >conf
if has flock && has setpriv; then
  ROOMS_RUN=$PWD/run transfers backup --room "$PWD/conf"
  told 'a backup' 0
  backup=$(ls ' backups /conf')
  cd tree || return
  {
    find . -type f -printf 'document root staff %s /in/%P\n' &&
      find . -type d -printf 'folder root staff /in/%P\n'
  } |
    sed 's#/$##' | sort >../wanted
  find . -type f -printf '/in/%P\n' | awk '
    /[",]/ { gsub(/"/, "\"\""); $0 = "\"" $0 "\"" }
    { print $0 ",document,bob,r,no" }' | sort >../wanted.review
  find . -type f -printf '/in/%P\n' | awk '
    /[",]/ { gsub(/"/, "\"\""); $0 = "\"" $0 "\"" }
    { print "root," $0 ",r,yes,1,audit" }' | sort >../wanted.records
  cd .. || return
  grep -aE '^(document|folder) [a-z ]*[0-9 ]*/in(/|$)' " backups /conf/$backup/lists.txt" |
    sort >found
  same 'its lists have every name' found wanted
  grep -a ',document,bob,' " backups /conf/$backup/review.csv" | grep -aE '^"?/in/' | sort >found
  same 'its review has every name' found wanted.review
  sed 's/^[0-9]*,//' " backups /conf/$backup/records.csv" | sort -u >recorded
  comm -13 recorded wanted.records >found
  same 'its records have every name' found /dev/null
else
  skip 'a backup of odd names' 'no flock or setpriv'
  backup=
fi

# Single documents out of it, and all of it back.
if [ -n "$backup" ]; then
  while IFS= read -r name; do
    [ $((${number:=0} % 4)) != 0 ] || {
      transfers get --room "$PWD/conf" "$backup" "/in/many/$name"
      printf '%s' "$name" >wanted
      same "out of a backup: $(printf %q "$name")" "$work/out" wanted
    }
    number=$((number + 1))
  done <special
  run dump "$room"
  cp "$work/out" before
  rm -f "$room" "$room-wal"
  gives 'an empty room' 0 'ready\n' '' init "$room" root staff
  transfers restore --room "$PWD/conf" "$backup"
  told 'a backup comes back' 0 "restored $room"
  run dump "$room"
  same 'with each name and list' "$work/out" before
  start_server "$room" 100000 || return
  transfers export --as root --no-lists --room "http://127.0.0.1:$port" '/in/ deep ' restored
  told 'it goes out' 0 'left out 0'
  equal 'with each byte' 'tree/ deep ' restored
  stop_server
fi
