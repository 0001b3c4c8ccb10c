# `init`, and what every other subcommand says of files that are missing, empty or no room.

NO_RECORDS='at,user,path,bits,granted,entry,kind\n'

gives 'init' 0 'ready\n' '' init F root staff
gives dump-empty-room 0 "$EMPTY_ROOM" '' dump F
gives 'a new room is sound' 0 'sound\n' '' verify F
gives 'a new room has no members' 0 'group,user\n' '' groups-out F
gives 'a new room has no records' 0 "$NO_RECORDS" '' audit F
gives 'a new room is of schema 2' 2 'refused: schema 2 is new\n' '' migrate F
gives 'init on a room' 2 'refused: file exists\n' '' init F root staff
gives 'and it stays' 0 "$EMPTY_ROOM" '' dump F
holds 'the owner alone may read it' [ "$(ls -l F | cut -c 1-10)" = -rw------- ]

: >empty
gives 'init on an empty file' 2 'refused: file exists\n' '' init empty root staff
holds 'which stays empty' [ ! -s empty ]
mkdir folder
gives 'init on a folder' 2 'refused: file exists\n' '' init folder root staff
ln -s nowhere link
gives 'init on a link to nothing' 2 'refused: file exists\n' '' init link root staff
holds 'nothing was made behind it' is_missing nowhere
ln -s F linked
gives 'init on a link to a room' 2 'refused: file exists\n' '' init linked root staff
gives 'a room behind a link' 0 "$EMPTY_ROOM" '' dump linked

printf x >Left-wal
gives 'init beside the log of a file that was removed' 2 \
  'refused: file exists\n' '' init Left root staff
holds 'nothing was made beside it' is_missing Left

gives 'an owner that is no name' 2 'refused: A3 bad who\n' '' init G 'bad name' staff
gives 'a group that is no name' 2 'refused: A3 bad who\n' '' init G root ''
gives 'a special name' 2 'refused: A3 bad who\n' '' init G EVERYONE@ staff
holds 'nothing was made' is_missing G
gives 'names come before the file' 2 'refused: A3 bad who\n' '' init F 'bad name' staff
gives 'init where there is no folder' 3 '' 'fault: file\n' init none/F root staff
gives 'init below a file' 3 '' 'fault: file\n' init F/G root staff
gives 'init of no name' 3 '' 'fault: file\n' init '' root staff
gives 'a longest name' 0 'ready\n' '' init H \
  "$(printf 'a%.0s' {1..64})@$(printf 'b%.0s' {1..64})" staff
gives 'a name that is too long' 2 \
  'refused: A3 bad who\n' '' init I "$(printf 'a%.0s' {1..65})" staff
gives 'a colon in the name of the file' 0 'ready\n' '' init 'file:x' root staff
gives 'the same as memory' 0 'ready\n' '' init ':memory:' root staff
gives 'and it is a file' 0 "$EMPTY_ROOM" '' dump ':memory:'

# Where `init` can't print, it makes no room.
"$rooms" init J root staff >&- 2>"$work/err" </dev/null
status=$?
: >"$work/out"
wants 'init with closed standard output' 3 '' 'fault: file\n'
holds 'no file stays' is_missing J
holds 'no log stays' is_missing J-wal
gives 'a second try' 0 'ready\n' '' init J root staff

# Files that hold no room, for every subcommand that needs one.
head -c 5000 /dev/urandom >noise
printf 'This is a letter, and no database at all.\n' >letter
over_file() { # NAME STATUS OUT ERR FILE
  local name=$1 wanted=$2 out=$3 err=$4 file=$5 command
  printf 'group,user\n' >pairs.csv
  for command in groups-out audit dump verify migrate; do
    gives "$name: $command" "$wanted" "$out" "$err" "$command" "$file"
  done
  gives "$name: review" "$wanted" "$out" "$err" review "$file" /
  gives "$name: get" "$wanted" "$out" "$err" get "$file" /f
  gives "$name: groups" "$wanted" "$out" "$err" groups "$file" pairs.csv
  from_lines list:
  gives "$name: reset" "$wanted" "$out" "$err" reset "$file" / dacl
  input=/dev/null
  gives "$name: serve" "$wanted" "$out" "$err" serve "$file" --port "$((port + 1))"
}
over_file 'missing' 3 '' 'fault: file\n' missing
holds 'nothing was made' is_missing missing
over_file 'link to nothing' 3 '' 'fault: file\n' link
over_file 'missing folder' 3 '' 'fault: file\n' none/F
over_file 'empty' 2 'refused: not a rooms file\n' '' empty
holds 'it stays empty' [ ! -s empty ]
holds 'it gets no log' is_missing empty-wal
over_file 'folder' 3 '' 'fault: database\n' folder
over_file 'noise' 3 '' 'fault: database\n' noise
over_file 'letter' 3 '' 'fault: database\n' letter
holds 'the letter stays' grep -q 'no database at all' letter
printf x >byte
over_file 'one byte' 2 'refused: not a rooms file\n' '' byte
holds 'the byte stays' [ "$(cat byte)" = x ]
{ printf 'SQLite format 3\0'; head -c 9000 /dev/urandom; } >damaged
over_file 'damaged' 3 '' 'fault: database\n' damaged
for name in noise letter byte damaged; do holds "$name gets no log" is_missing "$name-wal"; done

# Databases of others, and of other schemas. `migrate` takes an older one.
for name in other no-row text-row; do
  take "$name.db" "$name.db"
  over_file "$name" 2 'refused: not a rooms file\n' '' "$name.db"
done
holds 'the database of another program is as it was' cmp -s other.db "$data/other.db"
holds 'and gets no log' is_missing other.db-wal
for number in -1 0 3 9000000000; do
  take "schema.$number.db" "numbered.$number.db"
  age=old
  [ "$number" -gt 2 ] && age=new
  over_file "schema $number" 2 "refused: schema $number is $age\n" '' "numbered.$number.db"
done
# A database of the right number that lacks the tables of a room is damaged.
take "lacking.db" lacking.db
over_lacking() { # COMMAND ..
  gives "lacking: $1" 3 '' 'fault: database\n' "$@"
}
over_lacking groups-out lacking.db
over_lacking audit lacking.db
over_lacking dump lacking.db
over_lacking review lacking.db /
over_lacking get lacking.db /f
over_lacking verify lacking.db
over_lacking groups lacking.db pairs.csv
from_lines list:
over_lacking reset lacking.db / dacl
input=/dev/null
