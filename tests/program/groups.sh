# `groups`, `groups-out`, and a group's entry that begins to count.

csv() { printf '%b' "$1" >in.csv; }
bytes() { # COUNT BYTE
  head -c "$1" /dev/zero | tr '\0' "$2"
}

open_room F
csv '\xef\xbb\xbfgroup,user\r\nsales,alice\r\nsales,bob\r\nsales,alice\r\n'
gives 'import-groups' 0 'groups 1, members 2\n' '' groups F in.csv
gives 'its pairs' 0 'group,user\nsales,alice\nsales,bob\n' '' groups-out F
gives 'import-groups again' 0 'groups 1, members 2\n' '' groups F in.csv
gives 'the same pairs' 0 'group,user\nsales,alice\nsales,bob\n' '' groups-out F
csv 'group,user\nsales,alice\nops,bad name\n'
gives 'import-bad-name' 2 'refused: row 3: C3 bad name\n' '' groups F in.csv
gives 'which changes nothing' 0 'group,user\nsales,alice\nsales,bob\n' '' groups-out F
run dump F
tail -2 "$work/out" >members
printf 'member sales alice\nmember sales bob\n' >wanted
same 'members in the dump' members wanted

csv ''
gives 'group-file-empty' 2 'refused: row 1: C1 bad header\n' '' groups F in.csv
csv 'Group,User\n'
gives 'another header' 2 'refused: row 1: C1 bad header\n' '' groups F in.csv
csv 'group,user\nsales\n'
gives 'group-file-one-field' 2 'refused: row 2: C2 not two fields\n' '' groups F in.csv
csv 'group,user\nsales,alice,x\n'
gives 'three fields' 2 'refused: row 2: C2 not two fields\n' '' groups F in.csv
csv 'group,user\nsales,\xff\n'
gives 'no text' 2 'refused: row 2: C5 not UTF-8\n' '' groups F in.csv
gives 'nothing of them counts' 0 'group,user\nsales,alice\nsales,bob\n' '' groups-out F

csv 'group,user\n"sales",alice\nops,carol\nops,alice\n'
gives 'group-file-quoted' 0 'groups 2, members 3\n' '' groups F in.csv
gives 'pairs in order' 0 'group,user\nops,alice\nops,carol\nsales,alice\n' '' groups-out F
csv 'group,user\n'
gives 'no members' 0 'groups 0, members 0\n' '' groups F in.csv
gives 'none are left' 0 'group,user\n' '' groups-out F

# The limits: 20,000 rows, and 8,388,608 bytes, of which the last ones here are empty lines.
{ echo group,user; seq -f 'g,user%.0f' 20000; } >rows.csv
gives 'group-file-rows' 0 'groups 1, members 20000\n' '' groups F rows.csv
run groups-out F
{ echo group,user; seq -f 'g,user%.0f' 20000 | sort; } >wanted
wants_file 'twenty thousand come back' 0 wanted
echo g,more >>rows.csv
gives 'one row more' 2 'refused: row 20002: C4 too many rows\n' '' groups F rows.csv
{ printf 'group,user\ng,a\n'; bytes $((8388608 - 15)) '\n'; } >long.csv
gives 'a CSV file of 8388608 bytes' 0 'groups 1, members 1\n' '' groups F long.csv
echo >>long.csv
gives 'one byte more' 2 'refused: input too long\n' '' groups F long.csv
holds 'a CSV file without an end' \
  [ "$(timeout "$patience" "$rooms" groups F /dev/zero)" = 'refused: input too long' ]
gives 'the last members stay' 0 'group,user\ng,a\n' '' groups-out F

# The CSV file comes before the room's.
gives 'a CSV file that is missing' 3 '' 'fault: file\n' groups F missing.csv
gives 'both are missing' 3 '' 'fault: file\n' groups missing missing.csv
gives 'a folder as CSV file' 3 '' 'fault: file\n' groups F .
csv 'group,user\nsales\n'
gives 'a bad row comes before the file' 2 \
  'refused: row 2: C2 not two fields\n' '' groups missing in.csv
csv 'group,user\nsales,alice\n'
gives 'the CSV file as the room' 3 '' 'fault: database\n' groups in.csv in.csv
gives 'which stays' 0 'groups 1, members 1\n' '' groups F in.csv

# Some join and others leave, all at once.
csv 'group,user\nsales,alice\nsales,bob\n'
gives 'who is there' 0 'groups 1, members 2\n' '' groups F in.csv
gives 'one joins and one leaves' 0 'joined 1, left 1, members 2\n' '' \
  groups F --join ops carol --leave sales bob
gives 'the others stay' 0 'group,user\nops,carol\nsales,alice\n' '' groups-out F
gives 'the same again' 0 'joined 0, left 0, members 2\n' '' \
  groups F --join ops carol --leave sales bob
gives 'several join' 0 'joined 2, left 0, members 4\n' '' \
  groups --join sales bob F --join ops alice --join ops alice
gives 'who leaves and joins is there' 0 'joined 1, left 2, members 3\n' '' \
  groups F --leave ops carol --join ops carol --leave sales bob
gives 'all pairs' 0 'group,user\nops,alice\nops,carol\nsales,alice\n' '' groups-out F
gives 'one of two groups' 0 'joined 0, left 1, members 2\n' '' groups F --leave ops alice
gives 'the other group stays' 0 'group,user\nops,carol\nsales,alice\n' '' groups-out F
gives 'a name that is none' 2 'refused: C3 bad name\n' '' \
  groups F --join ops bob --leave sales 'bad name'
gives 'a group that is none' 2 'refused: C3 bad name\n' '' groups F --join '' bob
gives 'nothing of them counts either' 0 'group,user\nops,carol\nsales,alice\n' '' groups-out F
gives 'neither' 2 'refused: either CSV, or --join and --leave\n' '' groups F
gives 'both' 2 'refused: either CSV, or --join and --leave\n' '' groups F in.csv --join ops bob
gives 'a room that is missing' 3 '' 'fault: file\n' groups missing --join ops bob
gives 'no room' 3 '' 'fault: database\n' groups in.csv --join ops bob
csv 'group,user\nsales,alice\n'
gives 'the members of before' 0 'groups 1, members 1\n' '' groups F in.csv

# A CSV file is read from a pipe as well as from a file.
[ -e /dev/stdin ] && {
  input=in.csv
  gives 'a CSV file on standard input' 0 'groups 1, members 1\n' '' groups F /dev/stdin
  input=/dev/null
}
gives 'sound' 0 'sound\n' '' verify F
