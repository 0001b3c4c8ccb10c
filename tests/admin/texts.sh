# rooms-admin lists, who and records, and backups --with: what they say of a night is what the
# program's own texts and answers say, of lists at random and of odd names.

. "$here/lib/people.sh"
if ! plays_people; then
  skip 'what a night says' 'no loopback, curl, setsid or /usr/bin/python3'
  return
fi
make_people
as_user "$rooms" init "$PWD/office/F" alice staff >/dev/null
odd='OFFICE\nbob'
{
  echo group,user
  printf 'staff,%s\n' bob a.bob carol "$odd"
  printf 'sales,%s\n' dan bob
} >members.csv
as_user "$rooms" groups "$PWD/office/F" "$PWD/members.csv" >"$work/out" 2>&1
holds "the members: $(cat "$work/out")" grep -qx 'groups 2, members 6' "$work/out"
list_is_set() { # PATH WHICH LINE ..
  printf '%s\n' "${@:3}" | as_user "$rooms" reset "$PWD/office/F" "$1" "$2" >"$work/out" 2>&1 ||
    fail "the $2 of $1" "$(cat "$work/out")"
}
list_is_set / dacl list:a "A:fd:alice:$ALL" A:fdg:staff:rwaxtc A::AUTHENTICATED@:xt
list_is_set / sacl list:a U:fdSF:EVERYONE@:rx

# Folders in folders and documents in them, of names that a terminal would obey or a table divide.
starts
makes() { # USER METHOD WHAT PATH
  curl -s -o /dev/null -w '%{http_code}' -H "Room-User: $1" \
    -X "$2" "http://127.0.0.1:$port/$3/$4" --data-binary x
}
folders=(a b%20b c%2C%22c%22 a/1 a/2 b%20b/%C3%BC a/1/deep dan)
documents=(a/x a/1/y%20 a/1/deep/z b%20b/%C3%BC/%C2%9B2J c%2C%22c%22/%E2%80%AEfdp
  a/2/of%20bob.txt b%20b/-x 'c%2C%22c%22/%5Cn%24(id)')
for path in "${folders[@]}"; do
  [ "$(makes alice POST folder "$path")" = 201 ] || fail 'a folder' "$path"
done
owners=(bob carol)
for number in "${!documents[@]}"; do
  [ "$(makes "${owners[number % 2]}" PUT doc "${documents[number]}")" = 201 ] ||
    fail 'a document' "${documents[number]}"
done
unit stop
decoded() { printf '%b' "/${1//%/\\x}"; } # PATH
who=(bob carol eve "$odd" a.bob OWNER@ GROUP@ EVERYONE@ ANONYMOUS@ staff sales)
masks=(r rw rwaxtc xt C o Dx d wa cC "$ALL" rx '')
kinds=(list: list:a list:a list:a list:p list:ap)
types=(A A A A A D)
# The same lists in each run.
at_random() { # SEED FLAGS
  local n one flags
  RANDOM=$1
  echo "${kinds[RANDOM % ${#kinds[@]}]}"
  for n in {1..7}; do
    one=${who[RANDOM % ${#who[@]}]} flags=
    [ "$((RANDOM % 2))" = 0 ] || flags=$2
    [[ $one != s[ta]* ]] || flags+=g
    echo "${types[RANDOM % ${#types[@]}]}:$flags:$one:${masks[RANDOM % ${#masks[@]}]}"
  done
}
for number in 1 2 3 5 6 7; do
  mapfile -t lines < <(at_random "$number" fd)
  list_is_set "$(decoded "${folders[number % ${#folders[@]}]}")" dacl "${lines[@]}"
done
for number in 0 2 3 4 7; do
  mapfile -t lines < <(at_random "1$number" '')
  list_is_set "$(decoded "${documents[number]}")" dacl "${lines[@]}"
done
list_is_set /dan dacl list:ap "A:fd:alice:$ALL" A:fd:eve:rxtc \
  A:g:until.2999-05-31.read.u.eve@alice: A:fdg:sales:rwaxtcCo
list_is_set '/a/2/of bob.txt' sacl list:a U:SF:bob:r U:SF:EVERYONE@:w
starts
for user in bob eve "$odd"; do
  for path in a dan b%20b; do makes "$user" GET folder "$path" >/dev/null; done
done
curl -s -o /dev/null "http://127.0.0.1:$port/folder/a"
room_verb backup
ended_well 'a night'
night=$PWD/backups/office/$(ls backups/office)

# All that is asked of each object agrees with the whole review, and with what the room answers now.
mkdir look
cp "$night"/F* look
"$rooms" review look/F / --all >all.csv
PYTHONPATH=$repo/admin /usr/bin/python3 "$here/admin/texts.py" "$PWD/office.conf" "$night" all.csv \
  "$port" >"$work/out" 2>"$work/err"
status=$?
told 'each list, and who may do what by which entry' 0 "objects 17, rows "
holds "which is something: $(cat "$work/out")" [ "$(sed 's/.* //' "$work/out")" -gt 100 ]

# By which entry somebody has a right is what the program says of one list.
PYTHONPATH=$repo/admin /usr/bin/python3 -B "$here/admin/reasons.py" "$rooms" first 500 \
  >"$work/out" 2>&1
grep -qxE '500 lists, [0-9]{3} rights' "$work/out"
status=$?
holds "reasons of lists at random: $(head -c 600 "$work/out")" [ "$status" = 0 ]

# All that one user could do is what the program says of that user.
for user in alice bob carol eve dan "$odd" a.bob nobody; do
  "$rooms" review look/F / --user "$user" >rows.csv
  room_verb who --user "$user" --json
  /usr/bin/python3 - rows.csv "$work/out" "$user" >got 2>&1 <<'END'
import csv, json, sys
with open(sys.argv[1], encoding="utf-8", newline="") as source:
    wanted = [(row["path"], row["kind"], row["rights"], row["remove"] == "yes")
              for row in csv.DictReader(source)]
with open(sys.argv[2], encoding="utf-8") as source:
    rows = json.load(source)
got = [(row["path"], row["kind"], row["rights"], row["remove"]) for row in rows]
names = {row["user"] for row in rows}
print(len(wanted) > 1, wanted == got, names == {"*" if sys.argv[3] == "nobody" else sys.argv[3]},
      all(row["by"] for row in rows if row["rights"]))
END
  holds "all that $user could do: $(cat got)" [ "$(cat got)" = 'True True True True' ]
done
room_verb who --user eve /dan
printf '%s\n' '/dan  eve  rxtc  by A:fd:eve:rxtc' >wanted
same 'what eve could do there' "$work/out" wanted

# The longest list, as an awk says it: what a terminal would obey is written in signs.
awk '/^(folder|document|member) / { at = $0 } /^(dacl|sacl)$/ { which = $0; n = 0 }
  /^[ADUL]:/ && ++n > most { most = n; where = which " of " at }
  END { print most " entries in the " where }' "$night/lists.txt" |
  sed $'s/\xe2\x80\xae/\\\\u202e/; s/\xc2\x9b/\\\\x9b/' >wanted
room_verb lists --longest
same 'the longest list' "$work/out" wanted

# A list goes back as it was printed.
room_verb lists /dan
printf '%s\n' list:ap "A:fd:alice:$ALL" A:fd:eve:rxtc A:g:until.2999-05-31.read.u.eve@alice: \
  A:fdg:sales:rwaxtcCo >wanted
same 'a list' "$work/out" wanted
gives_list=$work/out
"$rooms" reset look/F /dan dacl <"$gives_list" >said 2>&1
holds "is one that reset takes: $(cat said)" grep -qx 'done' said
room_verb lists --sacl '/a/2/of bob.txt'
printf '%s\n' list:a U:SF:bob:r U:SF:EVERYONE@:w U:SFI:EVERYONE@:rx >wanted
same 'the other one' "$work/out" wanted

# Who could change the rights of a folder: the groups, and who is in them.
room_verb who --change /dan
{
  echo "/  alice  Co  by A:fd:alice:$ALL"
  printf '/dan  %s  remove  by A:fdg:staff:rwaxtc of /\n' "$odd" a.bob
  echo "/dan  alice  Co  remove  by A:fd:alice:$ALL"
  echo '/dan  bob  Co  remove  by A:fdg:sales:rwaxtcCo, A:fdg:staff:rwaxtc of /'
  echo '/dan  carol  remove  by A:fdg:staff:rwaxtc of /'
  echo '/dan  dan  Co  by A:fdg:sales:rwaxtcCo'
  echo 'group sales: bob, dan'
  echo "group staff: $odd, a.bob, bob, carol"
} >wanted
same 'who could change it' "$work/out" wanted
holds 'nothing is said beside' [ "$status" = 0 -a ! -s "$work/err" ]

# Records, with dates.
room_verb records --user eve
holds 'records of one user' [ "$status" = 0 -a "$(grep -c '  eve  ' "$work/out")" -ge 3 ]
holds 'have their moment' [ "$(grep -cvE '^20[0-9-]*T[0-9:]*Z  eve  [rx]  (granted|denied)  /' \
  "$work/out")" = 0 ]
room_verb records --path /dan
holds 'records of one place' [ "$(grep -cv '  /dan  audit by entry 1$' "$work/out")" = 0 ]
holds 'of all who came there' [ "$(wc -l <"$work/out")" = 3 ]
room_verb records --user nobody
says 'nobody has been here' 0 "no such record is in the backup $night"

# What can't be written is told once.
for words in 'lists --longest' records 'who /'; do
  # shellcheck disable=SC2086
  "$repo/admin/rooms-admin" $words --room "$PWD/office.conf" >/dev/full 2>"$work/err" </dev/null
  status=$?
  : >"$work/out"
  told "$words on a full disk" 1 'failed: [Errno 28] No space left on device'
  holds 'and once' [ "$(wc -l <"$work/err")" = 1 ]
done

# Names that nobody has, places that aren't there, words that are none.
room_verb lists --user nobody
says 'a name that nobody has' 0 "nothing of nobody is in the backup $night"
for words in 'lists /none' 'who /none' 'who --change /dan/none' 'lists --below /da'; do
  # shellcheck disable=SC2086
  room_verb $words
  says "$words" 2 'no object: /'
  holds "$words: nothing is printed" [ ! -s "$work/out" ]
done
room_verb lists --user 'b ob'
says 'what is no name' 2 "bad arguments: 'b ob' can't be the name of a user"

# Which nights had it.
room_verb backup
later=$PWD/backups/office/$(ls backups/office | tail -n 1)
grep -v ' /dan$' "$later/lists.txt" >lists.without
room_verb backups --with /dan
holds 'both nights had it' [ "$status" = 0 -a "$(grep -c "  $PWD/backups/" "$work/out")" = 2 ]
cp "$later/lists.txt" kept
sed 's#^folder .* /dan$#folder alice staff /dann#' kept >"$later/lists.txt"
room_verb backups --with /dan
holds 'one night had it' [ "$status" = 0 -a "$(sed 's/.*  //' "$work/out")" = "$night" ]
cp kept "$later/lists.txt"

# Texts that aren't there are made by the program, on a copy that isn't root's; nothing stays of it.
mkdir spare
for verb in 'lists /dan' 'who --change /dan' 'records --user eve'; do
  # shellcheck disable=SC2086
  TMPDIR=$PWD/spare room_verb $verb
  ended_well "$verb"
  cp "$work/out" wanted
  mkdir away
  mv "$later"/{lists.txt,review.csv,records.csv} away
  # shellcheck disable=SC2086
  TMPDIR=$PWD/spare room_verb $verb
  ended_well "$verb, without a text"
  same "$verb is the same without the texts" "$work/out" wanted
  says "$verb tells it" 0 "isn't there, so it is made now"
  mv away/* "$later"
  rmdir away
  # shellcheck disable=SC2086
  room_verb $verb --backup "${night##*/}"
  ended_well "$verb of an earlier night"
done
holds 'no copy stays' [ -z "$(ls -A spare)" ]

# A backup that is damaged, or that isn't as a run leaves it.
head -c -3 kept >"$later/lists.txt"
room_verb lists --longest
says 'lists that were cut off' 1 'no lists: lists.txt'
echo at,user >"$later/lists.txt"
room_verb who /
says 'lists that are none' 1 "no lists: lists.txt doesn't begin as what rooms dump prints"
rm "$later/lists.txt"
ln -s "$PWD/kept" "$later/lists.txt"
room_verb lists /
says 'a link' 1 'a link, which is not followed'
rm "$later/lists.txt"
mkdir whole
mv "$later"/F* whole/
head -c "$(stat -c %s whole/F)" /dev/zero >"$later/F"
room_verb lists /
says 'a damaged file without texts' 1 'dump of the copy failed, status '
mv whole/* "$later/"
if [ "$(id -u)" = 0 ]; then
  cp kept "$later/lists.txt"
  chown 65534 "$later/lists.txt"
  room_verb lists /
  says "what isn't root's" 1 "not root's alone"
fi
rm -rf backups/office
room_verb who /
says 'before the first night' 2 "no backup: $PWD/backups has none of this room"
