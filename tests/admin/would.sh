# rooms-admin would: what a list or a move would bring about by a night's lists. It is what comes of
# it, of rooms at random; what is printed, for whom, and what is refused.

. "$here/lib/people.sh"
if ! plays_people; then
  skip 'what would come of a change' 'no loopback, curl, setsid or /usr/bin/python3'
  return
fi
make_people
as_user "$rooms" init "$PWD/office/F" alice staff >/dev/null
printf 'group,user\nstaff,bob\nsales,kim\n' >members.csv
as_user "$rooms" groups "$PWD/office/F" "$PWD/members.csv" >/dev/null
list_is_set() { # PATH LINE ..
  printf '%s\n' "${@:2}" | as_user "$rooms" reset "$PWD/office/F" "$1" dacl >"$work/out" 2>&1 ||
    fail "the list of $1" "$(cat "$work/out")"
}
makes() { # USER METHOD WHAT PATH
  [ "$(curl -s -o /dev/null -w '%{http_code}' -H "Room-User: $1" -X "$2" \
    "http://127.0.0.1:$port/$3/$4" --data-binary x)" = 201 ] || fail "$2" "$4"
}
list_is_set / list:a "A:fd:alice:$ALL" A::AUTHENTICATED@:xt
starts
for path in Bridge Personnel Personnel/Salaries 'a%20b' Notes; do
  makes alice POST folder "$path"
done
makes alice PUT doc Personnel/Salaries/2027.csv
makes alice PUT doc 'a%20b/%E2%80%AEx'
unit stop
list_is_set /Bridge list:a A:fdg:sales:rwaxtc
list_is_set /Notes list:a A:fdg:sales:rwaxtc D:d:EVERYONE@:D
starts
for name in one two three; do makes kim PUT doc "Notes/$name"; done
makes kim POST folder Notes/four
makes alice PUT doc Notes/five
unit stop
list_is_set /Personnel list:ap "A:fd:alice:$ALL"
list_is_set /Personnel/Salaries/2027.csv list:p "A::alice:$ALL"
room_verb backup
ended_well 'a night'
night=$(ls backups/office)
asks_set() { # TEXT WORD ..
  printf '%s\n' "$1" >typed
  typed=typed room_verb would set "${@:2}"
}
prints() { # NAME LINE ..
  printf '%s\n' "by the night $night:" "${@:2}" >wanted
  same "$1" "$work/out" wanted
  ended_well "$1"
}

# Words are columns, and who has no line loses and gains nothing.
room_verb would move /Personnel/Salaries /Bridge/Salaries
prints 'a move' \
  'path                       who  before   then' \
  '/Bridge/Salaries           kim  nothing  rwaxtc, remove' \
  '/Bridge/Salaries/2027.csv  kim  nothing  remove'
asks_set $'list:a\nA:fd:alice:rxtc' /Personnel/Salaries
prints 'the owner keeps all that is inherited' 'nobody gains or loses anything'
asks_set $'# Nobody else.\n\nlist:ap\nA::alice:rxtc\nA:fd:bob:rxt\r' /Personnel
prints 'a list' \
  'path                          who    before                    then' \
  "/Personnel                    alice  $ALL, remove  rxtc, remove" \
  '/Personnel                    bob    nothing                   rxt' \
  "/Personnel/Salaries           alice  $ALL, remove  nothing" \
  '/Personnel/Salaries/2027.csv  bob    nothing                   the same'
asks_set $'list:a\nA:fd:bob:r\nA:fd:EVERYONE@:c' '/a b'
prints 'names that a terminal would obey, and callers without a row' \
  'path                   who               before   then' \
  '/a\ b                  bob               nothing  rc' \
  '/a\ b                  kim               nothing  c' \
  '/a\ b                  every other name  nothing  c' \
  "\$'/a b/\\342\\200\\256x'  bob               nothing  the same" \
  "\$'/a b/\\342\\200\\256x'  kim               nothing  the same" \
  "\$'/a b/\\342\\200\\256x'  every other name  nothing  the same"
asks_set $'list:a\nA:fdg:sales:rwaxtc\nA:fi:OWNER@:d\nD:d:EVERYONE@:D' /Notes
prints 'each of those that are alike' \
  'path          who  before  then' \
  '/Notes/one    kim  rwaxtc  rwaxtdc, remove' \
  '/Notes/three  kim  rwaxtc  rwaxtdc, remove' \
  '/Notes/two    kim  rwaxtc  rwaxtdc, remove'
room_verb would move /Bridge /Personnel --json
holds 'nothing is said of a move that cannot be' [ "$status" = 2 -a ! -s "$work/out" ]
room_verb would move /Personnel/Salaries/2027.csv /Bridge/2027.csv --json
ended_well 'for a program'
/usr/bin/python3 - "$work/out" >got <<'END'
import json, sys
rows = json.load(open(sys.argv[1]))
print([list(one) for one in rows[:1]], sorted({(one["user"], one["then"], one["then_remove"])
                                               for one in rows if one["user"] in ("kim", "*")}))
END
echo "[['path', 'kind', 'user', 'rights', 'remove', 'then', 'then_remove']]" \
  "[('*', '', False), ('kim', '', True)]" >wanted
same 'for a program' got wanted
holds 'which night' \
  grep -qxF "rooms-admin would: by the backup $PWD/backups/office/$night" "$work/err"

# What is refused, each in the program's words and with the list's own lines.
refuses() { # NAME LINE WORD ..
  room_verb would "${@:3}"
  told "$1" 2 "rooms-admin would: $2"
  holds "$1: nothing is printed" [ ! -s "$work/out" ]
}
for wrong in 'list:a|A:fd:bob;line 2: A5 not four parts' 'A::bob:r;line 1: A6 no list line' \
  'list:a||# b|A::bob:q;line 4: A4 bad mask letter' 'list:a|look /;line 2: A5 not four parts' \
  'list:a|move /a b;line 2: A5 not four parts' 'list:a|A:i:bob:r;entry 1: A11 i without f or d' \
  'list:a|#:|follows;line 3: A5 not four parts' \
  'list:a| A::bob:r;line 2: A1 bad type'; do
  tr '|' '\n' <<<"${wrong%;*}" >typed
  typed=typed refuses "${wrong%;*}" "refused: ${wrong#*;}" set /Bridge
done
refuses 'a move into itself' 'refused: N7 loop' move /Personnel /Personnel/Salaries/x
refuses 'to what is there' 'refused: N4 exists' move /Personnel /Bridge
refuses 'to nowhere' 'refused: N1 no-such' move /Personnel /none/x
refuses 'into a document' 'refused: N2 not-folder' move /Bridge /Personnel/Salaries/2027.csv/x
refuses 'the root' 'refused: N6 root' move / /x
refuses 'no object' "no object: /none isn't in the backup" move /none /x
refuses 'no path' 'bad arguments: a path in the room begins with a slash' move /Bridge x
typed=/dev/null refuses 'no list' 'no list: standard input has none' set /Bridge
# Texts of two moments, and one that would be too much.
lists=backups/office/$night/lists.txt
cp "$lists" kept
sed 's/^A:fdI:alice:.*/A:fdI:alice:rx/' kept >"$lists"
room_verb would move /Bridge /x
told 'a night that was changed' 1 'no answer: refused: line ' 'W5 not what is passed down'
{
  cat kept
  for n in {1..20001}; do echo "member staff u$n"; done
} >"$lists"
room_verb would move /Bridge /x
told 'more members than a question may have' 1 'no answer: refused: line 20001: W6 too much'
cp kept "$lists"
if [ "$(id -u)" = 0 ]; then
  watched_program
  setting PROGRAM "$PWD/prog"
  room_verb would move /Bridge /x
  ended_well 'by the program of the settings'
  holds 'as nobody who has a room, and beside none' \
    grep -qx "$(id -u rooms-backup 2>/dev/null || echo 65533) / would" ran
fi

# What comes of it, in rooms at random.
PYTHONPATH=$repo/admin /usr/bin/python3 -B "$here/admin/asked_before.py" "$rooms" first 25 \
  >"$work/out" 2>&1
grep -qxE '[0-9]+ lists, [0-9]+ moves: .* 0 unsaid, 0 said falsely; [0-9]+ alike' "$work/out"
status=$?
holds "rooms at random: $(tail -c 1500 "$work/out")" [ "$status" = 0 ]
