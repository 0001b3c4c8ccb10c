# rooms-admin handover: all that belongs to one user goes to another, whatever its names, and
# nothing else does.

if [ "$loopback" = no ] || ! has curl; then
  skip 'what is handed over' 'no loopback, or no curl'
  return
fi
. "$here/lib/names.sh"

hands() { # ARGUMENT ..
  LC_ALL=C.UTF-8 "$repo/admin/rooms-admin" handover "$@" </dev/null >"$work/out" 2>"$work/err"
  status=$?
}
asked() { # STATUS USER METHOD TARGET [BODY]
  local got
  got=$(curl -s -o /dev/null -m "$patience" -X "$3" -H "Room-User: $2" --data-binary "${5-}" \
    -w '%{http_code}' "$room$4")
  holds "$3 $4 as $2: $got" [ "$got" = "$1" ]
}
dumped() { run dump F && cat "$work/out"; }

gives 'a room' 0 'ready\n' '' init F alice staff
printf 'group,user\nstaff,alice\nstaff,bob\nsales,dan\n' >members.csv
gives 'members' 0 'groups 2, members 3\n' '' groups F members.csv
set_list F / dacl list:a "A:fd:alice:$ALL" A:fdg:staff:rwaxtc
special_names >names
mkdir tree tree/folder
while IFS= read -r name; do printf x >"tree/$name"; done <names
printf x >'tree/folder/ below '
start_server F 100000 || return
room=http://127.0.0.1:$port
LC_ALL=C.UTF-8 "$repo/admin/rooms-admin" import --replace --as bob --room "$room" tree /bobs \
  >said 2>&1 </dev/null
holds "documents of bob: $(tail -n 1 said)" grep -q 'left out 0' said
asked 201 alice PUT /doc/dans x
asked 204 alice PUT /attr/dans '{"owner":"dan","group":"sales"}'
asked 204 alice PUT /attr/bobs/folder '{"owner":"bob","group":"sales"}'
# A name that the other one begins with, and what nobody but bob manages.
asked 201 alice PUT /doc/bobbys x
asked 204 alice PUT /attr/bobbys '{"owner":"bob.by","group":"staff"}'
asked 201 bob PUT /doc/own x
asked 204 alice PUT /dacl/own "$(printf '%s\n' list:p "A::bob:$ALL" A::alice:t)"
asked 201 bob PUT /doc/secret x
asked 204 alice PUT /dacl/secret "$(printf '%s\n' list:p "A::bob:$ALL")"
stop_server
dumped >lists
start_server F 100000 || return
room=http://127.0.0.1:$port

# What has happened since.
asked 204 alice DELETE /object/bobs/plan
asked 204 alice PUT /attr/bobs/Plan '{"owner":"carol","group":"staff"}'

hands
told 'without arguments' 2 \
  'bad arguments: the following arguments are required: LISTS, FROM, TO; rooms-admin handover'
hands --as alice --room "$room" lists bob bob
told 'to the same user' 2 'bob would give to bob'
hands --as alice --room "$room" lists 'b ob' alice
told 'a name that is none' 2 "'b ob' isn't the name of a user"
hands --as alice --room "$room" none bob alice
told 'no lists' 2 "no lists: none isn't a file that can be read"
hands --as alice --room "$room" names bob alice
told 'another text' 2 "no lists: names doesn't begin as what rooms dump prints"
hands --as alice --paint --room "$room" lists bob alice
told 'an option that is none' 2 'no such option'
hands --as alice --room http://127.0.0.1:1 lists bob alice
told 'a room that is not there' 1 'no reply'

stop_server
dumped >before
start_server F 100000 || return
room=http://127.0.0.1:$port
count=$(grep -ac '^\(document\|folder\) bob ' lists)
hands --dry-run --as alice --room "$room" lists bob alice
told 'what would be done' 1 "would be given $((count - 4)), of others by now 1, left out 3" \
  "would: /bobs/plan\\ " "/own: not given then: the right o is denied"
holds 'each has a line' [ "$(grep -c '^would: ' "$work/out")" = $((count - 4)) ]
stop_server
dumped >after
same 'changes nothing' after before

start_server F 100000 || return
room=http://127.0.0.1:$port
hands --log log --as eve --room "$room" lists bob alice
told 'a stranger' 1 'given 0, of others by now 0,' '403'
hands --log log2 --as alice --room "$room" lists bob alice
told 'all that is his' 1 "given $((count - 4)), of others by now 1, left out 3" \
  '/own: not given: 403' "/secret: its owner isn't read: 403" \
  "/bobs/plan: its owner isn't read: 404"
holds 'the log has the rest' [ "$(wc -l <log2)" = 3 ]
hands --as alice --room "$room" lists bob alice
told 'the same once more' 1 "given 0, of others by now $((count - 3)), left out 3"
hands --as bob --room "$room" lists bob newcomer
told 'to nobody' 2 'no heir: nobody is called newcomer; --new gives to a new user'
hands --as bob --dry-run --room "$room" lists bob alcie
told 'to a mistyped name' 2 'no heir: nobody is called alcie; did you mean alice?; --new gives'
hands --as bob --room "$room" lists bobb alice
told 'of a mistyped name' 1 \
  'nobody: bobb owns nothing and is in no group, as lists says; did you mean bob?'
hands --new --as bob --room "$room" lists bob newcomer
told 'what only he may give' 1 'given 2,'
stop_server
dumped >after
sed -e 's/^\(document\|folder\) bob /\1 alice /' \
  -e '/^document alice [^ ]* 1 \/\(own\|secret\)$/s/ alice / newcomer /' before >wanted
same 'owners alone have changed' after wanted

# Names with a backslash, and a password that isn't sent in clear.
start_server F 100000 || return
room=http://127.0.0.1:$port
asked 201 alice PUT /doc/office x
asked 204 alice PUT /attr/office '{"owner":"OFFICE\\bob","group":"staff"}'
stop_server
dumped >lists
start_server F 100000 || return
room=http://127.0.0.1:$port
hands --new --as alice --room "$room" lists 'OFFICE\bob' 'OFFICE\nancy'
told 'all of a name with a backslash' 0 'given 1, of others by now 0, left out 0'
# A document in parts is one.
for name in plan plan~rooms-part-0001 plan~rooms-part-0002 other~rooms-part-0001; do
  asked 201 alice PUT "/doc/$name" x
  asked 204 alice PUT "/attr/$name" '{"owner":"gil","group":"staff"}'
done
stop_server
dumped >lists
start_server F 100000 || return
room=http://127.0.0.1:$port
hands --dry-run --as alice --room "$room" lists gil alice
told 'a document in parts' 0 'would: /other\~rooms-part-0001' 'would: /plan' 'would be given 2,'
holds 'has no line for a part' [ "$(grep -c '^would: ' "$work/out")" = 2 ]
hands --as alice --room "$room" lists gil alice
told 'is given with them' 0 'given 2, of others by now 0, left out 0'
stop_server
dumped >after
holds 'all of them' [ "$(grep -c 'document alice staff 1 /plan' after)" = 3 ]
holds 'is of another one' grep -qxF 'document OFFICE\nancy staff 1 /office' after
hands --user alice --room http://rooms.example lists bob alice
told 'a password without TLS' 2 'no TLS: rooms.example would get the password'
