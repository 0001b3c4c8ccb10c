# What pages tell an administrator to paste of people, pasted: who joins, who leaves, who has a
# password, and who is locked out.

. "$here/lib/pasted.sh" || return

paste_in "$(blocks people.md 'user add dana')"
prints 'somebody joins' '+ sales,dana' "a password for dana, in $file" \
  'groups 2, members 5'
bin/systemctl stop rooms
gives 'she is in her group' 0 \
  'group,user\nsales,bob\nsales,carol\nsales,dana\nstaff,a.bob\nstaff,bob\n' '' \
  groups-out room/office.rooms
bin/systemctl start rooms
htpasswd -vb passwords dana typed >said 2>&1
holds 'and has a password' grep -q correct said
holds 'of cost 10' grep -q '^dana:$2y$10\$' passwords
cp -L passwords before
paste_in "$(blocks people.md 'user change dana')"
prints 'she changes department' '+ staff,dana' '- sales,dana' 'groups 2, members 5'
same 'and keeps her password' passwords before
paste_in "$(blocks people.md 'members >groups.csv')"
holds 'who is there' grep -qx staff,dana groups.csv
sed -i 's/^staff,dana$/sales,dana/' groups.csv
paste_in "$(blocks people.md 'members --dry-run')"
prints 'and a file changes it' '+ sales,dana' '- staff,dana' '+ sales,dana' '- staff,dana' \
  'groups 2, members 5'
paste_in "$(blocks people.md 'members --dry-run')"
holds 'but only once' [ "$status" = 2 ]
holds 'since it is another one by then' grep -q 'changed meanwhile: ' "$work/err"
paste_in "$(blocks people.md joining.csv)"
holds 'many join' [ "$status" = 0 -a "$(grep -cxE '(kim|lee): [a-z2-9]{16}' "$work/out")" = 2 ]
holds 'and are in their groups' grep -qx 'groups 2, members 8' "$work/out"
for user in kim lee; do
  paste_in "rooms-admin user remove $user"
  holds "$user leaves" [ "$status" = 0 ]
done
same 'as before' passwords before

paste_in "$(blocks people.md 'user add eve')
$(blocks people.md 'A::eve:x')
$(blocks people.md 'can/projects/bridge')
$(blocks people.md '18:00')"
prints 'somebody from outside' "a password for eve, in $file" 204 204 \
  '{"r":"allowed 3","w":"silent","x":"allowed 3"}'
answers 'she sees her folder' '[] 200' eve GET /folder/projects/bridge
# What she has is a level, so that it can end at a date.
asked alice GET /dacl/projects/bridge | grep '^A:fd:eve:' >got
grep -m 1 '^| `read` ' "$docs/people.md" | cut -d '`' -f 4 >wanted
same 'by the entry of a level' got wanted
answers 'but not the one above' '{"at":"/projects","bits":"r","entry":null,"text":null} 403' \
  eve GET /folder/projects
answers 'nor any other' '{"at":"/letters","bits":"r","entry":null,"text":null} 403' \
  eve GET /folder/letters
holds 'the day is noted' grep -q '^at 18:00 2027-01-31$' due

# Who can have changed the rights at a folder, by the review of a night.
bin/systemctl stop rooms
night=backups/office/2026-11-26.040000
mkdir -m 700 "$night"
cp room/office.rooms "$night"
"$rooms" review room/office.rooms / >"$night/review.csv"
"$rooms" dump room/office.rooms >"$night/lists.txt"
bin/systemctl start rooms
paste_in "$(blocks people.md 'who --change')"
prints 'who can have changed it' "/  alice  Co  by A:fd:alice:$ALL" \
  '/projects  a.bob  remove  by A:fdg:staff:rwaxtc of /' \
  "/projects  alice  Co  remove  by A:fdI:alice:$ALL" \
  '/projects  bob  remove  by A:fdg:staff:rwaxtc of /' \
  'group staff: a.bob, bob'
date='A:g:until.2027-05-31.read.u.eve@alice:'
sed -i "/^A:fd:eve:rxtc\$/a $date" "$night/lists.txt"
paste_in "$(blocks people.md ':until')"
prints 'whose access ends' 'folder alice staff /projects/bridge' "$date"
rm -r "$night"
holds 'and what is done then' grep -qx "rooms-admin user remove 'eve' --password" due

cp -L passwords before
htpasswd -bB passwords bob secret 2>/dev/null
chmod 640 root/var/lib/rooms-passwords/rooms.htpasswd
paste_in "$(blocks people.md 'user remove bob' | head -n 1)"
prints 'somebody leaves' "no password for bob any more, in $file" '- sales,bob' '- staff,bob' \
  'groups 2, members 3' \
  'document bob staff 8 /letters/reply' 'folder alice staff /projects/bridge' 'A:fd:bob:r'
same 'he has no password, and nobody else has another' passwords before
holds 'the mode of the file stays' [ -n "$(find -L passwords -perm 640)" ]
answers 'the room is served' '{"group":"staff","kind":"document","owner":"bob"} 200' \
  alice GET /attr/letters/reply
bin/systemctl stop rooms
gives 'and is in no group' 0 \
  'group,user\nsales,carol\nsales,dana\nstaff,a.bob\n' '' groups-out room/office.rooms
bin/systemctl start rooms
bin/systemctl stop rooms
mkdir "$night"
cp room/office.rooms "$night"
"$rooms" dump room/office.rooms >"$night/lists.txt"
bin/systemctl start rooms
paste_in "$(blocks people.md 'rooms-admin handover --dry-run')"
rm -r "$night"
prints 'what would be his' 'would: /letters/reply' \
  'would be given 1, of others by now 0, left out 0'
answers 'still is' '{"group":"staff","kind":"document","owner":"bob"} 200' \
  alice GET /attr/letters/reply
paste_in "$(blocks people.md 'user remove bob --to')"
tail -n 1 "$work/out" >got
echo 'given 1, of others by now 0, left out 0' >wanted
same 'all that is his' got wanted
answers 'is alices' '{"group":"staff","kind":"document","owner":"alice"} 200' \
  alice GET /attr/letters/reply
answers 'it goes back' ' 204' alice PUT /attr/letters/reply '{"group":"staff","owner":"bob"}'
paste_in "$(blocks people.md '/attr/letters/reply')"
prints 'another owner' 204
answers 'who it is' '{"group":"staff","kind":"document","owner":"alice"} 200' \
  alice GET /attr/letters/reply
chosen() { sed -n "s/^$1: \([a-km-z2-9]\{16\}\)\$/\1/p" "$work/out"; } # USER
paste_in "$(blocks people.md 'add bob --random')"
holds 'a new password is printed' [ "$(chosen bob | wc -c)" = 17 ]
htpasswd -vb passwords bob "$(chosen bob)" >said 2>&1
holds 'and counts' grep -q correct said
paste_in "$(blocks people.md 'user add bob --first')"
first=root/var/lib/rooms-passwords/rooms.first
holds 'a first password' \
  [ "$(head -n 1 "$work/out")" = "a new first password for bob, in $PWD/$first" ]
htpasswd -vb $first bob "$(chosen bob)" >said 2>&1
holds 'is kept as one' grep -q correct said
holds 'and no other one counts' [ "$(grep -c ^bob: passwords)" = 0 ]
paste_in "$(blocks people.md 'user add archive')"
holds "a program's password is printed" [ "$(chosen archive | wc -c)" = 17 ]
htpasswd -vb passwords archive "$(chosen archive)" >said 2>&1
holds 'and counts too' grep -q correct said

# Somebody is locked out, who would have seen it before.
printf '%s\n' list:ap A:fdg:staff:rxtc >list.txt
paste_in "cd $PWD && $(blocks lists.md 'cat list.txt')"
holds 'a list that shuts its sender out' [ "$status" = 1 ]
holds 'is denied' grep -q '^denied bits C no entry$' "$work/out"
answers 'it is taken without a word' ' 204' alice PUT /dacl/letters "$(cat list.txt)"
answers 'and holds for its sender' '{"at":"/letters","bits":"r","entry":null,"text":null} 403' \
  alice GET /folder/letters
paste_in "$(blocks people.md 'list set /letters')"
prints 'the operator sets another' '- A:fdg:staff:rxtc' "+ A:fd:alice:$ALL" 'done'
answers 'and she gets in' '[{"kind":"document","name":"reply"}] 200' alice GET /folder/letters
answers 'the list of before' ' 204' alice PUT /dacl/letters 'list:a'
bin/systemctl stop rooms
