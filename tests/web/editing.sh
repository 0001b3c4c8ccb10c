# Links that open a document in a program of the computer, where the room has such addresses.

. "$here/lib/front.sh"
. "$here/lib/door.sh"
. "$here/lib/browsers.sh"
if [ -n "$lacking" ]; then
  skip 'documents edited by programs' "missing: $lacking"
  return
fi
printf 'alice:{PLAIN}a\n' >rooms.htpasswd
open_room F
set_list F / dacl list:a "A:fd:alice:$ALL"
start_room F 100000 || return
start_front 'documents edited by programs' || return
for path in 'letter%20%26%20%7C.odt' plan.DOCX notes.txt; do
  ask "a document $path" 201 '' alice:a "/doc/$path" -X PUT --data-binary text
done
ask 'a folder' 201 '' alice:a /folder/plain -X POST
ask 'with a document' 201 '' alice:a /doc/plain/notes.txt -X PUT --data-binary text
play 'without such addresses' editing.py "$PWD" "$front" none
sets office DRIVE yes
admin setup
holds 'they are taken' [ "$status" = 0 ]
take_front
reload_front
start_door office --drive=yes
play 'with such addresses' editing.py "$PWD" "$front" drive
