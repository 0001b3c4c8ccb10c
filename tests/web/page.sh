# The page of web behind nginx, in Chromium: an office of two users, and another site.

. "$here/lib/front.sh"
. "$here/lib/browsers.sh"
. "$here/lib/door.sh"
if [ -n "$lacking" ]; then
  skip 'the page' "missing: $lacking"
  return
fi

printf 'alice:{PLAIN}a\nbob:{PLAIN}b\n' >rooms.htpasswd

# Another site. The room is the same before and after.
open_room F
set_list F / dacl list:a "A:fd:alice:$ALL"
start_room F 1000 || return
start_front 'the page' || return
# It asks the room of the moment, whichever that is.
start_door office
api() { curl -s -o "$work/body" -w '%{http_code}' -u alice:a "$@"; }
holds 'a folder' [ "$(api -X POST "http://127.0.0.1:$front/folder/letters")" = 201 ]
holds 'a document' \
  [ "$(api -X PUT --data-binary Dear "http://127.0.0.1:$front/doc/letters/reply")" = 201 ]
stop_server
stop_proxy
run dump F
cp "$work/out" before
start_room F 1000 || return
start_front 'the page' || return
play 'another site' foreign.py "$PWD" "$front" "$PWD/access.log"
stop_server
stop_proxy
gives 'sound after another site' 0 'sound\n' '' verify F
run dump F
same 'another site changed nothing' "$work/out" before

# The office. PAGE_PICTURES is a folder for the pictures of docs/page.md.
open_room G
printf 'group,user\nstaff,bob\n' >groups.csv
gives 'groups' 0 'groups 1, members 1\n' '' groups G groups.csv
set_list G / dacl list:a "A:fd:alice:$ALL" A::AUTHENTICATED@:xt
start_room G 10000 || return
start_front 'the page' || return
# The play kills the server at its end, which is expected.
disown "$server"
play 'the office' office.py "$PWD" "$front" "$PWD/access.log" "$server" "$proxy" "$here/../docs" \
  ${PAGE_PICTURES:+"$PAGE_PICTURES"}
stop_server
stop_proxy
gives 'sound after the office' 0 'sound\n' '' verify G

# A server that ends and begins again, which the play starts.
open_room R
set_list R / dacl list:a "A:fd:alice:$ALL"
start_room R 1 || return
stop_server
start_front 'a server that restarts' || return
play 'a server that restarts' restarts.py "$PWD" "$front" "$PWD/access.log" "$rooms" "$PWD/R" \
  "$place"
stop_proxy
gives 'sound after restarts' 0 'sound\n' '' verify R

# A room at a path, whose page is the same files. Its server listens before nginx's file is made.
admin add --title 'Invoices & <orders>' invoices
holds 'a room at a path' [ "$status" = 0 ]
open_room H
set_list H / dacl list:a "A:fd:carol:$ALL"
start_room H 10000 || return
ln -s office run/rooms/invoices
start_door invoices
printf 'carol:{PLAIN}c\n' >rooms-invoices.htpasswd
start_front 'a room at a path' || return
play 'a room at a path' several.py "$PWD" "$front"
stop_server
stop_proxy
gives 'sound after a room at a path' 0 'sound\n' '' verify H
