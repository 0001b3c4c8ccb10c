# What the page has of the door, behind nginx, in Chromium: how many clicks things take; what can't
# be opened, names further down, a folder as one ZIP, shares of many objects and with several
# people, documents that somebody else changed, and a door that is away.

. "$here/lib/front.sh"
. "$here/lib/browsers.sh"
. "$here/lib/door.sh"
if [ -n "$lacking" ]; then
  skip 'the page by a door' "missing: $lacking"
  return
fi
printf '%s:{PLAIN}%s\n' alice a bob b >rooms.htpasswd
printf '%s\n' group,user staff,bob staff,carol >groups.csv
open_room F
gives 'groups' 0 'groups 1, members 2\n' '' groups F groups.csv
set_list F / dacl list:a "A:fd:alice:$ALL" A:g:staff:rxtc
start_room F 1000000 || return
start_front 'the page by a door' || return
start_door office
mkdir -p root/var/lib/rooms-web/office/mine
ln -s root/var/lib/rooms-web/office names
play 'clicks' counted.py "$PWD" "$front"
play 'the page by a door' by_door.py "$PWD" "$front" "$PWD/access.log"
stop_server
stop_proxy
gives 'the room is sound' 0 'sound\n' '' verify F
