# One field for names and texts, in Chromium, where the room searches texts.

. "$here/lib/front.sh"
. "$here/lib/browsers.sh"
. "$here/lib/door.sh"
if [ -n "$lacking" ]; then
  skip 'names and texts' "missing: $lacking"
  return
fi
printf 'alice:{PLAIN}a\n' >rooms.htpasswd
open_room W
set_list W / dacl list:a "A:fd:alice:$ALL"
start_room W 100000 || return
start_front W || return
start_door office
play 'names and texts' in_texts.py "$PWD" "$front"
stop_server
stop_proxy
gives 'sound after W' 0 'sound\n' '' verify W
