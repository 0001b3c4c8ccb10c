# The first screen: an open folder on a desk and on a telephone, with what is known of changes.

. "$here/lib/front.sh"
. "$here/lib/browsers.sh"
. "$here/lib/door.sh"
if [ -n "$lacking" ]; then
  skip 'the first screen' "missing: $lacking"
  return
fi

printf '%s:{PLAIN}%s\n' alice a bob b >rooms.htpasswd
open_room S
set_list S / dacl list:a "A:fd:alice:$ALL" A::AUTHENTICATED@:xt
start_room S 100000 || return
mkdir -p root/var/lib/rooms-web/office/mine
ln -s root/var/lib/rooms-web/office names
start_front S || return
start_door office
play 'the first screen' first_screen.py "$PWD" "$front"
stop_server
stop_proxy
gives 'sound after S' 0 'sound\n' '' verify S
