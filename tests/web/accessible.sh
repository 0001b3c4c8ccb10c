# What WCAG 2.2 asks of the page at levels A and AA, as far as a browser can measure it: contrast of
# edges, reflow, focus that nothing hides, keys, names, and what is read aloud by itself.

. "$here/lib/front.sh"
. "$here/lib/browsers.sh"
. "$here/lib/door.sh"
if [ -n "$lacking" ]; then
  skip 'the page for everybody' "missing: $lacking"
  return
fi

printf '%s:{PLAIN}%s\n' alice a >rooms.htpasswd
printf "%s\n" group,user staff,{bob,zoe} >groups.csv
open_room W
gives 'groups of W' 0 'groups 1, members 2\n' '' groups W groups.csv
set_list W / dacl list:a "A:fd:alice:$ALL" A::AUTHENTICATED@:xt
start_room W 100000 || return
mkdir -p root/var/lib/rooms-web/office/mine
ln -s root/var/lib/rooms-web/office names
start_front W || return
start_door office
play 'the page for everybody' accessible.py "$PWD" "$front"
stop_server
stop_proxy
gives 'sound after W' 0 'sound\n' '' verify W
