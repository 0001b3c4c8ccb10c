# What clerks meet: two managers, a leaver, uploads that are stopped, links, forms, help.

. "$here/lib/front.sh"
. "$here/lib/browsers.sh"
. "$here/lib/door.sh"
if [ -n "$lacking" ]; then
  skip 'clerks' "missing: $lacking"
  return
fi

printf '%s:{PLAIN}%s\n' alice a carol c helena h zoe z >rooms.htpasswd
printf "%s\n" group,user staff,{bob,carol} >groups.csv
open_room Q
gives 'groups of Q' 0 'groups 1, members 2\n' '' groups Q groups.csv
set_list Q / dacl list:a "A:fd:alice:$ALL" A::AUTHENTICATED@:xt
start_room Q 100000 || return
mkdir -p root/var/lib/rooms-web/office/mine
ln -s root/var/lib/rooms-web/office names
start_front Q || return
start_door office
play 'clerks' clerks.py "$PWD" "$front"
stop_server
stop_proxy
gives 'sound after Q' 0 'sound\n' '' verify Q
