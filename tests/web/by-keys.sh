# What somebody meets at the page who has no mouse, or doesn't see it: where the focus goes, what is
# picked by arrow keys, what is read aloud, and a list with dates in a narrow window.

. "$here/lib/front.sh"
. "$here/lib/browsers.sh"
. "$here/lib/door.sh"
if [ -n "$lacking" ]; then
  skip 'by keys' "missing: $lacking"
  return
fi

printf '%s:{PLAIN}%s\n' alice a >rooms.htpasswd
printf "%s\n" group,user staff,{bob,zoe} >groups.csv
open_room B
gives 'groups of B' 0 'groups 1, members 2\n' '' groups B groups.csv
set_list B / dacl list:a "A:fd:alice:$ALL" A::AUTHENTICATED@:xt
start_room B 100000 || return
mkdir -p root/var/lib/rooms-web/office/mine
ln -s root/var/lib/rooms-web/office names
start_front B || return
start_door office --changes "$PWD/changes/office" --dates=who
play 'by keys' by_keys.py "$PWD" "$front"
stop_server
stop_proxy
gives 'sound after B' 0 'sound\n' '' verify B
