# What a clerk removes with thousands of documents in it: by one request to the door, and what a
# door leaves that is killed in the middle.

. "$here/lib/front.sh"
. "$here/lib/browsers.sh"
. "$here/lib/door.sh"
if [ -n "$lacking" ]; then
  skip 'removals of many' "missing: $lacking"
  return
fi
printf 'alice:{PLAIN}a\n' >rooms.htpasswd
open_room R
set_list R / dacl list:a "A:fd:alice:$ALL" A::AUTHENTICATED@:xt
start_room R 1000000 || return
start_front R || return
# As systemd does, the door is started anew when it is killed.
anew() {
  while [ ! -e enough ]; do
    start_door office
    echo "${doors[-1]}" >door.pid
    wait "${doors[-1]}"
    sleep 1
  done
}
anew 2>/dev/null &
others+=($!)
until [ -s door.pid ]; do sleep 0.05; done
play 'removals of many' removing.py "$PWD" "$front" "$PWD/access.log" \
  "$PWD/run/rooms/office/socket"
: >enough
kill "$(cat door.pid)"
stop_server
stop_proxy
gives 'sound after R' 0 'sound\n' '' verify R
