# Documents of more than 1 MiB in the page, behind nginx, in Chromium; with ROOMS_LARGE=80 some of
# 80 MB, and in Firefox too.

. "$here/lib/front.sh"
. "$here/lib/browsers.sh"
. "$here/lib/door.sh"
if [ -n "$lacking" ]; then
  skip 'large documents in the page' "missing: $lacking"
  return
fi
printf '%s:{PLAIN}%s\n' alice a bob b >rooms.htpasswd
printf '%s\n' group,user staff,bob staff,alice >groups.csv
open_room F
gives 'groups' 0 'groups 1, members 2\n' '' groups F groups.csv
set_list F / dacl list:a "A:fd:alice:$ALL" A::AUTHENTICATED@:xr
start_room F 1000000 || return
admin setup
[ -n "${ROOMS_LARGE-}" ] || sets office LARGEST 10
start_front 'large documents in the page' || return
start_door office
most=$(sed -n 's/^LARGEST=//p' machine/etc/rooms/office.conf)
for browser in '' ${ROOMS_LARGE:+"$((front + 20))"}; do
  play "large documents in the page ${browser:+(Firefox)}" large.py "$PWD" "$front" \
    "$PWD/access.log" "$most" "${ROOMS_LARGE:-5}" $browser
done
stop_server
stop_proxy
gives 'the room is sound' 0 'sound\n' '' verify F
