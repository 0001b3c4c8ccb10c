# What offices do most, in Chromium: how many clicks it takes, and how many keys without a mouse.

. "$here/lib/front.sh"
. "$here/lib/browsers.sh"
. "$here/lib/door.sh"
if [ -n "$lacking" ]; then
  skip 'what offices do most' "missing: $lacking"
  return
fi
printf '%s:{PLAIN}%s\n' alice a bob b >rooms.htpasswd
printf '%s\n' group,user staff,bob staff,carol >groups.csv
open_room T
gives 'groups of T' 0 'groups 1, members 2\n' '' groups T groups.csv
set_list T / dacl list:a "A:fd:alice:$ALL" A:g:staff:rxtc
start_room T 1000000 || return
mkdir -p root/var/lib/rooms-web/office/mine
ln -s root/var/lib/rooms-web/office names
adds setup
sets office DRIVE yes
start_front T || return
more=()
if has pdftoppm && has prlimit; then
  python3 -IB "$here/lib/inetd.py" "$PWD/pictures" 4 prlimit --cpu=8 "$repo/deploy/rooms-service" \
    picture &
  others+=($!)
  until [ -S pictures ]; do sleep 0.02; done
  more=(--pictures "$PWD/pictures")
fi
start_door office --drive yes ${more[@]+"${more[@]}"}
mkdir pdfs
python3 -IB "$here/services/pdfs.py" pdfs >/dev/null
play 'what offices do most' tasks.py "$PWD" "$front"
stop_server
stop_proxy
gives 'sound after T' 0 'sound\n' '' verify T
