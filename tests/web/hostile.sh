# Documents that would run a script in the name of whoever looks at them: by each way to a document.

. "$here/lib/front.sh"
. "$here/lib/browsers.sh"
. "$here/lib/door.sh"
if [ -n "$lacking" ]; then
  skip 'hostile documents in the page' "missing: $lacking"
  return
fi
printf 'alice:{PLAIN}a\n' >rooms.htpasswd
open_room H
set_list H / dacl list:a "A:fd:alice:$ALL" A::AUTHENTICATED@:xt
start_room H 100000 || return
adds setup
sets office DRIVE yes
start_front H || return
more=()
if has pdftoppm && has prlimit; then
  python3 -IB "$here/lib/inetd.py" "$PWD/pictures" 4 prlimit --cpu=8 "$repo/deploy/rooms-service" \
    picture &
  others+=($!)
  until [ -S pictures ]; do sleep 0.02; done
  more=(--pictures "$PWD/pictures")
fi
start_door office --drive=yes ${more[@]+"${more[@]}"}
play 'hostile documents in the page' hostile.py "$PWD" "$front"
stop_server
stop_proxy
