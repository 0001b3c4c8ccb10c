# How long the page takes over a line to another machine, through nginx with TLS: loads, shares of
# large folders, and a name that is looked for. ROOMS_FIGURES=TABLE takes the figures that
# tools/speed puts into docs/speed.md; otherwise rooms are small, and it is only seen that all goes.

. "$here/lib/front.sh"
. "$here/lib/browsers.sh"
. "$here/lib/door.sh"
has openssl || lacking="$lacking openssl"
if [ -n "$lacking" ]; then
  skip 'how long the page takes' "missing: $lacking"
  return
fi
printf 'alice:{PLAIN}a\n' >rooms.htpasswd
certify_front
openssl x509 -in rooms.pem -noout -pubkey | openssl pkey -pubin -outform der |
  openssl dgst -sha256 -binary | openssl base64 >spki
open_room F
set_list F / dacl list:a "A:fd:alice:$ALL" A::AUTHENTICATED@:xt
start_room F 1000000 || return
adds setup
sets office DATES who
start_front 'how long the page takes' tls || return
start_door office --changes "$PWD/changes/office" --dates=who
[ -n "${ROOMS_FIGURES-}" ] && sizes=(1000 10000 30000) || sizes=(150 300 600)
python3 -IB "$here/web/delay.py" $((port + 7)) "$secure" 100 >line.out 2>line.err &
line=$!
others+=("$line")
until [ -s line.out ]; do sleep 0.05; done
play 'how long the page takes' figures.py "$PWD" $((port + 7)) "$PWD/access.log" "$line" \
  "$PWD/run/rooms/office/socket" "${sizes[@]}" ${ROOMS_FIGURES:+"$ROOMS_FIGURES"}
stop_server
stop_proxy
