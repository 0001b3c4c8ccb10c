# What a caller says that the site is called: the Apache of the sessions is told, here by a stand-in
# for it, and none of the servers that nginx has for itself is reached by it, neither by somebody
# without a session nor by who has a first password.

. "$here/lib/front.sh"
if [ -z "$nginx" ] || ! has curl || ! has python3 || ! certify_front; then
  skip 'names of the site' 'nginx, curl, python3 or openssl is missing'
  return
fi
cat >sessions.py <<'END'
import http.server
import socketserver
import sys


class Sessions(http.server.BaseHTTPRequestHandler):
    def do_GET(self):
        is_right = self.headers["Cookie"] == "session=1" and self.headers["Host"] == sys.argv[2]
        self.send_response_only(200 if is_right else 401)
        self.send_header("Room-User", "alice")
        self.send_header("Content-Length", "0")
        self.end_headers()


socketserver.TCPServer(("127.0.0.1", int(sys.argv[1])), Sessions).serve_forever()
END
open_room F
set_list F / dacl list:a "A:fd:root:$ALL" A:fd:alice:rwxat A:fd:EVERYONE@:rx
start_room F 1000 || return
printf 'alice:{PLAIN}a\n' >rooms.htpasswd
admin setup
touch machine/etc/rooms/session.apache
sets office PASSWORDS session
sets office DATES who
start_front 'names of the site' tls || return
python3 sessions.py "$apache" "rooms.example:$secure" >sessions.out 2>&1 &
sessions=$!
base=https://rooms.example:$secure
reach=(--http1.1 --resolve "rooms.example:$secure:127.0.0.1" --cacert rooms.pem)
asked() { [ "$(curl -s -o "$work/body" -w '%{http_code}' "${reach[@]}" "$@")" = "$wanted" ]; }
began=$SECONDS
wanted=201
until asked -b session=1 "$base/doc/f" -X PUT --data-binary hello ||
  [ $((SECONDS - began)) -ge "$patience" ]; do sleep 0.1; done
ask 'a session counts at the name of the site' 200 hello '' /doc/f -b session=1
grep -o 'server_name [a-z]*\.invalid' sites-enabled/rooms | cut -d ' ' -f 2 | sort -u >names
holds 'nginx has servers for itself' grep -qx changes.invalid names
before=$(stat -c %s error.log)
while read -r name; do
  ask "none at $name" 401 - '' /doc/f -b session=1 -H "Host: $name"
  ask "nor for a change at $name" 401 - '' /doc/f -b session=1 -H "Host: $name" -X PUT -d x \
    -H 'Room-Name: office' -H 'Room-User: alice'
done <names
holds 'nor a line of what went wrong' [ "$(stat -c %s error.log)" = "$before" ]
# What asks that Apache without a session meets the limit of nobody, whatever it sends beside.
for place in /rooms/signed-in /folder/seen; do
  ask "$place" 401 - '' $place -H 'Authorization: Negotiate x' -H 'Accept: text/html'
  holds 'is limited' grep -q "\"GET $place\" 401 " rooms.log
done
kill "$sessions"
wait "$sessions" 2>/dev/null
stop_proxy

sets office PASSWORDS file
sets office DRIVE yes
printf 'carol:{PLAIN}given\n' >rooms.first
start_front 'first passwords' tls || return
base=https://rooms.example:$secure
ask 'one that counts' 200 hello alice:a /doc/f -H 'Host: changes.invalid'
grep -o 'server_name [a-z]*\.invalid' sites-enabled/rooms | cut -d ' ' -f 2 | sort -u >names
holds 'nginx has one for them too' grep -qx first.invalid names
while read -r name; do
  for target in /door/doc/f /door/zip/ /drive/f; do
    ask "a first one at $name, $target" 403 '{"why":"first"}' carol:given "$target" \
      -H "Host: $name" -H 'Room-Name: office/doc/f?'
  done
  ask "one that is too large, at $name" 403 '{"why":"first"}' carol:given /drive/f -X PUT \
    -H 'Content-Length: 99999999' -H "Host: $name" -H 'Room-Name: office/doc/f?'
done <names
stop_proxy
stop_server
gives 'sound' 0 'sound\n' '' verify F
