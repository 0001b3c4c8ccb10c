# A room behind nginx, by the file that rooms-admin writes: passwords, the caller's name, other
# rooms, slow callers and large ones, and ports that other users don't reach.

. "$here/lib/front.sh"
top=$here/..
if [ -z "$nginx" ] || ! has curl; then
  skip 'behind nginx' 'nginx or curl is missing'
  return
fi

open_room F
set_list F / dacl list:a "A:fd:root:$ALL" A:fd:alice:rwxa A:fd:bob:rx
start_room F 1000 || return
printf 'root:{PLAIN}r\nalice:{PLAIN}a\nbob:{PLAIN}b\n' >rooms.htpasswd
start_front 'behind nginx' || return

ask 'no password' 401 - '' /doc/f
ask 'a wrong password' 401 - alice:x /doc/f
ask 'alice makes a document' 201 '' alice:a /doc/f -X PUT --data-binary hello
ask 'bob reads it' 200 hello bob:b /doc/f
ask 'bob may not write' 403 '{"at":"/f","bits":"w","entry":null,"text":null}' \
  bob:b /doc/f -X PUT --data-binary x
ask 'bob is not root by saying so' 403 '{"at":"/f","bits":"w","entry":null,"text":null}' \
  bob:b /doc/f -X PUT --data-binary x -H 'Room-User: root'
ask 'nor in other letters' 403 '{"at":"/f","bits":"w","entry":null,"text":null}' \
  bob:b /doc/f -X PUT --data-binary x -H 'room-user: root' -H 'ROOM-USER: root'
ask 'its owner is alice' 200 '{"group":"staff","kind":"document","owner":"alice"}' root:r /attr/f
ask 'escapes go on as they came' 201 '' alice:a /doc/%C3%A9%20b -X PUT --data-binary x
ask 'and are one name' 200 '[{"kind":"document","name":"f"},{"kind":"document","name":"é b"}]' \
  alice:a /folder/
ask 'a slash that is escaped' 404 '{"at":"/g","why":"no-such"}' alice:a /doc/g%2Fh
ask 'rights in a query' 200 '{"r":"allowed 3","w":"silent"}' bob:b '/can/f?rw'
head -c 1048576 /dev/urandom >big
ask 'the greatest document' 201 '' alice:a /doc/big -X PUT --data-binary @big -H 'Expect:'
curl -s -u bob:b "http://127.0.0.1:$front/doc/big" >"$work/body"
same 'it comes back' "$work/body" big
printf x >>big
ask 'one byte more' 413 - alice:a /doc/big -X PUT --data-binary @big -H 'Expect:'
ask 'an upload in chunks' 204 '' \
  alice:a /doc/f -X PUT --data-binary @rooms.htpasswd -H 'Transfer-Encoding: chunked'
curl -s -u bob:b "http://127.0.0.1:$front/doc/f" >"$work/body"
same 'which came in whole' "$work/body" rooms.htpasswd

# What every answer says.
for target in / /style.css /none /me /doc/f /doc/none /folder/ /dacl/f '/can/f?r'; do
  more=
  [[ ! $target =~ ^/(doc|folder|dacl|can)/ ]] || more='; sandbox'
  says_all bob:b "$target" "$more"
  says_all bob:x "$target"
done
answer bob:b /doc/f
holds 'nothing of TLS without TLS' [ "$(grep -ci Strict-Transport-Security "$work/head")" = 0 ]
holds 'a document is a file' grep -qx $'Content-Disposition: attachment\r' "$work/head"
answer bob:b /folder/
holds 'a listing is none' [ "$(grep -c Content-Disposition "$work/head")" = 0 ]
answer bob:b /me
holds 'the page is told who asks' grep -qx $'Room-User: bob\r' "$work/head"
holds 'and which day it is on this machine' \
  grep -qE "^Room-Time: $(date +%F)T[0-9:]{8}[+-][0-9]{2}:[0-9]{2}"$'\r$' "$work/head"
answer bob:x /me
holds 'but not without the password' [ "$(grep -c Room-User "$work/head")" = 0 ]
ask 'the page' 200 - bob:b /
ask 'not without a password' 401 - '' /
ask 'what is neither the page nor a route' 404 - bob:b /nope
ask 'a route that the room judges' 404 '{"why":"no-route"}' bob:b /doc

# What nginx answers otherwise than the room: docs/http.md, Through nginx.
ask 'a document before its part is sent' 204 - alice:a /doc/f -X PUT --data-binary 0123456789
ask 'a part of a document' 400 - \
  alice:a /doc/f -X PUT --data-binary 6789 -H 'Content-Range: bytes 6-9/10'
ask 'is not put in its place' 200 0123456789 alice:a /doc/f
ask 'a chunked body' 204 - \
  alice:a /doc/f -X PUT --data-binary chunked -H 'Transfer-Encoding: chunked'
ask 'and all of it' 200 chunked alice:a /doc/f
ask 'a client that waits before its body' 204 - \
  alice:a /doc/f -X PUT --data-binary waited -H 'Expect: 100-continue'
ask 'and its body' 200 waited alice:a /doc/f
ask 'a target with a scheme and a host' 200 waited \
  alice:a /doc/f --request-target "http://127.0.0.1:$front/doc/f"

# A caller who sends slowly, and one who reads slowly: the others don't wait for them. Both take
# five seconds.
truncate -s 1048576 big
curl -s -o slow.out -w '%{http_code}' --limit-rate 200k -u alice:a -X PUT --data-binary @big \
  -H 'Expect:' "http://127.0.0.1:$front/doc/slow" >slow.status &
sender=$!
curl -s -o slow.body --limit-rate 200k -u bob:b "http://127.0.0.1:$front/doc/big" &
reader=$!
sleep 0.3
began=$SECONDS
ask 'a quick caller beside slow ones' 200 '{}' bob:b '/can/f?'
if kill -0 "$sender" 2>/dev/null; then
  pass
elif [ $((SECONDS - began)) -ge 4 ]; then
  skip 'the slow sender is still at it' 'this machine is slow itself'
else
  fail 'the slow sender is still at it' 'it has ended'
fi
wait "$sender" "$reader"
holds 'the slow upload ends well' [ "$(cat slow.status)" = 201 ]
curl -s -u bob:b "http://127.0.0.1:$front/doc/slow" >"$work/body"
same 'the slow upload is whole' "$work/body" big

# A caller who reads 12 MB and one who sends 1 MiB, at 100 bytes a second, and one who doesn't end
# its head: none of them is waited for. Every byte of a name is escaped in the listing.
ask 'a folder' 201 '' alice:a /folder/many -X POST
python3 -IBc 'import sys
sys.path.insert(0, sys.argv[1])
from pipelined import Room
room = Room(sys.argv[2])
for number in range(24000):
    room.ask("PUT", "/doc/many/" + 248 * "%22" + f"{number:05}")
room.send()' "$here/lib" "$place"
holds 'a listing of 12 MB' [ "$(curl -s -u bob:b "$base/folder/many" | wc -c)" -gt 12000000 ]
token=$(printf 'alice:a' | base64)
{
  printf 'GET /folder/many HTTP/1.1\r\nHost: x\r\nAuthorization: Basic %s\r\n\r\n' "$token" >&3
  while got=$(head -c 100 <&3 | wc -c) && [ "$got" -gt 0 ]; do
    : >reading
    sleep 1
  done
  : >read
} 3<>"/dev/tcp/127.0.0.1/$front" &
slow[1]=$!
{
  printf 'PUT /doc/half HTTP/1.1\r\nHost: x\r\nAuthorization: Basic %s\r\n' "$token" >&3
  printf 'Content-Length: 1048576\r\n\r\n' >&3
  while printf '%100s' '' >&3; do sleep 1; done
} 3<>"/dev/tcp/127.0.0.1/$front" 2>/dev/null &
slow[2]=$!
{ printf 'GET /doc/f HTTP/1.1\r\nHost:' >&3; sleep "$patience"; } 3<>"/dev/tcp/127.0.0.1/$front" &
slow[3]=$!
began=$SECONDS
until [ -e reading ] || [ $((SECONDS - began)) -ge "$patience" ]; do sleep 0.1; done
# The machine may be busy itself, so one of three is enough. A room that waits answers none of them.
quick=no
for try in 1 2 3; do
  if [ "$(curl -s -m 1 -o "$work/body" -w '%{http_code}' -u bob:b "$base/can/f?r")" = 200 ]; then
    quick=yes
    break
  fi
done
holds 'the next request is answered within a second' [ "$quick" = yes ]
holds 'beside a caller who still reads' is_missing read
kill "${slow[@]}"
wait "${slow[@]}" 2>/dev/null
ask 'what was sent in part is not there' 404 '{"at":"/half","why":"no-such"}' bob:b /doc/half

# Many at once: each gets its own answer.
for n in {1..20}; do
  curl -s -o "many.$n" -u alice:a -X PUT --data-binary "$n" "http://127.0.0.1:$front/doc/many$n" &
  many[n]=$!
done
wait "${many[@]}"
for n in {1..20}; do ask "one of many" 200 "$n" bob:b "/doc/many$n"; done

# The longest path.
makes_deepest '' alice:a bob:b

if has_six; then
  base=http://[::1]:$front
  ask 'no password over IPv6' 401 - '' /doc/deep
  ask 'IPv6' 201 '' alice:a /doc/six -X PUT --data-binary six
  ask 'is the same room' 200 six bob:b /doc/six
  base=http://127.0.0.1:$front
else
  skip 'nginx over IPv6' 'this machine has no loopback for IPv6'
fi

ask 'a document for later' 204 '' alice:a /doc/f -X PUT --data-binary kept

# Further rooms: invoices at a path, hr at a host. Users of one are no users of another.
answers() {
  [ "$(curl -s -o "$work/body" \
    -w '%{http_code}' ${reach[@]+"${reach[@]}"} ${2:+-u "$2"} "$base$3")" = "$1" ]
}
holds 'a room at a path' adds add --port 8790 --title 'Invoices & <orders>' invoices
holds 'a room at a host' adds add --port 8791 --host hr.example hr
take_front
printf 'carol:{PLAIN}c\nbob:{PLAIN}x\n' >rooms-invoices.htpasswd
printf 'dora:{PLAIN}d\n' >rooms-hr.htpasswd
open_room G
set_list G / dacl list:a "A:fd:carol:$ALL" A:fd:bob:rx
: >second.out
mkdir run/rooms/invoices
"$rooms" serve G --socket "$PWD/run/rooms/invoices/socket" --count 1000 \
  </dev/null >second.out 2>&1 &
second=$!
began=$SECONDS
until [ -s second.out ] || [ $((SECONDS - began)) -ge "$patience" ]; do sleep 0.05; done
reloaded answers 404 carol:c /invoices/doc/f
ask 'carol makes a document in the room at a path' 201 '' \
  carol:c /invoices/doc/f -X PUT --data-binary invoice
ask 'bob of that room reads it' 200 invoice bob:x /invoices/doc/f
ask 'bob of office does not' 401 - bob:b /invoices/doc/f
ask 'nor bob of that room in office' 401 - bob:x /doc/f
ask 'nor does alice' 401 - alice:a /invoices/doc/f
ask 'nor carol in office' 401 - carol:c /doc/f
ask 'nor who says to be root' 403 '{"at":"/f","bits":"w","entry":null,"text":null}' \
  bob:x /invoices/doc/f -X PUT --data-binary x -H 'Room-User: root'
ask 'nobody without a password' 401 - '' /invoices/doc/f
ask 'office has its own document' 200 kept bob:b /doc/f
ask 'escapes go on as they came' 201 '' carol:c /invoices/doc/%C3%A9%20b -X PUT --data-binary x
ask 'and are one name' 200 '[{"kind":"document","name":"f"},{"kind":"document","name":"é b"}]' \
  carol:c /invoices/folder/
ask 'a slash that is escaped' 404 '{"at":"/g","why":"no-such"}' carol:c /invoices/doc/g%2Fh
ask 'rights in a query' 200 '{"r":"allowed 2","w":"silent"}' bob:x '/invoices/can/f?rw'
ask 'a route that the room judges' 404 '{"why":"no-route"}' bob:x /invoices/doc
ask 'what is neither the page nor a route' 404 - bob:x /invoices/nope
for target in //invoices/doc/f /x/../invoices/doc/f /%69nvoices/doc/f /doc/../invoices/doc/f; do
  ask "another way to write it, $target" 400 - carol:c "$target" --path-as-is
done
ask 'a way out of it' 401 - carol:c /invoices/../doc/f --path-as-is
ask 'a way that the room judges' 400 '{"why":"bad-target P1"}' \
  carol:c /invoices/folder/../doc/f --path-as-is
makes_deepest /invoices carol:c bob:x
for target in /invoices/ /invoices/style.css /invoices/me; do says_all bob:x "$target"; done
for target in /invoices/doc/f /invoices/folder/; do says_all bob:x "$target" '; sandbox'; done
answer bob:x /invoices/doc/f
holds 'a document of a room at a path is a file' \
  grep -qx $'Content-Disposition: attachment\r' "$work/head"
for target in /invoices/folder/ /invoices/can/doc; do
  answer bob:x "$target"
  holds "$target is none" [ "$(grep -c Content-Disposition "$work/head")" = 0 ]
done
answer bob:x /invoices/me
holds 'the page there is told who asks' grep -qx $'Room-User: bob\r' "$work/head"
ask 'the page at a path' 200 - bob:x /invoices/
same 'is the same page' "$work/body" "$installed/share/rooms/page/index.html"
ask 'without a slash' 301 - bob:x /invoices
ask 'nobody is told so' 401 - '' /invoices
for field in 'Sec-Fetch-Site: cross-site' 'Origin: http://elsewhere.example'; do
  ask "PUT at a path, $field" 403 - carol:c /invoices/doc/f -X PUT --data-binary x -H "$field"
done
ask 'the start page, without a password' 200 - '' /rooms/
same 'has the rooms' "$work/body" machine/var/lib/rooms-front/start.html
holds 'by their titles' \
  grep -qF '<a href="/invoices/">Invoices &amp; &lt;orders&gt;</a>' "$work/body"
ask 'its style' 200 - '' /rooms/style.css
ask 'the start page without a slash' 301 - '' /rooms
ask 'the page itself still asks' 401 - '' /style.css
reach=(-H 'Host: hr.example')
ask 'the room at a host, of which no server runs' 502 - dora:d /doc/f
ask 'carol is nobody there' 401 - carol:c /doc/f
ask 'nor is alice' 401 - alice:a /doc/f
ask 'a path at that host is its own' 502 - dora:d /invoices/doc/f
reach=(-H 'Host: another.example')
ask 'the site answers for all other names' 200 kept bob:b /doc/f
reach=()

# Passwords are remembered.
cp rooms.htpasswd all.htpasswd
for turn in 1 2; do
  ask "alice, remembered $turn" 200 kept alice:a /doc/f
  ask "bob, remembered $turn" 200 kept bob:b /doc/f
  ask "bob with the password of alice $turn" 401 - bob:a /doc/f
  ask "alice with that of bob $turn" 401 - alice:b /doc/f
  ask "no password $turn" 401 - '' /doc/f
  ask "bob may not write $turn" 403 '{"at":"/f","bits":"w","entry":null,"text":null}' \
    bob:b /doc/f -X PUT --data-binary x
  ask "bob of the other room $turn" 200 invoice bob:x /invoices/doc/f
  ask "is nobody in office $turn" 401 - bob:x /doc/f
  ask "nor is bob of office there $turn" 401 - bob:b /invoices/doc/f
  ask "nor alice $turn" 401 - alice:a /invoices/doc/f
done
answer bob:b /me
holds 'the page is told who asks' grep -qx $'Room-User: bob\r' "$work/head"
holds 'and which day it is on this machine' \
  grep -qE "^Room-Time: $(date +%F)T[0-9:]{8}[+-][0-9]{2}:[0-9]{2}"$'\r$' "$work/head"
answer bob:x /doc/f
holds 'a wrong password is asked for again' \
  grep -qx $'WWW-Authenticate: Basic realm="rooms"\r' "$work/head"
for file in rooms rooms-invoices none; do
  ask "nobody asks for /password/$file from outside" 404 - alice:a "/password/$file"
done
word=$(printf 'alice:a' | base64)
ask 'two names at once' 400 - \
  '' /doc/f -H "Authorization: Basic $word" -H "Authorization: Basic $(printf 'root:r' | base64)"
ask 'a change by another site' 403 - \
  alice:a /doc/f -X PUT --data-binary x -H 'Origin: http://elsewhere.example'
ask 'an upload with a remembered password' 201 '' alice:a /doc/remembered -X PUT --data-binary yes
ask 'the start page asks for none' 200 - '' /rooms/
# Where names and passwords are: in the folder that has to be in memory, and in no other.
ask 'alice once more' 200 kept alice:a /doc/f
grep -rlF -e "$word" . 2>/dev/null | grep -v '^\./remembered/' >found
: >nothing
same 'no password is kept elsewhere' found nothing
holds 'it is where the page says' eval 'grep -rqF -e "$word" remembered'
holds 'which only one user reads' [ -z "$(find remembered -perm /077)" ]
holds 'and which is in memory as installed' \
  grep -q '^proxy_cache_path /run/' machine/etc/nginx/sites-available/rooms
holds 'without a way over the disk' \
  grep -q 'use_temp_path=off' machine/etc/nginx/sites-available/rooms
# Nobody else reaches what checks passwords: no port does, and the socket's folder is nginx's.
listening() { # PROCESS: the addresses at which it listens
  local inodes
  inodes=$(find "/proc/$1/fd" -printf '%l\n' | sed -n 's/^socket:\[\(.*\)\]$/\1/p' | tr '\n' ' ')
  awk -v inodes=" $inodes " \
    '$4 == "0A" && index(inodes, " " $10 " ") { print substr($2, length($2) - 3) }' /proc/net/tcp
}
listening "$proxy" | sort -u >found
printf '%04X\n' "$front" >wanted
same 'nginx listens at the port of the site alone' found wanted
asks_there() { # USER NAME:PASSWORD: what 80 tries in the name of another address are answered
  setpriv --reuid="$1" --regid="$1" --clear-groups curl -s -m 9 -o /dev/null -w '%{http_code}\n' \
    --unix-socket checks/passwords.sock -u "$2" \
    -H 'X-Real-IP: 192.0.2.7' 'http://x/password/rooms?[1-80]' |
    sort | uniq -c | awk '{ print $2 }'
}
if [ "$(id -u)" = 0 ] && has setpriv; then
  holds 'nobody has passwords checked there' [ "$(asks_there 65534 alice:x)" = 000 ]
  holds 'nor shuts another address out' [ "$(asks_there 65534 alice:a)" = 000 ]
  holds 'and nginx does' grep -q 204 <<<"$(asks_there 33 alice:a)"
else
  skip 'other users at the socket' 'no root, or no setpriv'
fi
# Tries are limited by network, by name, and for the whole site, whatever else differs. (This asks
# where nginx does, in the names of other addresses.)
guesses() { # NUMBER ADDRESS NAME [FORM]: how many got 401 and 429; N stands for which it is
  local n number
  for ((n = 1; n <= $1; n++)); do
    printf -v number "${4-%x}" "$n"
    printf '%s\n' "header = \"X-Real-IP: ${2//N/$number}\"" "user = \"${3//N/$n}:no\"" \
      'url = "http://x/password/rooms"' 'output = /dev/null' 'write-out = "%{http_code}\n"' \
      "unix-socket = \"$PWD/checks/passwords.sock\"" silent next
  done | sed '$d' >guesses
  curl -K guesses | sort | uniq -c | awk '{ n[$2] = $1 } END { print n[401] + 0, n[429] + 0 }'
}
between() { # NAME LEAST MOST GOT: of the first number
  holds "$1: $4" [ "${4% *}" -ge "$2" -a "${4% *}" -le "$3" ]
}
sleep 11 # so that all tries are there again
between 'addresses of one IPv6 network' 50 75 "$(guesses 120 2001:db8:1:2:N:5:6:7 'nN')"
sleep 7
between 'networks whose names have zeros' 80 80 "$(guesses 80 2001:db8:N::7 'oN')"
sleep 7
between 'addresses of IPv4' 80 80 "$(guesses 80 192.0.N.7 'pN' %d)"
sleep 7
between 'one name from many networks' 100 140 "$(guesses 190 2001:db8:3:N::7 carol)"
sleep 11
between 'many names from many networks' 200 300 "$(guesses 500 2001:db8:4:N::7 'qN')"
sleep 5
ask 'alice, soon' 200 kept alice:a /doc/f
# Who connects and says nothing is kept no longer than ten seconds.
began=$SECONDS
{ printf 'GET / HTTP/1.1\r\nX-' >&3; timeout 25 cat <&3 >said; } 3<>"/dev/tcp/127.0.0.1/$front"
holds 'a caller who stops in its head is let go' [ $((SECONDS - began)) -le 20 ]
# Who is removed gets in for ten seconds more, and no longer.
ask 'bob, before he is removed' 200 kept bob:b /doc/f
sed -i '/^bob:/d' rooms.htpasswd
began=$SECONDS
until answers 401 bob:b /doc/f || [ $((SECONDS - began)) -ge "$patience" ]; do sleep 0.5; done
holds 'bob is removed' answers 401 bob:b /doc/f
holds 'within the ten seconds' [ $((SECONDS - began)) -le 15 ]
began=$SECONDS
until [ -z "$(ls remembered)" ] || [ $((SECONDS - began)) -ge "$patience" ]; do sleep 0.5; done
holds 'and nothing is remembered any more' [ -z "$(ls remembered)" ]
cp all.htpasswd rooms.htpasswd
# Tries: some are checked, the others are not; who is remembered goes on, and others soon.
ask 'alice before the tries' 200 kept alice:a /doc/f
curl -s -o "$work/body" -w '%{http_code}\n' -u bob:wrong "$base/doc/f?[1-200]" | sort |
  uniq -c >tried
ask 'alice is remembered meanwhile' 200 kept alice:a /doc/f
holds 'most tries are not checked' \
  awk '{ n[$2] = $1 } END { exit !(n[401] >= 10 && n[429] >= 10 && n[401] + n[429] == 200) }' tried
began=$SECONDS
until answers 200 bob:b /doc/f || [ $((SECONDS - began)) -ge "$patience" ]; do sleep 0.5; done
holds 'bob with his own password, soon' answers 200 bob:b /doc/f
sleep 1
curl -s -o "$work/body" -w '%{http_code}\n' -u alice:a "$base/style.css?[1-500]" | sort |
  uniq -c >asked
holds 'a page that asks for much meets no limit' [ "$(awk '{ print $1, $2 }' asked)" = '500 200' ]
curl -s -o "$work/body" -w '%{http_code}\n' "$base/doc/f?[1-100]" | sort | uniq -c >asked
holds 'what has no password is asked for one' [ "$(awk '{ print $1, $2 }' asked)" = '100 401' ]
# Nor do these wait for one another. (The machine may be busy itself, so one of three is enough.)
waited=20
for turn in 1 2 3; do
  curl -s -Z --parallel-max 20 -o "$work/body" -w '%{time_total}\n' "$base/doc/f?[1-20]" \
    >times 2>said
  less=$(awk '$1 > 0.4' times | wc -l)
  [ "$less" -ge "$waited" ] || waited=$less
done
holds "many at once who have none: $waited of $(wc -l <times) waited" \
  [ "$waited" -le 2 -a "$(wc -l <times)" = 20 ]
says_all bob:b /doc/f '; sandbox'
# A room is taken away: nobody gets to it, and its file stays.
holds 'it is taken away' adds remove invoices
take_front
reloaded answers 404 alice:a /invoices/doc/f
ask 'it is not there any more' 404 - alice:a /invoices/doc/f
kill -9 "$second"
wait "$second" 2>/dev/null
gives 'its file is sound' 0 'sound\n' '' verify G

stop_server
ask 'no server behind it' 502 - bob:b /doc/f
stop_proxy
gives 'sound' 0 'sound\n' '' verify F
run audit F
holds 'nothing is on record' [ "$(wc -l <"$work/out")" = 1 ]

# The ports of rooms, closed to other users by a rule of the firewall, in a network of its own.
if [ "$(id -u)" != 0 ] || ! has nft || ! has ip || ! has setpriv ||
  ! getent passwd www-data >/dev/null ||
  ! unshare --net nft list ruleset >said 2>&1; then
  skip 'ports that are closed to other users' \
    'no root, or no nft, ip, setpriv, www-data, or network of its own'
  return
fi
page_block operating 'A port beside the socket' 3 >close
# It is loaded again, as after an upgrade, and where nothing of it is loaded.
printf '%s\n' "nft -f '$repo/deploy/systemd/rooms.nft'" "nft -f '$repo/deploy/systemd/rooms.nft'" \
  "$(<close) >listed" >close
for n in 8777 8780 8998 8999; do open_room "P$n"; done
cat >tried <<'END'
ip link set lo up
for n in 8777 8780 8998 8999; do
  "$1" serve "P$n" --port "$n" --count 100 >"listens.$n" 2>/dev/null &
  for turn in {1..500}; do [ ! -s "listens.$n" ] || break; sleep 0.02; done
done
reached() {
  for user in root www-data 65534; do
    for n in 8777 8780 8998 8999; do
      ! setpriv --reuid=$user --regid=0 --clear-groups \
        bash -c "exec 3<>/dev/tcp/127.0.0.1/$n" 2>/dev/null || echo -n "$user $n, "
    done
  done
  echo
}
reached
bash -eu close
reached
kill $(jobs -p)
END
unshare --net bash tried "$rooms" >got 2>said
both='root 8777, root 8780, root 8998, root 8999, www-data 8777, www-data 8780, www-data 8998, www-data 8999, '
printf '%s\n' "${both}65534 8777, 65534 8780, 65534 8998, 65534 8999, " "${both}65534 8999, " \
  >wanted
same "the rule closes them to all but root and the front end: $(head -c 200 said)" got wanted
holds 'loaded twice it is one rule' [ "$(grep -c 'tcp dport 8777-8998' listed)" = 1 ]
