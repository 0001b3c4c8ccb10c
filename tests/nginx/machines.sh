# A room on another machine, behind one front end: A has the site, the passwords and the page, B the
# room, and X is a stranger who reaches both. Each is a network namespace, or an address of the
# loopback where there are none. What is set up is what docs/machines.md says, in folders.

if [ "$loopback" = no ] || ! has curl || ! has openssl ||
  [ -z "$(command -v nginx || ls /usr/sbin/nginx 2>/dev/null)" ]; then
  skip 'a room on another machine' 'no loopback, or no curl, openssl, nginx'
  return
fi
. "$here/lib/earlier.sh"
top=$here/..
if [ "$(id -u)" != 0 ] || ! has unshare || ! unshare --mount true 2>/dev/null; then
  skip 'a room on another machine' 'no root, or no unshare'
  return
fi

# Namespaces of this case's own: A - B - X, with a link each.
spaces=()
make_spaces() {
  local space tag=rooms$$
  has ip || return
  for space in a b x; do
    ip netns add "$tag$space" || return
    spaces+=("$tag$space")
    ip -n "$tag$space" link set lo up || return
  done
  ip -n "${tag}a" link add to-b type veth peer name to-a netns "${tag}b" &&
    ip -n "${tag}x" link add to-b type veth peer name to-x netns "${tag}b" &&
    ip -n "${tag}a" address add 10.78.1.1/24 dev to-b &&
    ip -n "${tag}b" address add 10.78.1.2/24 dev to-a &&
    ip -n "${tag}x" address add 10.78.2.1/24 dev to-b &&
    ip -n "${tag}b" address add 10.78.2.2/24 dev to-x &&
    for space in 'a to-b' 'b to-a' 'x to-b' 'b to-x'; do
      # shellcheck disable=SC2086
      ip -n "$tag${space%% *}" link set ${space#* } up || return
    done
}
drop_spaces() {
  local space
  for space in ${spaces[@]+"${spaces[@]}"}; do ip netns delete "$space"; done
}
at_a=() at_b=() at_x=()
if make_spaces 2>said; then
  at_a=(ip netns exec "${spaces[0]}")
  at_b=(ip netns exec "${spaces[1]}")
  at_x=(ip netns exec "${spaces[2]}")
  address_a=10.78.1.1 address_b=10.78.1.2 address_bx=10.78.2.2
else
  skip 'network namespaces' "the loopback is used: $(head -c 200 said)"
  drop_spaces
  spaces=()
  address_a=127.0.0.2 address_b=127.0.0.3 address_bx=127.0.0.3
fi
echo "127.0.0.1 localhost
$address_b b.example false.example" >hosts

# Two machines, as deploy/install leaves them.
chmod 755 "$work" .
for machine in A B; do
  "$repo/deploy/install" --destdir "$PWD/$machine" --program "$rooms" >installed 2>&1 </dev/null
  mkdir -p "$machine/etc/nginx/conf.d" "$machine/t"
done
# The blocks of docs/machines.md with the folder of a machine in place of the root.
pasted() { # MACHINE TEXT-IN-THE-BLOCK
  awk -v text="$2" '
    /^```/ { if (inside && found) printf "%s", kept; inside = !inside; found = 0; kept = ""; next }
    inside { kept = kept $0 "\n"; if (index($0, text)) found = 1 }' "$top/docs/machines.md" |
    sed -e "s#/etc/#$PWD/$1/etc/#g" \
      -e "s#^rooms-admin certificate#ROOMS_ROOT=$PWD/$1 ROOMS_RUN=$PWD/run $repo/admin/&#" \
      -e "s#^rooms-admin \([a-z]*\)#$installed/sbin/rooms-admin \1 --destdir $PWD/$1#" \
      -e "s#^systemctl disable --now#systemctl --root=$PWD/$1 -q disable#" >block
  [ -s block ] || echo "echo no block with: $2 >&2; exit 1" >block
  bash -eu block >"$work/out" 2>"$work/err" </dev/null
}
done_so() { # NAME MACHINE TEXT
  if pasted "$2" "$3"; then pass; else fail "$1" "$(head -c 400 "$work/out" "$work/err")"; fi
}
mkdir run
done_so 'certificates' A 'certificate --machine b.example'
holds 'it says what is brought where' \
  grep -qF 'bring to b.example, into /etc/rooms/machines: /etc/rooms/machines/authority.pem, /etc/rooms/machines/b.example.pem as machine.pem, /etc/rooms/machines/b.example.key as machine.key' "$work/out"
# Another machine later: the authority and the front end's certificate stay.
cp -r A/etc/rooms/machines before
ROOMS_ROOT=$PWD/A ROOMS_RUN=$PWD/run "$repo/admin/rooms-admin" certificate --machine c.example \
  >"$work/out" 2>"$work/err" </dev/null
status=$?
told 'one for a further machine' 0 'certificate /etc/rooms/machines/c.example.pem for c.example'
rm A/etc/rooms/machines/c.example.*
holds 'leaves the others' diff -r before A/etc/rooms/machines
mkdir -p -m 700 B/etc/rooms/machines
for file in authority.pem machine.pem machine.key; do
  cp "A/etc/rooms/machines/${file/machine/b.example}" "B/etc/rooms/machines/$file"
done
holds 'nobody else reads the keys' \
  [ -z "$(find A/etc/rooms/machines B/etc/rooms/machines -name '*.key' -perm /077)" ]
verb() { # VERB MACHINE WORD ..
  "$installed/sbin/rooms-admin" "$1" --destdir "$PWD/$2" "${@:3}" </dev/null >"$work/out" \
    2>"$work/err"
  status=$?
}
adds() { verb add "$@"; }
site() { echo "$1/etc/nginx/sites-available/rooms"; } # MACHINE
refuses() { # NAME TEXT MACHINE WORD ..
  adds "${@:3}"
  if [ "$status" = 2 ] && grep -qF -e "$2" "$work/err"; then pass; else
    fail "$1" "status $status, wanted 2 and '$2': $(head -c 400 "$work/out" "$work/err")"
  fi
}
mv B/etc/rooms/machines machines
refuses 'a room behind no front end' 'no certificate' B --behind invoices
mv machines B/etc/rooms/machines
done_so 'the front end is let in, and a room made for it' B 'rooms-admin add --behind'
holds 'its place is for the front end alone' [ "$(grep -c \
  'listen 8443 ssl;\|"~^/invoices(/|\$)" invoices;\|"~^.^ .+ /invoices' "$(site B)")" = 2 ]
refuses 'without a certificate' 'no certificate' B --on b.example other
refuses 'a name that is none' 'bad host' A --on 'b;c' other
refuses 'a host beside it' 'bad arguments' A --on b.example --host other.example other
refuses 'owners beside it' 'bad arguments' A --on b.example other carol accounting
refuses 'both at once' 'bad arguments' A --on b.example --behind other
refuses 'a port that is none' 'bad port' A --on b.example --port 0 other
adds A --dry-run --on b.example invoices
holds 'what would be made' grep -qx 'would: file /etc/rooms/invoices.on' "$work/out"
holds 'is not made' [ ! -e A/etc/rooms/invoices.on -a "$(grep -c invoices "$(site A)")" = 0 ]
done_so 'its place at the front end' A 'rooms-admin add --on'
refuses 'the same name again' 'room exists: /etc/rooms/invoices.on' A --on b.example invoices
refuses 'a room of that name there' 'room exists: /etc/rooms/invoices.on' \
  A invoices carol accounting
holds 'the start page has it' \
  grep -qF '<a href="/invoices/">Invoices of the year</a>' A/var/lib/rooms-front/start.html

sed -i -e '/^LARGEST=/d' -e '$a LARGEST=5' A/etc/rooms/invoices.on
holds 'with documents of 5 MB' "$installed/sbin/rooms-admin" setup --destdir "$PWD/A"

# nginx of both, with their files; the ports are this case's own.
front=$((port + 1))
secure=$((port + 2))
room=$PWD/B/run/rooms/invoices
write_nginx() { # MACHINE ADDRESS
  local file
  find "$1/etc/nginx" -type f | while IFS= read -r file; do
    sed -i -e '/listen \[::\]/d' -e "s/listen 80;/listen $2:$front;/" \
      -e "s/listen 8443 /listen $secure /" -e "s#/etc/#$PWD/$1/etc/#g" \
      -e "s#/run/rooms-front#$PWD/$1/t#; s#/var/lib/rooms-\(front\|passwords\)#$PWD/$1&#" \
      -e "s#b.example:8443#b.example:$secure#" -e "s#unix:/run/rooms/#unix:$PWD/$1/run/rooms/#" \
      -e "s#unix:/run/rooms-door/#unix:$PWD/$1/run/door/#" \
      -e "s#unix:/run/rooms-earlier/#unix:$PWD/$1/run/rooms-earlier/#" \
      -e "s/_read_timeout 120s;/_read_timeout 8s;/" \
      -e "s#/var/log/nginx/error.log#$PWD/$1.log#; s#/var/log/nginx/#$PWD/$1.#" \
      -e "s#/run/rooms-full#$PWD/$1/full#" -e "s#/var/lib/rooms-changes#$PWD/$1/changes#" "$file"
  done
  {
    echo "daemon off; pid $PWD/$1.pid; error_log $PWD/$1.log; user root; worker_processes 1;"
    echo 'events { }'
    echo "http { access_log off; client_body_temp_path $PWD/$1/t/1; proxy_temp_path $PWD/$1/t/2;"
    echo "fastcgi_temp_path $PWD/$1/t/3; uwsgi_temp_path $PWD/$1/t/4; scgi_temp_path $PWD/$1/t/5;"
    echo 'include sites-enabled/*; }'
  } >"$1/etc/nginx/nginx.conf"
}
write_nginx A "$address_a"
write_nginx B "$address_b"
started=()
starts() { # NAME-OF-AN-ARRAY COMMAND ..: a process in a namespace, with hosts of its own
  local -n way=$1
  ${way[@]+"${way[@]}"} unshare --mount sh -c 'mount --bind "$0" /etc/hosts && exec "$@"' \
    "$PWD/hosts" "${@:2}" >>started.out 2>&1 </dev/null &
  started+=($!)
}
within() { # NAME COMMAND ..: it holds after a while
  local name=$1 began=$SECONDS
  shift
  until "$@" 2>/dev/null || [ $((SECONDS - began)) -ge "$patience" ]; do sleep 0.1; done
  holds "$name" "$@"
}
stop_machines() {
  local one
  for one in ${started[@]+"${started[@]}"}; do kill "$one" 2>/dev/null; done
  wait ${started[@]+"${started[@]}"} 2>/dev/null
  started=()
}

open_room F
set_list F / dacl list:a "A:fd:carol:$ALL" A:fd:bob:rx
: >listens
mkdir -p "$room"
starts at_b sh -c "exec '$rooms' serve F --socket '$room/socket' --count 100000 >listens"
server_b=${started[-1]}
within 'a server at B' [ -s listens ]
printf 'carol:{PLAIN}c\nbob:{PLAIN}b\n' >A/var/lib/rooms-passwords/rooms-invoices.htpasswd
chmod 644 A/var/lib/rooms-passwords/rooms-invoices.htpasswd
starts at_b "$nginx" -p "$PWD/B/etc/nginx" -c "$PWD/B/etc/nginx/nginx.conf"
nginx_b=${started[-1]}
starts at_a "$nginx" -p "$PWD/A/etc/nginx" -c "$PWD/A/etc/nginx/nginx.conf"
within 'nginx at B' [ -s B.pid ]
within 'nginx at A' [ -s A.pid ]

base=http://$address_a:$front/invoices
gets() { # NAME STATUS BODY USER:PASSWORD TARGET ARGUMENT ..; '-' is any body
  local got
  got=$(${at_a[@]+"${at_a[@]}"} curl -s -m "$patience" -o "$work/body" \
    -w '%{http_code}' ${4:+-u "$4"} "${@:6}" "$base$5")
  [ "$got" = "$2" ] || { fail "$1" "status $got, wanted $2: $(head -c 200 "$work/body")"; return; }
  [ "$3" = - ] && { pass; return; }
  printf '%s' "$3" >want
  same "$1" "$work/body" want
}
gets 'nobody without a password' 401 - '' /doc/f
gets 'a wrong password' 401 - carol:x /doc/f
gets 'the page' 200 - carol:c /
gets 'its script' 200 - carol:c /style.css
gets 'who asks' 200 - carol:c /me
gets 'an empty folder' 200 '[]' carol:c /folder/
gets 'a folder' 201 '' carol:c /folder/a -X POST
head -c 1048576 /dev/urandom >big
gets 'the greatest document' 201 '' carol:c /doc/a/big -X PUT --data-binary @big -H Expect:
${at_a[@]+"${at_a[@]}"} curl -s -u bob:b "$base/doc/a/big" >got
same 'it comes back' got big
gets 'escapes go on as they came' 201 '' carol:c '/doc/a/%C3%B6%20%C3%9F' -X PUT --data-binary x
gets 'a slash that is escaped' 404 '{"at":"/g","why":"no-such"}' carol:c /doc/g%2Fh
gets 'and are one name' 200 '[{"kind":"document","name":"big"},{"kind":"document","name":"ö ß"}]' \
  bob:b /folder/a
gets 'a move' 204 '' carol:c /move/a/big -X POST --data-binary '{"to":"/big"}'
gets 'a list' 200 - carol:c /dacl/a
gets 'that is set' 204 '' \
  carol:c /dacl/a -X PUT --data-binary "$(printf '%s\n' list:a "A:fd:carol:$ALL" A:fd:bob:rx)"
gets 'what one may' 200 '{"r":"allowed 2","w":"silent"}' bob:b '/can/big?rw'
gets 'owners' 200 '{"group":"staff","kind":"document","owner":"carol"}' carol:c /attr/big
gets 'a removal' 204 '' carol:c /object/big -X DELETE
# A's check asks there as nginx does.
mkdir looks
sed "s/^PORT=.*/PORT=$secure/" A/etc/rooms/invoices.on >looks/invoices.on
checks() { # NAME TEXT
  ${at_a[@]+"${at_a[@]}"} unshare --mount sh -c 'mount --bind "$0" /etc/hosts && exec "$@"' \
    "$PWD/hosts" env ROOMS_ROOT="$PWD/A" ROOMS_SETTINGS="$PWD/looks" ROOMS_RUN="$PWD/run" \
    "$repo/admin/rooms-admin" check --json --room invoices >"$work/out" 2>"$work/err" </dev/null
  holds "$1: $(head -c 400 "$work/out" "$work/err")" \
    [ "$(tr -d '\n' <"$work/out" | grep -cF "\"room\": \"invoices\",  $2")" = 1 ]
}
checks 'a room there' '"level": "ok",  "text": "b.example answers"'
mv looks/invoices.on looks/other.on
sed 's/b.example/false.example/' looks/other.on >looks/invoices.on
checks 'another machine in its place' '"level": "critical",  "text": "false.example doesn'
holds 'is known by its certificate' grep -q 'Hostname mismatch' "$work/out"
cp -r A/etc/rooms/machines kept-keys
cp B/etc/rooms/machines/machine.pem A/etc/rooms/machines/front.pem
cp B/etc/rooms/machines/machine.key A/etc/rooms/machines/front.key
mv looks/other.on looks/invoices.on
checks "who isn't the front end" \
  '"level": "critical",  "text": "b.example answers 400 for it: rooms-admin check on that machine"'
rm -r A/etc/rooms/machines
mv kept-keys A/etc/rooms/machines
# Its door is there too, and the front end here knows nothing of it.
gets 'no door yet' 502 - carol:c '/door/find/?x'
mkdir -p B/run/door/invoices B/changes/invoices
starts at_b python3 -IB "$repo/services/rooms_services/door/__main__.py" --room "$room/socket" \
  --listen "$PWD/B/run/door/invoices/socket" --drive=yes --dates=who \
  --changes "$PWD/B/changes/invoices" --largest=5
within 'a door at B' [ -S B/run/door/invoices/socket ]
gets names 200 \
  '{"all":true,"at":"/a","found":[{"kind":"document","path":"/a/ö ß"}],"unlisted":[]}' \
  bob:b '/door/find/a?SS'
gets 'a change' 201 '' carol:c /doc/a/dated -X PUT --data-binary 123
is_dated() {
  ${at_a[@]+"${at_a[@]}"} curl -s -u carol:c "$base/door/folder/a" >got
  grep -q '"name":"dated","size":3,"when":[0-9]*,"who":"carol"}' got
}
within 'is known there, and by whom' is_dated
holds 'and A has no line of it' is_missing A/changes
gets 'it goes' 204 '' carol:c /object/a/dated -X DELETE
head -c 3000000 /dev/urandom >large
gets 'a large document' 201 '' carol:c /door/doc/a/large -T large -H 'If-None-Match: *'
gets 'and one of no length' 204 '' carol:c /door/doc/a/large -T - -H 'If-Match: *' <large
${at_a[@]+"${at_a[@]}"} curl -s -u bob:b "$base/door/doc/a/large" >got
same 'comes back' got large
gets 'and goes' 204 '' carol:c /door/object/a/large -X DELETE
gets 'what was seen' 412 - carol:c /door/doc/a/%C3%B6%20%C3%9F -X PUT --data-binary y \
  -H 'If-None-Match: *'
gets 'not as somebody else' 403 - bob:b /door/dacl/a -X PUT --data-binary list: -H 'If-Match: *' \
  -H 'Room-User: carol'
gets 'a room without DRIVE' 404 - carol:c /drive/a -X PROPFIND -H 'Depth: 0'
denied='{"at":"/a","bits":"a","entry":null,"text":null}'
gets 'bob is bob' 403 - bob:b /doc/a/mine -X PUT --data-binary x
gets 'and not carol by saying so' 403 - \
  bob:b /doc/a/mine -X PUT --data-binary x -H 'Room-User: carol'
gets 'nor with other letters' 403 - \
  bob:b /doc/a/mine -X PUT --data-binary x -H 'room-user: carol' -H 'ROOM-USER: carol'
gets 'a change by another site' 403 - \
  carol:c /doc/a/x -X PUT --data-binary x -H 'Origin: http://elsewhere.example'
${at_a[@]+"${at_a[@]}"} curl -s -D head -o "$work/body" -u bob:b "$base/doc/a/%C3%B6%20%C3%9F"
holds 'a document is a file' grep -qx $'Content-Disposition: attachment\r' head
holds 'with the policy' grep -q '^Content-Security-Policy: ' head
mkdir B/full
: >B/full/invoices.full
gets 'a full room there' 507 - carol:c /doc/a/x -X PUT --data-binary x
gets 'is read' 200 x carol:c '/doc/a/%C3%B6%20%C3%9F'
rm -r B/full

# Its earlier nights are there too: backups of B, which its judge shows to whom A names.
gets 'without who judges' 502 - bob:b /earlier/nights
gets 'it is known that there are some' 204 '' bob:b /earlier/
if lacks_earlier; then
  skip 'earlier nights of a room on another machine' 'setpriv or python3 is missing'
else
  sed -i -e "s#^FILE=.*#FILE=$PWD/F#; s#^PROGRAM=.*#PROGRAM=$rooms#" \
    -e "s#^BACKUPS=.*#BACKUPS=$PWD/kept#" B/etc/rooms/invoices.conf
  gets 'a document' 201 '' carol:c /doc/a/plan -X PUT --data-binary 'the first plan'
  gets 'one that goes' 201 '' carol:c /doc/a/gone -X PUT --data-binary 'removed later'
  night=2026-11-01.030000
  mkdir -m 700 -p kept kept/invoices "kept/invoices/$night"
  kill -STOP "$server_b"
  cp F F-wal "kept/invoices/$night"
  kill -CONT "$server_b"
  echo 'number 1' >"kept/invoices/$night/run"
  chmod 600 "kept/invoices/$night"/*
  gets 'it is changed' 204 '' carol:c /doc/a/plan -X PUT --data-binary 'the second'
  gets 'it is removed' 204 '' carol:c /object/a/gone -X DELETE
  chgrp www-data "$room" "$room/socket"
  chmod 711 B B/run B/run/rooms
  chmod 770 "$room" "$room/socket"
  start_earlier B
  gets 'a night of it' 200 - bob:b /earlier/nights
  holds 'is that one' grep -qF "\"night\":\"$night\"" "$work/body"
  gets 'a document as it was' 200 'the first plan' carol:c "/earlier/$night/doc/a/plan"
  gets 'what is gone, for whom A names' 200 'removed later' carol:c "/earlier/$night/doc/a/gone"
  gets 'and not for bob' 403 '{"why":"now"}' bob:b "/earlier/$night/doc/a/gone"
  gets 'who says carol' 403 '{"why":"now"}' bob:b "/earlier/$night/doc/a/gone" -H 'Room-User: carol'
  gets 'nobody without a password' 401 - '' "/earlier/$night/doc/a/plan"
  gets 'another method' 405 - carol:c "/earlier/$night/doc/a/plan" -X PUT --data-binary x
  gets 'no such night' 404 '{"why":"no-night"}' bob:b /earlier/2026-11-02.030000/doc/a/plan
  ${at_a[@]+"${at_a[@]}"} curl -s -D head -o "$work/body" -u bob:b "$base/earlier/$night/doc/a/plan"
  holds 'it is a file' [ "$(grep -cx $'Content-Disposition: attachment\r' head)" = 1 ]
  holds 'and no page of the site' grep -q '^Content-Security-Policy: .*; sandbox' head
  # To open a night may take longer than any request to a room.
  kill -STOP "$(supervisor)"
  (sleep 10; kill -CONT "$(supervisor)") &
  gets 'a night that takes long' 200 'the first plan' carol:c "/earlier/$night/doc/a/plan"
  wait $!
  sed -i 's/^EARLIER=.*/EARLIER=no/' B/etc/rooms/invoices.conf
  gets 'B shows none any more' 404 '{"why":"no-earlier"}' bob:b /earlier/nights
fi

# Who else reaches B's port: what they get, and never a document.
machines=$PWD/A/etc/rooms/machines
signed() { # NAME AUTHORITY: a certificate for that name, by an authority
  openssl req -newkey ec -pkeyopt ec_paramgen_curve:P-256 -noenc -subj "/CN=$1" \
    -keyout "$2-$1.key" -out one.csr 2>/dev/null &&
    openssl x509 -req -in one.csr -days 2 -CAcreateserial -CA "$2.pem" -CAkey "$2.key" \
      -out "$2-$1.pem" 2>/dev/null
}
cp "$machines/authority.pem" "$machines/authority.key" .
openssl req -x509 -newkey ec -pkeyopt ec_paramgen_curve:P-256 -noenc -days 2 \
  -subj '/CN=Authority of the machines with rooms' -keyout other.key -out other.pem 2>/dev/null
signed rooms-other authority
signed rooms-front other
stranger() { # NAME STATUS ARGUMENT ..
  local got
  got=$(${at_x[@]+"${at_x[@]}"} curl -s -k -m "$patience" -o "$work/body" -w '%{http_code}' \
    -H 'Room-User: carol' "${@:3}" \
    "https://$address_bx:$secure/invoices/folder/")
  if [ "$got" = "$2" ] && ! grep -q kind "$work/body"; then
    pass
  else
    fail "$1" "$got instead of $2: $(head -c 200 "$work/body")"
  fi
}
stranger 'no certificate' 400
stranger 'one of the same authority with another name' 403 --cert authority-rooms-other.pem \
  --key authority-rooms-other.key
stranger 'one of another authority with that name' 400 --cert other-rooms-front.pem \
  --key other-rooms-front.key
stranger "the other machine's own" 400 --cert "$machines/b.example.pem" \
  --key "$machines/b.example.key"
stranger 'one that signed itself' 400 --cert other.pem --key other.key
got=$(${at_x[@]+"${at_x[@]}"} curl -s -m 5 -o "$work/body" -w '%{http_code}' \
  -H 'Room-User: carol' "http://$address_bx:$secure/invoices/folder/")
holds 'without TLS' [ "$got" = 400 ]
got=$(${at_x[@]+"${at_x[@]}"} curl -s -k -m "$patience" -o "$work/body" -w '%{http_code}' \
  --cert "$machines/front.pem" --key "$machines/front.key" \
  -H 'Room-User: carol' "https://$address_bx:$secure/invoices/folder/")
holds "whoever has the front end's key is every user, as the page says" [ "$got" = 200 ]
for target in /folder/ /office/folder/ /invoices/ //invoices/folder/ /x/../invoices/folder/; do
  got=$(${at_a[@]+"${at_a[@]}"} curl -s -k -m "$patience" -o "$work/body" -w '%{http_code}' \
    --cert "$machines/front.pem" --key "$machines/front.key" \
    --path-as-is -H 'Room-User: carol' "https://$address_b:$secure$target")
  holds "no other way leads to a room: $target" eval '[[ "$got" = 40[04] ]]'
done

# B is away; another machine has its address.
kill "$nginx_b"
wait "$nginx_b" 2>/dev/null
gets 'nginx of B is away' 502 - carol:c /folder/
gets 'the page is there' 200 - carol:c /
signed false.example authority
openssl x509 -req -in one.csr -days 2 -CA authority.pem -CAkey authority.key \
  -out authority-false.example.pem \
  -extfile <(printf '%s\n' subjectAltName=DNS:false.example) 2>/dev/null
cp authority-false.example.pem B/etc/rooms/machines/machine.pem
cp authority-false.example.key B/etc/rooms/machines/machine.key
rm -f B.pid
starts at_b "$nginx" -p "$PWD/B/etc/nginx" -c "$PWD/B/etc/nginx/nginx.conf"
within 'a machine of another name' [ -s B.pid ]
gets 'gets no request' 502 - carol:c /folder/
holds 'since its name is another' \
  grep -q 'upstream SSL certificate does not match "b.example"' A.log
stop_machines
stop_others
drop_spaces

# A machine whose room another one has taken over, and what is enabled there.
if has systemctl; then
  enabled() { find B/etc/systemd/system/*.wants -name 'rooms*' -printf '%f\n' 2>/dev/null | sort; }
  systemctl --root="$PWD/B" \
    -q enable rooms@{office,invoices}.service rooms-{nightly,standby,directory}@office.timer 2>said
  holds 'a machine that serves a room and sends it' [ "$(enabled | wc -l)" = 5 ]
  done_so 'is told to stop' B 'rooms-{nightly,standby,directory}@office.timer'
  holds 'and does neither any more' [ "$(enabled)" = rooms@invoices.service ]
else
  skip 'a machine whose room another one has taken over' 'systemctl is missing'
fi

# It is taken away again.
# (What this case has done with nginx's files isn't what was written.)
for machine in A B; do rm "$(site "$machine")"; verb setup "$machine"; done
verb remove A --dry-run invoices
holds 'what would be removed' grep -q '^would: /etc/rooms/invoices.on is removed$' "$work/out"
holds 'is there' [ -e A/etc/rooms/invoices.on ]
verb remove A invoices
holds 'the place is removed' \
  [ "$status" = 0 -a ! -e A/etc/rooms/invoices.on -a "$(grep -c invoices "$(site A)")" = 0 ]
holds 'the passwords stay' [ -s A/var/lib/rooms-passwords/rooms-invoices.htpasswd ]
holds 'the start page has it no more' [ -z "$(grep invoices A/var/lib/rooms-front/start.html)" ]
verb remove B invoices
holds 'the room is taken away at B' \
  [ "$status" = 0 -a "$(grep -c 'invoices\|8443' "$(site B)")" = 0 ]
gives 'its file is sound' 0 'sound\n' '' verify F
