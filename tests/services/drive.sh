# Documents edited in place: litmus, which tries what RFC 4918 asks of a server, and what curl sends
# to the door behind nginx: lists and owners that stay, locks, another room's place, large bodies.

. "$here/lib/front.sh"
. "$here/lib/door.sh"
if ! has python3 || [ -z "$nginx" ] || ! has curl || [ "$loopback" = no ]; then
  skip 'documents edited in place' 'no loopback, or python3, nginx or curl is missing'
  return
fi
for room in F G; do
  open_room $room
  set_list $room / dacl list:a "A:fd:root:$ALL" A:fd:alice:rwxact A:fd:bob:rwxact A::carol:x
done
start_room F 1000000 || return
mkdir -p machine/etc/nginx run/rooms/invoices
"$rooms" serve G --socket "$PWD/run/rooms/invoices/socket" --count 1000000 >G.out 2>&1 &
others+=($!)
within_time() { # COMMAND ..
  local began=$SECONDS
  until "$@" || [ $((SECONDS - began)) -ge "$patience" ]; do sleep 0.05; done
}
within_time [ -S run/rooms/invoices/socket ]
printf 'root:{PLAIN}r\nalice:{PLAIN}a\nbob:{PLAIN}b\ncarol:{PLAIN}c\n' >rooms.htpasswd
cp rooms.htpasswd rooms-invoices.htpasswd
chmod 644 rooms-invoices.htpasswd
admin setup
admin add invoices
holds 'another room' [ "$status" = 0 ]
sets office DRIVE yes
sets office LARGEST 2
start_front 'documents edited in place' || return
start_door office --drive=yes
start_door invoices --drive=yes

ask 'a room without DRIVE' 404 - alice:a /invoices/drive/ -X PROPFIND -H 'Depth: 0'
ask 'has its door' 200 - alice:a /invoices/door/below/
sets invoices DRIVE yes
admin setup
holds 'with it' [ "$status" = 0 ]
take_front
reload_front
ask 'is taken' 207 - alice:a /invoices/drive/ -X PROPFIND -H 'Depth: 0'
holds 'its addresses have its place' grep -qF '<D:href>/invoices/drive/</D:href>' "$work/body"

if has litmus; then
  litmus -k "$base/drive/" root r 2>&1 | tr '\r' '\n' >litmus
  grep -E '^<- summary' litmus | tr -s ' ' >summary
  # Properties of a client's own are refused, since the room has no place for them.
  printf '%s\n' \
    "<- summary for \`basic': of 16 tests run: 16 passed, 0 failed. 100.0%" \
    "<- summary for \`copymove': of 13 tests run: 13 passed, 0 failed. 100.0%" \
    "<- summary for \`props': of 14 tests run: 11 passed, 3 failed. 78.6%" \
    "<- summary for \`locks': of 41 tests run: 38 passed, 3 failed. 92.7%" \
    "<- summary for \`http': of 4 tests run: 4 passed, 0 failed. 100.0%" >wanted
  same 'litmus passes all but the six of PROPPATCH' summary wanted
  grep -E 'FAIL ' litmus | sed 's/^ *//' >failures
  holds "these six: $(tr '\n' ' ' <failures)" [ "$(wc -l <failures)" = 6 ]
  holds 'by what they say' [ "$(grep -c -e PROPPATCH -e 'No value given' failures)" = 6 ]
else
  skip 'litmus' 'it is missing'
fi

dav() { # NAME STATUS USER:PASSWORD METHOD PATH ARGUMENT ..
  ask "$1" "$2" - "$3" "/drive$5" -X "$4" "${@:6}"
}
info='<D:lockinfo xmlns:D="DAV:"><D:lockscope><D:exclusive/></D:lockscope>'
info+='<D:locktype><D:write/></D:locktype></D:lockinfo>'
lock() { # USER:PASSWORD PATH: its token is in 'token'
  answer "$1" "/drive$2" -X LOCK -H 'Depth: 0' -d "$info"
  token=$(sed -n 's/^Lock-Token: \(.*\)\r$/\1/p' "$work/head")
}

# A save in place keeps list and owner; one by renaming too.
ask 'a document' 201 '' alice:a /doc/letter.odt -X PUT --data-binary one
ask 'with a list of its own' 204 '' root:r /dacl/letter.odt -X PUT --data-binary "list:ap
A::root:$ALL
A::alice:rwact
A::bob:rwac
"
answer root:r /dacl/letter.odt
cp "$work/body" list
lock alice:a /letter.odt
holds 'a lock' [ -n "$token" ]
dav 'another user meanwhile' 423 bob:b PUT /letter.odt --data-binary two
dav 'with her token' 412 bob:b PUT /letter.odt --data-binary two -H "If: ($token)"
dav 'nor ends it' 409 bob:b UNLOCK /letter.odt -H "Lock-Token: $token"
dav 'is told who has it' 207 bob:b PROPFIND /letter.odt -H 'Depth: 0'
holds 'and not its token' [ "$(grep -cF -e "${token:1:-1}" "$work/body")" = 0 ]
dav 'a save' 204 alice:a PUT /letter.odt --data-binary two -H "If: ($token)"
ask 'is there' 200 two alice:a /doc/letter.odt
answer root:r /dacl/letter.odt
same 'its list is as it was' "$work/body" list
# The door is killed, and the next one knows the lock.
kill -9 "${doors[0]}"
wait "${doors[0]}" 2>/dev/null
start_door office --drive=yes
dav 'after a kill' 423 bob:b PUT /letter.odt --data-binary three
dav 'and its user' 204 alice:a PUT /letter.odt --data-binary three -H "If: ($token)"
dav 'ends it' 204 alice:a UNLOCK /letter.odt -H "Lock-Token: $token"
dav 'then others save' 204 bob:b PUT /letter.odt --data-binary four
lock alice:a /letter.odt
dav 'not while somebody has it' 423 bob:b PUT /letter.odt --data-binary four
awk '/^```/ { if (inside && text ~ /UNLOCK/) printf "%s", text; inside = !inside; text = ""; next }
  inside { text = text $0 "\n" }' "$repo/docs/drive.md" |
  sed "s|/run/rooms-door/|$PWD/run/door/|; s|/letters/reply.odt|/letter.odt|" >one-lock
bash one-lock >"$work/out" 2>&1
dav 'until root ends it, as the page says' 204 bob:b PUT /letter.odt --data-binary four
dav 'a rename of what has a list of its own' 403 root:r MOVE /letter.odt \
  -H "Destination: $base/drive/~WRL1.tmp"
dav 'a file of a program' 201 root:r PUT /new.tmp --data-binary five
dav 'over it' 204 root:r MOVE /new.tmp -H "Destination: $base/drive/letter.odt"
ask 'gives its bytes' 200 five alice:a /doc/letter.odt
answer root:r /dacl/letter.odt
same 'and the list stays' "$work/body" list
ask 'and the owner' 200 '{"group":"staff","kind":"document","owner":"alice"}' \
  root:r /attr/letter.odt
dav 'who may not get there' 403 carol:c PUT /letter.odt --data-binary x
dav 'nor lock' 403 carol:c LOCK / -d "$info"
dav 'to another room' 404 root:r MOVE /letter.odt -H "Destination: $base/invoices/drive/letter.odt"
dav 'to another server' 502 root:r MOVE /letter.odt -H 'Destination: http://x.example/drive/a'
ask 'a room at a path' 201 - alice:a /invoices/drive/a -X PUT --data-binary a
ask 'is named by its whole path' 404 - alice:a /invoices/drive/a -X MOVE \
  -H "Destination: $base/drive/b"
ask 'and moves so' 201 - alice:a /invoices/drive/a -X MOVE \
  -H "Destination: $base/invoices/drive/b"
ask 'and is there' 200 a alice:a /invoices/doc/b

# What isn't taken.
for target in /a%2Fb /a%00 /%ff '/a?x' //a; do
  dav "the target $target" 400 alice:a PUT "$target" --data-binary x --path-as-is
done
dav 'entities' 400 alice:a PROPFIND / -H 'Depth: 0' \
  -d '<!DOCTYPE a [<!ENTITY b SYSTEM "file:///etc/passwd">]>
    <propfind xmlns="DAV:"><prop><c>&b;</c></prop></propfind>'
for field in 'Origin: https://x.example' 'Sec-Fetch-Site: cross-site'; do
  for method in GET PUT PROPFIND LOCK DELETE OPTIONS; do
    dav "$method of another site ($field)" 403 alice:a "$method" /letter.odt -H "$field" -d ''
  done
done
answer alice:a /drive/letter.odt
holds 'a browser saves it' grep -qi '^content-disposition: attachment' "$work/head"
head -c 2097153 /dev/zero >big
lock alice:a /big.odt
dav 'too large' 413 alice:a PUT /big.odt --data-binary @big -H "If: ($token)" -H 'Expect:'
holds 'in words' grep -qF 'a document has at most 2097152 bytes' "$work/body"
dav 'is given up' 204 alice:a UNLOCK /big.odt -H "Lock-Token: $token"
ask 'and nothing took its place' 404 - alice:a /doc/big.odt
mkdir -p run/rooms-full
: >run/rooms-full/office.full
for method in PUT MKCOL COPY LOCK; do
  dav "$method in a full room" 507 alice:a $method /new -H "Destination: $base/drive/x"
done
dav 'what makes room' 204 root:r DELETE /letter.odt
rm run/rooms-full/office.full
for file in F G; do cp $file $file.copy; cp $file-wal $file.copy-wal; done
gives 'the room is sound' 0 'sound\n' '' verify F.copy
