# Other sites in a browser whose user is signed in: a browser sends passwords whichever site asks it
# to. What they cause is refused, and where their links lead has one answer, whatever the room has.

. "$here/lib/front.sh"
top=$here/..
if [ -z "$nginx" ] || ! has curl; then
  skip 'other sites' 'nginx or curl is missing'
  return
fi

open_room F
set_list F / dacl list:a "A:fd:root:$ALL" A:fd:alice:rwxa A:fd:bob:rx
start_room F 1000 || return
printf 'root:{PLAIN}r\nalice:{PLAIN}a\nbob:{PLAIN}b\n' >rooms.htpasswd
printf 'carol:{PLAIN}c\n' >rooms-invoices.htpasswd
admin setup
holds 'a room at a path' adds add --port 8790 invoices
start_front 'other sites' || return
ask 'alice makes a document' 201 '' alice:a /doc/f -X PUT --data-binary hello

for field in 'Sec-Fetch-Site: cross-site' 'Sec-Fetch-Site: same-site' 'Sec-Fetch-Site: other' \
  'Origin: http://elsewhere.example' 'Origin: null' "Origin: http://127.0.0.1:$port" \
  "Origin: https://127.0.0.1:$front" "Origin: http://127.0.0.1:$front.x"; do
  for method in POST PUT DELETE OPTIONS GET HEAD; do
    [ "$method" = HEAD ] && way=(-I) || way=(-X "$method")
    ask "$method, $field" 403 - alice:a /doc/f "${way[@]}" -H "$field"
  done
done
# A link, as in a mail that is read in the browser, leads to the page. Nothing that another site
# causes reaches the room: so no record says that somebody tried what they didn't.
ask 'a document that is watched' 201 '' alice:a /doc/watched -X PUT --data-binary x
ask 'records of all who try' 204 '' root:r /sacl/watched -X PUT --data-binary \
  $'list:\nU:SF:EVERYONE@:rcC\n'
linked() { # STATUS TARGET SITE MODE DEST ARGUMENT ..
  ask "$3 $4 $5: $2" "$1" - bob:b "$2" -H "Sec-Fetch-Site: $3" -H "Sec-Fetch-Mode: $4" \
    -H "Sec-Fetch-Dest: $5" "${@:6}"
}
for site in cross-site same-site; do
  for target in /folder/ /dacl/watched '/can/watched?r' /attr/watched /door/find/?x \
    /drive/watched /earlier/ /people /mine /password; do
    linked 403 "$target" $site navigate document
    linked 403 "$target" $site no-cors image
  done
  for way in 'no-cors image' 'navigate iframe' 'cors empty' 'no-cors script'; do
    linked 403 /doc/watched $site ${way% *} ${way#* }
    linked 403 / $site ${way% *} ${way#* }
  done
  linked 403 /doc/watched $site navigate document -X POST
done
# One to a document leads to its place there, whether it is there, may be read, or neither.
ask 'a document' 201 '' alice:a /doc/closed -X PUT --data-binary x
ask 'that bob may not read' 204 '' root:r /dacl/closed -X PUT --data-binary $'list:\nD::bob:r\n'
ask 'is refused' 403 - bob:b /doc/closed
led() { # ROOM PATH [QUERY]: the answer, but for its moment and where it leads
  answer "${who-bob:b}" "$1/doc$2${3-}" -H "Sec-Fetch-Site: $site" \
    -H 'Sec-Fetch-Mode: navigate' -H 'Sec-Fetch-Dest: document'
  sed -e '/^Date: /d' -e "s|^Location: $1/#$2?show\r|to its place|" "$work/head" "$work/body"
}
for site in cross-site same-site; do
  led '' /watched >wanted
  holds 'its place' [ "$(grep -cx -e $'HTTP/1.1 303 .*\r' -e 'to its place' wanted)" = 2 ]
  for place in /closed /none /watched/x / /%C3%A9%20b '/watched ?x'; do
    # shellcheck disable=SC2086
    led '' $place >got
    same "$place as what can be read" got wanted
  done
  who=carol:c led /invoices /f >got
  same 'in a room at a path' got wanted
done
records() { cp F F.copy && cp F-wal F.copy-wal && "$rooms" audit F.copy | grep -c ,bob,/watched,; }
holds 'no record is of them' [ "$(records)" = 0 ]
for site in cross-site same-site; do
  for target in / /me /rooms/ /style.css; do linked 200 $target $site navigate document; done
done
linked 200 /doc/watched same-origin cors empty
linked 200 /doc/watched none navigate document
ask 'a program says nothing of a site' 200 x bob:b /doc/watched
holds 'these are recorded' [ "$(records)" = 3 ]
for field in 'Sec-Fetch-Site: same-origin' 'Sec-Fetch-Site: none' \
  "Origin: http://127.0.0.1:$front"; do
  ask "PUT, $field" 204 - alice:a /doc/f -X PUT --data-binary x -H "$field"
done
ask 'one of both is foreign' 403 - \
  alice:a /doc/f -X PUT -H 'Sec-Fetch-Site: same-origin' -H 'Origin: http://elsewhere.example'

stop_proxy
stop_server
gives 'sound' 0 'sound\n' '' verify F
