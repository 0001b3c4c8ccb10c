# What one user, one network and nobody can have nginx take: bytes of its log, files that wait for
# slow readers, connections to a door. What others get meanwhile.

. "$here/lib/front.sh"
. "$here/lib/door.sh"
if [ -z "$nginx" ] || ! has curl || ! has python3 || [ "$loopback" = no ]; then
  skip 'limits of nginx' 'no loopback, or nginx, curl or python3 is missing'
  return
fi
limits() { python3 "$here/lib/limits.py" "$@"; }
size_of() { stat -c %s "$1" 2>/dev/null || echo 0; }
open_room F
set_list F / dacl list:a "A:fd:alice:$ALL" A:fd:bob:rx
start_room F 1000000 || return
mkdir -p run/door
start_door office --drive yes
printf 'alice:{PLAIN}a\nbob:{PLAIN}b\n' >rooms.htpasswd
admin setup
sets office DRIVE yes
start_front 'limits of nginx' || return

# What the log has: a name that was checked, and no word that was searched for; and only that for
# which a limit is asked.
ask 'a document' 201 '' alice:a /doc/plan -X PUT --data-binary x
ask 'what is searched for' 200 - alice:a '/door/find/?dismissal'
ask 'a name that is typed' 401 - mallory:x /doc/plan -A 'of a browser' -e http://another.example/
ask 'without a password' 401 - '' /doc/plan
ask 'a method of somebody' 405 - alice:a /doc/plan -X "$(printf 'M%.0s' {1..2000})"
ask 'an earlier night' 502 - alice:a /earlier/nights
ask 'a document that is too large' 413 - alice:a /drive/plan -X PUT -H 'Content-Length: 99999999'
ask 'a body that is' 413 - alice:a /door/would -X POST -H 'Content-Length: 9999999'
ask 'a file of the page' 200 - alice:a /me
ask 'nothing' 404 - alice:a /none
printf -v long '/%s' "$(printf 'p%.0s' {1..99})"{,,,,,,,,,}
ask 'a long path' 404 - alice:a "/doc$long"
sed -E 's/\[.*\]/[]/; s/^[^ ]*/A/; s/ [0-9]+$//' rooms.log >got
printf 'A - %s\n' 'alice [] "PUT /doc/plan" 201' 'alice [] "GET /door/find/" 200' \
  '- [] "GET /doc/plan" 401' '- [] "GET /doc/plan" 401' 'alice [] "- /doc/plan" 405' \
  'alice [] "GET /earlier/nights" 502' 'alice [] "PUT /drive/plan" 413' \
  "alice [] \"GET $(head -c 600 <<<"/doc$long")\" 404" >wanted
same 'its log' got wanted
for word in dismissal mallory browser another.example; do
  holds "no $word" eval '! grep -q -e "$word" rooms.log error.log'
done
ask 'whether a password can be changed, for nobody' 401 - '' /password
ask 'whether there are earlier nights, for nobody' 401 - '' /earlier/
ask 'for who has a password' 204 '' alice:a /earlier/

# Whoever has no password, or types any: a file grows by some bytes, however many they send.
for typed in '' mallory:x; do
  before=$(($(size_of rooms.log) + $(size_of error.log)))
  sent=$(limits log "$front" 4 $typed)
  grown=$(($(size_of rooms.log) + $(size_of error.log) - before))
  holds "'$typed' sends $sent bytes, the logs grow by $grown" \
    [ "$sent" -gt 5000000 -a "$grown" -lt 450000 ]
done
before=$(($(size_of rooms.log) + $(size_of error.log)))
for n in {1..300}; do
  printf '%s\n' "url = \"$base/doc/x\"" 'request = PUT' 'header = "Content-Length: 99999999"' \
    'output = /dev/null' silent next
done | sed '$d' >larger
curl -K larger
curl -s -o "$work/body" "$base/doc/f?[1-2000]" -H 'Origin: http://another.example'
grown=$(($(size_of rooms.log) + $(size_of error.log) - before))
holds "what is refused before a password is asked for: $grown" [ "$grown" -lt 50000 ]
sleep 3
ask 'alice goes on' 200 x alice:a /doc/plan
for n in 1 2 3; do
  curl -s -o "$work/body.$n" -w '%{http_code}\n' "$base/doc/plan?[1-1500]" >met.$n &
  asking[n]=$!
done
wait "${asking[@]}"
sort met.? | uniq -c >met
holds "requests without a password are limited: $(tr -s ' \n' ' ' <met)" \
  awk '{ n[$2] = $1 } END { exit !(n[401] >= 60 && n[429] >= 300 && n[401] + n[429] == 4500) }' met
ask 'alice meets no such limit' 200 x alice:a /doc/plan

# A folder of 30 MB as ZIPs that bob doesn't take.
head -c 1000000 /dev/urandom >big
ask 'a folder' 201 '' alice:a /folder/large -X POST
for n in {1..30}; do
  curl -s --unix-socket "$place" -H 'Room-User: alice' -T big "http://x/doc/large/d$n"
done
# No other body than a document's goes to the door as it comes, where so few have a place.
head -c 1200000 /dev/zero >larger
ask 'a list that is too large' 413 - alice:a /door/dacl/plan -X PUT --data-binary @larger \
  -H 'If-Match: *'
holds 'is refused before the door' eval '! grep -q why "$work/body"'
ask 'a document' 413 - alice:a /door/doc/plan -X PUT --data-binary @larger \
  -H 'Transfer-Encoding: chunked' -H 'If-Match: *'
holds 'by the door' grep -qx '{"why":"too-large"}' "$work/body"

waiting() { # the bytes in files of nginx's that have no name
  local worker sum=0 one
  for worker in $(cat "/proc/$proxy/task/$proxy/children"); do
    for one in $(find "/proc/$worker/fd" -lname '*deleted*' -exec stat -Lc %s {} + 2>/dev/null); do
      sum=$((sum + one))
    done
  done
  echo "$sum"
}
held() { # NAME WHO TARGET NUMBER STATUSES: many that nobody reads, until let_go
  rm -f met
  mkfifo until
  limits holds "$front" "${@:2:3}" <until >met &
  holding=$!
  exec 9>until
  began=$SECONDS
  until [ -s met ] || [ $((SECONDS - began)) -ge "$patience" ]; do sleep 0.1; done
  holds "$1: $(cat met)" grep -qx -e "$5" met
}
let_go() {
  exec 9>&-
  wait "$holding"
  rm until
}
held 'ZIPs that bob does not take' bob:b /door/zip/large 20 '200: 1 429: 4.*'
holds "nothing of them waits on the disk: $(waiting)" [ "$(waiting)" -lt 3000000 ]
ask 'alice is answered beside them' 200 - alice:a '/door/find/?plan'
ask 'and gets a ZIP' 200 - alice:a /door/zip/large
let_go

# More checks of passwords at once than wait anywhere keep none of another network waiting.
sed -i -e 's/worker_connections 256/worker_connections 4096/' \
  -e 's/^daemon off;/& worker_rlimit_nofile 8192;/' nginx.conf
reload_front
limits crowd "$front" alice:a 700 $(cat "/proc/$proxy/task/$proxy/children") >met
holds "beside 700 checks five of others meet $(cat met)" \
  [ "$(tr ' ' '\n' <met | grep -c 200)" -ge 4 ]

# Of one user so many are asked of the door at once; who leaves counts until it has answered.
limits goes "$front" bob:b '/door/find/?plan' 1000 &
going=$!
for n in {1..20}; do
  curl -s -m 20 -o "$work/body" -w '%{http_code}\n' -u alice:a "$base/door/find/?plan"
done >met
wait "$going"
sort met | uniq -c >found
holds "alice is answered beside 1,000 that leave at once: $(tr -s ' \n' ' ' <found)" \
  [ "$(grep -cx 200 met)" = 20 ]

# Whoever is denied has no more than a pace: each may leave a record.
limits pace "$front" bob:b /dacl/plan 2600 >met &
going=$!
sleep 1
ask 'alice goes on meanwhile' 200 x alice:a /doc/plan
wait "$going"
holds "bob is denied $(cat met)" grep -Eq '^403: [0-9]+, and then [0-9]+$' met
holds 'a hundred a second once he had two thousand' \
  awk '{ exit !($NF > 100 && $NF <= 600) }' met

# Listings wait on the disk, those of one user so many at once.
printf -v name '%120s' ''
ask 'a folder of many' 201 '' alice:a /folder/many -X POST
for n in {1..9000}; do
  printf 'url = "http://x/doc/many/%s%d"\nrequest = PUT\nunix-socket = "%s"\n' "${name// /n}" "$n" \
    "$place"
  printf 'header = "Room-User: alice"\noutput = /dev/null\nsilent\nnext\n'
done | sed '$d' >many
curl -K many
listing=$(curl -s -u bob:b "$base/folder/many" | wc -c)
held "listings of $listing bytes" bob:b /folder/many 40 '200: 16 429: 24'
holds "16 of them wait on the disk at most: $(waiting)" [ "$(waiting)" -le $((16 * listing)) ]
ask 'bob reads a document meanwhile' 200 x bob:b /doc/plan
let_go
# What lies below many folders is asked by few at once.
deep=
for n in {1..18}; do
  deep+=/d
  curl -s -o /dev/null --unix-socket "$place" -H 'Room-User: alice' -X POST "http://x/folder$deep"
done
ask 'the same below many folders' 204 '' alice:a /move/many -X POST -d "{\"to\":\"$deep/many\"}"
held 'listings below many folders' bob:b "/folder$deep/many" 10 '200: 2 429: 8'
let_go
printf -v deep '/d%.0s' {1..104}
ask 'more folders than anybody has' 400 - alice:a "/can$deep"
stop_proxy

# Many networks of one house, and all addresses that this machine has, fill the log no faster than
# five. (Each of these sends 350 requests.)
start_front 'limits of many networks' || return
let_through() { # NAME TARGET TO MOST A-SECOND ADDRESS ..
  limits networks "$front" "$2" 350 "$3" "${@:6}" >met
  holds "$1: $(cat met)" awk -v most="$4" -v rate="$5" \
    '{ exit !($1 + $3 == 7000 && $1 >= most && $1 <= most + 1 + rate * ($5 + 1)) }' met
}
let_through 'addresses of this machine' /doc/plan 127.0.0.1 5000 100 127.3.{1..20}.1
let_through 'a page without a password' /rooms/style.css 127.0.0.1 5000 100 127.3.{1..20}.1
ask 'who has a password meets no such limit' 200 x alice:a /doc/plan
if [ "$(id -u)" = 0 ] && [ "$ROOMS_APART" = yes ] && has ip && has_six; then
  for n in {1..20}; do
    ip address add 192.0.2.$n/32 dev lo
    ip address add 2001:db8:5:$n::1/128 dev lo nodad
    ip address add 2001:db8:$n::1/128 dev lo nodad
  done
  let_through 'networks of one house' /doc/plan ::1 5000 100 2001:db8:5:{1..20}::1
  let_through 'other houses' /doc/plan ::1 7000 0 2001:db8:{1..4}::1 2001:db8:{6..20}::1 \
    2001:db8:1::1
  let_through 'other addresses' /doc/plan 127.0.0.1 7000 0 192.0.2.{1..20}
else
  skip 'networks of one house' 'no root, no network of its own, no ip, or no IPv6'
fi
stop_proxy

# By HTTP/2 a byte names a field of 4 kB that was sent once.
if certify_front && start_front 'limits of HTTP/2' tls; then
  before=$(size_of rooms.log)
  asked=$(limits names "$secure" 5)
  grown=$(($(size_of rooms.log) - before))
  holds "$asked requests by HTTP/2, the log grows by $grown" \
    [ "$asked" -gt 1000 -a "$grown" -lt 450000 ]
  holds 'it has some of them' grep -q ' - - \[.*\] "GET /" 401 ' rooms.log
  before=$(size_of error.log)
  limits handshakes "$secure" 200
  grown=$(($(size_of error.log) - before))
  holds "of 200 beginnings of TLS that nobody else makes, it grows by $grown" [ "$grown" = 0 ]
  # Whoever has no password has its memory by answers that they don't take.
  memory() {
    local worker
    for worker in $(cat "/proc/$proxy/task/$proxy/children"); do cat "/proc/$worker/status"; done |
      awk '/^VmRSS/ { sum += $2 } END { print sum }'
  }
  for cookies in 7 15; do
    stop_proxy
    start_front 'limits of HTTP/2' tls || return
    before=$(memory)
    rm -f met
    mkfifo until
    limits streams "$secure" 20 "$cookies" <until >met &
    holding=$!
    exec 9>until
    began=$SECONDS
    until [ -s met ] || [ $((SECONDS - began)) -ge "$patience" ]; do sleep 0.1; done
    grown=$((($(memory) - before) / 20))
    holds "a connection with answers that nobody takes, with $cookies cookies each: $grown kB" \
      [ "$grown" -gt 50 -a "$grown" -lt 1536 ]
    let_go
  done
  stop_proxy
  # Nor has anybody to say there how long a document is.
  sets office LARGEST 20
  start_front 'limits of HTTP/2' tls || return
  for method in PUT POST; do
    rm -f met
    mkfifo until
    python3 "$here/lib/unsized.py" "$secure" bob:b "$method" /door/doc/plan 6 8000000 \
      <until >met &
    holding=$!
    exec 9>until
    began=$SECONDS
    until [ -s met ] || [ $((SECONDS - began)) -ge "$patience" ]; do sleep 0.1; done
    holds "six of 8 MB by $method: $(waiting) bytes wait on the disk" \
      [ "$(waiting)" -le 6000000 ]
    let_go
  done
  stop_proxy
fi
stop_others
stop_server
gives 'sound' 0 'sound\n' '' verify F
