# A user's own change of a password under attack: guesses, many at once, root at the same time, a
# kill at any moment, and what isn't nginx's form.

. "$here/lib/own-password.sh"
if lacks_own; then
  skip 'own passwords under attack' 'nginx, curl, htpasswd or setpriv is missing, or not root'
  return
fi
now='first one of alice'
{
  echo "alice:$(hash_of "$now")"
  echo "bob:$(hash_of 'first one of bob')"
  one=$(hash_of x)
  for n in {1..201}; do echo "user$n:$one"; done
} >all
start_own 'own passwords under attack' || return

# Rates.
for n in 1 2 3 4 5; do
  changes "wrong $n" 403 '{"why":"old"}' "alice:$now" "guess $n" 'third one of hers'
done
changes 'the sixth is not looked at' 429 '{"why":"tries"}' "alice:$now" "$now" \
  'third one of hers'
changes 'bob goes on' 204 '' 'bob:first one of bob' 'first one of bob' 'second one of his'
changes 'what was his is wrong now' 403 '{"why":"old"}' 'bob:second one of his' \
  'first one of bob' 'third one of his'
no_tries
for n in {1..40}; do
  code_of "alice:$now" "guess $n" 'third one of hers' &
  asking[n]=$!
done >codes
wait "${asking[@]}"
echo "  40 wrong ones at once: $(counts codes)"
holds '5 were tried at most' [ "$(grep -c 403 codes)" -le 5 ]
no_tries

# Two at once: each is whole, and both change their own.
sed -e "s|^alice:.*|alice:$(hash_of one-of-violet-0)|" \
  -e "s|^bob:.*|bob:$(hash_of one-of-robert-0)|" all >two
set_passwords two
sleep 11
many() { # USER WORD
  local n
  for n in {1..10}; do code_of "$1:one-of-$2-$((n - 1))" "one-of-$2-$((n - 1))" "one-of-$2-$n"; done
}
many alice violet >codes.alice &
one=$!
many bob robert >codes.bob &
wait $one $!
holds "ten of both: $(counts codes.alice codes.bob)" \
  [ "$(sort -u codes.alice codes.bob)" = 204 ]
ask 'alice has her last' 200 - alice:one-of-violet-10 /folder/
ask 'bob has his last' 200 - bob:one-of-robert-10 /folder/
holds 'nobody is lost' [ "$(wc -l <"$kept/rooms.htpasswd")" = 203 ]
# The same user several times: one wins.
for n in 1 2 3 4; do
  code_of alice:one-of-violet-10 one-of-violet-10 "winner-of-many-$n" >"codes.$n" &
  asking[n]=$!
done
wait "${asking[@]:1:4}"
winner=$(grep -l ^204 codes.[1-4])
winner=${winner##*.}
holds "one of four wins: $(cat codes.[1-4] | tr '\n' ' ')" \
  [ "$(cat codes.[1-4] | grep -c ^204)" = 1 ]
ask 'whose it is' 200 - "alice:winner-of-many-$winner" /folder/

# Root takes the name away while the new one is made.
mkdir slowly
printf '%s\n' '#!/bin/sh' "case \$1 in -niBC) : >'$PWD/slowly/begun'" \
  "  while [ -e '$PWD/slowly/held' ]; do sleep 0.02; done ;; esac" \
  "exec $(command -v htpasswd) \"\$@\"" >slowly/htpasswd
: >slowly/held
chmod 755 slowly/htpasswd
chmod 777 slowly
stop_keeper
PATH=$PWD/slowly:$PATH start_keeper
code_of bob:one-of-robert-10 one-of-robert-10 'another-one-of-his' got >code &
racing=$!
until [ -e slowly/begun ] || ! kill -0 $racing 2>/dev/null; do sleep 0.02; done
grep -v ^bob: "$kept/rooms.htpasswd" >left
set_passwords left
rm slowly/held
wait $racing
holds "a name that root removed meanwhile: $(cat code got)" \
  [ "$(tr -d '\n' <code)$(cat got)" = '409{"why":"changed"}' ]
holds 'stays away' [ "$(grep -c ^bob: "$kept/rooms.htpasswd")" = 0 ]
stop_keeper

# Killed at any moment: the file is whole.
json "winner-of-many-$winner" "winner-of-many-$winner+" | tr -d '\n' >body
{ # what nginx sends
  printf 'CONTENT_LENGTH\0%s\0SCGI\0001\0CONTENT_TYPE\0application/json\0' "$(stat -c %s body)"
  printf 'ROOM\0office\0ROOM_USER\0alice\0'
} >fields
{
  printf '%s:' "$(stat -c %s fields)"
  cat fields
  printf ,
  cat body
} >asked
before=$(md5sum <"$kept/rooms.htpasswd")
cp -p "$kept/rooms.htpasswd" was
began=$(date +%s%N)
service <asked >got 2>&1
took=$((($(date +%s%N) - began) / 1000))
changed=0 torn=0 left=0
for n in {1..100}; do
  cp -p was "$kept/rooms.htpasswd"
  no_tries
  # From a third of the time that a change takes to a third more.
  at=$((took / 3 + took * n / 100))
  service timeout -s KILL "$((at / 1000000)).$(printf %06d $((at % 1000000)))" <asked \
    >/dev/null 2>&1
  [ "$(md5sum <"$kept/rooms.htpasswd")" = "$before" ] || changed=$((changed + 1))
  if [ "$(wc -l <"$kept/rooms.htpasswd")" != 202 ] ||
    grep -qvE '^[a-z0-9]+:\$2y\$10\$.{53}$' "$kept/rooms.htpasswd"; then
    torn=$((torn + 1))
  fi
  [ ! -e "$kept/.rooms.htpasswd.new" ] || left=$((left + 1))
done 2>/dev/null
echo "  100 kills: $changed had changed it, $torn tore it, $left left an unfinished file beside it"
holds 'whole after each kill' [ "$torn" = 0 ]
cp -p was "$kept/rooms.htpasswd"
service <asked >got 2>&1
holds 'and the next one is done' grep -q '^Status: 204' got
holds 'with nothing left beside it' [ ! -e "$kept/.rooms.htpasswd.new" ]
cp -p was "$kept/rooms.htpasswd"

# What isn't nginx's form.
for bad in '' '5:' ':' '99999:x' '12:ab' '3:a\0b,' '-1:x' '000000000:x' \
  '20:CONTENT_LENGTH\0999\0,'; do
  # shellcheck disable=SC2059 (the bytes are escaped)
  printf -- "$bad" | service >got 2>got.err
  holds "the bytes '$bad': $(head -c 40 got | tr '\r\n' '  ')" grep -q '^Status: 4' got
done
sed 's/office/..\/..x/' asked >asked.bad
service <asked.bad >got 2>/dev/null
holds 'a room that is a path' grep -q '^Status: 4' got
printf '%s\n' x >"$kept/rooms-hr.first"
sed 's/office/hr.../' asked >asked.bad
service <asked.bad >got 2>/dev/null
holds 'a room that is another file' grep -q '^Status: 4' got

# Whoever took the service over: no file is theirs, and one line at a time is put, of the cost that
# rooms-admin writes. (A check of cost 31 takes hours, and nginx waits for each.)
cp -p was "$kept/rooms.htpasswd"
service sh -c "echo 'eve:x' >>'$kept/rooms.htpasswd'; : >'$kept/rooms-x.htpasswd'" <asked \
  >got 2>&1
holds 'the account writes no file' [ "$(md5sum <"$kept/rooms.htpasswd")" = "$before" ]
holds 'and makes none' [ ! -e "$kept/rooms-x.htpasswd" ]
read -r kind digest hash <<<"$(written 'line office alice')"
holds "it is told a line: $kind" [ "$kind $hash" = "own $(sed -n s/^alice://p was)" ]
costly=\$2y\$31\$$(printf 'a%.0s' {1..53})
for line in "put office alice $digest $costly" "put office alice $digest ${costly/31/11}" \
  "put office alice $digest {PLAIN}x" "put office alice $digest x" "put office alice x $hash" \
  "put office alice $digest $hash:x" "put office alice $digest $hash"$'\nput' 'put office alice' \
  "put ../x alice $digest $hash" "put office a:b $digest $hash" "line office alice $digest $hash" \
  'line office' '' "$(printf 'x%.0s' {1..399})"; do
  holds "'${line:0:30}' is refused" [ "$(written "$line")" = refused ]
done
holds 'of nobody' [ "$(written 'line office nobody')" = no-line ]
holds 'of no room' [ "$(written 'line hr alice')" = none ]
holds 'an older line' [ "$(written "put office alice ${digest//[0-9]/0} $hash")" = changed ]
holds 'nothing of that is there' [ "$(md5sum <"$kept/rooms.htpasswd")" = "$before" ]
holds 'a hash of the same cost' \
  [ "$(written "put office alice $digest ${costly/31/10}")" = done ]
holds 'is there' grep -qxF "alice:${costly/31/10}" "$kept/rooms.htpasswd"
cp -p was "$kept/rooms.htpasswd"

# What stands there is followed by nobody.
echo 'root:x:colon' >secret
chmod 600 secret
for trick in "ln -s $PWD/secret" mkfifo; do
  rm -f "$kept/rooms-hr.htpasswd"
  $trick "$kept/rooms-hr.htpasswd"
  printf '%s\n' "FILE=$PWD/F" "BACKUPS=$PWD" "PROGRAM=$rooms" UNIT=rooms@hr >hr.conf
  echo 'a new one of hers' | ROOMS_ROOT=$PWD/machine ROOMS_RUN=$PWD/run timeout 20 \
    "$repo/admin/rooms-admin" user add alice --room "$PWD/hr.conf" >got 2>got.err
  holds "rooms-admin follows no ${trick%% *}: $(head -n 1 got.err)" grep -q "can't be read" got.err
  holds 'and changes nothing' [ "$(cat secret)" = root:x:colon ]
done
rm -f "$kept"/rooms-hr.*

# The rate by address.
sed -i -e 's|6000r/m|10r/m|' -e 's/rooms_changes:/rooms_changes2:/' \
  -e 's/zone=rooms_changes /zone=rooms_changes2 /' sites-enabled/rooms
reload_front
start_keeper
for n in {1..30}; do
  curl -s -o /dev/null -w '%{http_code}\n' -u "alice:winner-of-many-$winner" "$base/password" \
    -H 'Content-Type: text/plain' --data-binary x
done >codes
echo "  30 in a row from one address: $(counts codes)"
holds 'twelve at most' [ "$(grep -c 415 codes)" -le 12 ]
holds 'no password is in a log' \
  eval '! grep -qs -e winner-of-many -e one-of-violet access.log error.log keeper.err'
