# A user changes the own password: what counts then, whose it is, other sites, what can't be one,
# and a first password.

. "$here/lib/own-password.sh"
if lacks_own; then
  skip 'own passwords' 'nginx, curl, htpasswd or setpriv is missing, or this is not root'
  return
fi
now='first one of alice'
{
  echo '# users of the office'
  echo "alice:$(hash_of "$now"):of the third floor"
  echo "bob:$(hash_of 'first one of bob')"
  echo 'eve:{PLAIN}first one of eve'
} >all
start_own 'own passwords' || return

# The way itself.
ask 'it can be changed here' 204 '' "alice:$now" /password
remembered=$(printf 'alice:%s' "$now" | base64 -w 0)
of_bob=$(printf 'bob:first one of bob' | base64 -w 0)
ask 'also as another program writes it' 200 - '' /folder/ -H "Authorization: basic  $remembered"
ask 'bob has one too' 200 - 'bob:first one of bob' /folder/
began=$(date +%s%N)
changes 'alice changes hers' 204 '' "alice:$now" "$now" 'second one, of hers'
echo "  one change through nginx: $((($(date +%s%N) - began) / 1000000)) ms"
ask 'the new one counts at once' 200 - 'alice:second one, of hers' /folder/
ask 'the old one no more, which was remembered' 401 - "alice:$now" /folder/
ask 'nor as another program writes it' 401 - '' /folder/ -H "Authorization: basic  $remembered"
holds 'nginx has nothing to say of that' eval '! grep -q remembered error.log'
holds 'what is remembered of others stays' grep -rqF "KEY: rooms Basic $of_bob" remembered
now='second one, of hers'
holds 'bcrypt of cost 10, and what stands behind it' \
  grep -qE '^alice:\$2y\$10\$[^:]{53}:of the third floor$' "$kept/rooms.htpasswd"
holds 'the others stay, in their places' \
  cmp -s <(grep -v ^alice: "$kept/rooms.htpasswd") <(grep -v ^alice: all)
holds 'owner, group and mode stay' \
  [ "$(stat -c '%u:%G:%a' "$kept/rooms.htpasswd")" = 0:www-data:640 ]

# Whose it is.
ask 'nobody without a password' 401 - '' /password -X POST -H "$as_json" \
  --data-binary "$(json "$now" 'third one of hers')"
changes 'a wrong one at nginx' 401 - alice:wrong "$now" 'third one of hers'
for field in 'Room-User: bob' 'ROOM_USER: bob' 'Room_User: bob' 'ROOM-USER: bob' \
  'REMOTE_USER: bob' 'Room-First: bob'; do
  changes "bob isn't asked for by $field" 403 '{"why":"old"}' "alice:$now" 'first one of bob' \
    'taken by alice' -H "$field"
  no_tries
done
ask 'nor in an address' 404 - "alice:$now" /password/bob -X POST -H "$as_json" \
  --data-binary "$(json 'first one of bob' 'taken by alice')"
ask 'nor by another room' 404 - "alice:$now" /hr/password -X POST -H "$as_json" \
  --data-binary "$(json "$now" 'third one of hers')"
ask 'nor in the body' 400 '{"why":"bad-body"}' "alice:$now" /password -X POST -H "$as_json" \
  --data-binary '{"old":"first one of bob","new":"taken by alice","user":"bob"}'
holds 'bob has his' cmp -s <(grep -v ^alice: "$kept/rooms.htpasswd") <(grep -v ^alice: all)

# Other sites.
for field in 'Sec-Fetch-Site: cross-site' 'Sec-Fetch-Site: same-site' \
  'Origin: http://elsewhere.example' 'Origin: null'; do
  changes "$field" 403 - "alice:$now" "$now" 'third one of hers' -H "$field"
done
for kind in text/plain application/x-www-form-urlencoded multipart/form-data ''; do
  ask "a form's type '$kind'" 415 '{"why":"type"}' "alice:$now" /password -X POST \
    -H "Content-Type:${kind:+ $kind}" --data-binary "$(json "$now" 'third one of hers')"
done
for method in PUT DELETE PATCH; do ask "$method" 405 - "alice:$now" /password -X $method; done
holds 'GET changes nothing' \
  cmp -s <(grep -v ^alice: "$kept/rooms.htpasswd") <(grep -v ^alice: all)

# What can't be a password.
changes short 422 '{"why":"short"}' "alice:$now" "$now" ninesigns
changes none 422 '{"why":"form"}' "alice:$now" "$now" ''
changes 'the same' 422 '{"why":"same"}' "alice:$now" "$now" "$now"
changes 'her name' 422 '{"why":"weak"}' "alice:$now" "$now" 'Alice-2026-11'
changes 'a common one' 422 '{"why":"weak"}' "alice:$now" "$now" 'Passwort2026!!'
changes 'two of these' 422 '{"why":"weak"}' "alice:$now" "$now" qwertzqwertz12
changes '73 bytes' 422 '{"why":"form"}' "alice:$now" "$now" "$(printf 'abcdefgh%.0s' {1..9})i"
changes 'a line end' 422 '{"why":"form"}' "alice:$now" "$now" $'abcdefghijk\nroot:x'
changes 'another one' 422 '{"why":"form"}' "alice:$now" "$now" $'abcdefghijk\rroot:x'
for sign in '\u0000' '\u0085' '\u2028' '\ud800' '\u200b' 'e\u0301'; do
  ask "the sign $sign" 422 '{"why":"form"}' "alice:$now" /password -X POST -H "$as_json" \
    --data-binary "{\"old\":\"$now\",\"new\":\"abcdefghijk$sign\"}"
done
ask 'bytes that are no text' 400 '{"why":"bad-body"}' "alice:$now" /password -X POST \
  -H "$as_json" --data-binary $'{"old":"x","new":"\xff\xfe"}'
for body in '' '[]' 1 '{}' '{"old":1,"new":2}' '{"old":"x"}' "$(printf '[%.0s' {1..1500})" \
  '{"old":"a","new":"b"}x'; do
  ask "the body ${body:0:30}" 400 '{"why":"bad-body"}' "alice:$now" /password -X POST \
    -H "$as_json" --data-binary "$body"
done
changes '3 kB' 413 - "alice:$now" "$now" "$(printf 'abcdefgh%.0s' {1..375})"
holds 'nothing of that counted' [ -z "$(find "$tries" -type f -size +0)" ]
changes 'a colon, quotes, an umlaut' 204 '' "alice:$now" "$now" 'x:y "ü" \ :$2y$10'
now='x:y "ü" \ :$2y$10'
ask 'and they count' 200 - "alice:$now" /folder/
long=$(printf 'kfmwpzgq%.0s' {1..8})1x2y3z4w
changes '72 bytes' 204 '' "alice:$now" "$now" "$long"
now=$long
ask 'all of them' 401 - "alice:${now%w}" /folder/
ask 'of them' 200 - "alice:$now" /folder/
changes 'one whom nginx knows in the clear' 403 '{"why":"old"}' 'eve:first one of eve' \
  'first one of eve' 'second one of eve'
no_tries

# A first password opens nothing but the page, and its change.
: >"$kept/rooms.first"
echo "carol:$(hash_of 'given to carol')" >"$kept/rooms.first"
set_passwords "$kept/rooms.htpasswd" 2>/dev/null
ask 'the page' 200 - 'carol:given to carol' /
ask 'a wrong one' 401 - 'carol:given to bob' /
answer 'carol:given to carol' /me
holds 'who it is' grep -qix 'Room-User: carol.' "$work/head"
holds 'and that it has to be changed' grep -qix 'Room-First: carol.' "$work/head"
answer "alice:$now" /me
holds 'nobody else has to' eval '! grep -qi Room-First "$work/head"'
for target in /folder/ /doc/x '/can/?r' /dacl/ /attr/ /door/folder/ /door/zip/ /door/doc/x; do
  ask "no $target" 403 '{"why":"first"}' 'carol:given to carol' "$target"
  ask 'also not by a field' 403 '{"why":"first"}' 'carol:given to carol' "$target" \
    -H 'Room-User: alice'
done
ask 'nor a change' 403 '{"why":"first"}' 'carol:given to carol' /doc/x -X PUT --data-binary x
head -c 1500000 /dev/zero >large
ask 'nor a large document' 403 '{"why":"first"}' 'carol:given to carol' /door/doc/x -T large \
  -H 'If-None-Match: *'
install -d "$PWD/root/var/lib/rooms-web/office/mine"
echo '{}' | tee root/var/lib/rooms-web/office/people.json \
  root/var/lib/rooms-web/office/mine/{carol,\*}.json >/dev/null
ask 'no names' 404 - 'carol:given to carol' /people
ask 'nor places' 404 - 'carol:given to carol' /mine
ask 'which others get' 200 - "alice:$now" /people
changes 'a short one' 422 '{"why":"short"}' 'carol:given to carol' 'given to carol' short
changes 'her own' 204 '' 'carol:given to carol' 'given to carol' 'walnuts in december'
ask 'opens the room' 403 - 'carol:walnuts in december' /folder/
holds 'whose lists deny her' grep -q '"at":"/"' "$work/body"
holds 'the first one is gone' [ ! -s "$kept/rooms.first" ]
sleep 11
ask 'and counts no more' 401 - 'carol:given to carol' /
holds 'no password is in a log' \
  eval '! grep -qs -e "given to carol" -e "$now" access.log error.log keeper.err'

# Where nobody changes an own one, nginx says who does.
admin add hr alice staff
sets hr OWN_PASSWORDS no
sets hr PORT 8790
admin add sales alice staff
touch machine/etc/rooms/directory.apache
sets sales PASSWORDS directory
admin setup
holds 'other rooms' [ "$status" = 0 ]
take_front
sed -i "s|auth_basic_user_file .*/|auth_basic_user_file $kept/|" sites-enabled/rooms
cp "$kept/rooms.htpasswd" rooms-hr.htpasswd
cp "$kept/rooms.htpasswd" "$kept/rooms-hr.htpasswd"
reload_front
# What asks the directory says that it is her.
python3 -c 'import http.server, sys
class Yes(http.server.BaseHTTPRequestHandler):
    def do_GET(self):
        self.send_response(200)
        self.send_header("Room-User", "alice")
        self.end_headers()
    def log_message(self, *given):
        pass
http.server.HTTPServer(("127.0.0.1", int(sys.argv[1])), Yes).serve_forever()' "$apache" &
others+=("$!")
until (exec 3<>"/dev/tcp/127.0.0.1/$apache") 2>/dev/null; do sleep 0.05; done
for method in GET POST; do
  ask "$method: root alone changes them" 404 '{"why":"file"}' "alice:$now" /hr/password \
    -X $method
  ask "$method: a directory has them" 404 '{"why":"directory"}' "alice:$now" /sales/password \
    -X $method
done
