# The pages that a browser shows where nginx itself answers: without a password, without a room,
# with a room that hangs, and where passwords can't be checked, each in the browser's language.

. "$here/lib/front.sh"
lacking=
[ -n "$nginx" ] || lacking='nginx'
has curl || lacking="$lacking curl"
if [ -n "$lacking" ]; then
  skip 'pages of errors' "missing: $lacking"
  return
fi

# The status is nginx's own, the page says it in words, and nothing else is in it than its style,
# which needs no password.
shows() { # NAME STATUS WORDS USER:PASSWORD TARGET ARGUMENT ..
  local name=$1 wanted=$2 words=$3
  ask "$name" "$wanted" - "${@:4}"
  holds "$name: in words" grep -qF "<h1>$words</h1>" "$work/body"
  holds "$name: one file beside" \
    [ "$(grep -oE '(href|src)="[^"]+"' "$work/body")" = 'href="/rooms/style.css"' ]
}
# Each in English, German and French.
shows_each() { # NAME STATUS ENGLISH GERMAN FRENCH USER:PASSWORD TARGET ARGUMENT ..
  local name=$1 wanted=$2 english=$3 german=$4 french=$5
  shift 5
  shows "$name" "$wanted" "$english" "$@"
  holds "$name: in English" grep -qF '<html lang="en">' "$work/body"
  shows "$name, for a browser of German" "$wanted" "$german" "$@" -H 'Accept-Language: de'
  holds "$name: in German" grep -qF '<html lang="de">' "$work/body"
  shows "$name, for a browser of French" "$wanted" "$french" "$@" \
    -H 'Accept-Language: fr-CA,fr;q=0.9,en;q=0.8'
  holds "$name: in French" grep -qF '<html lang="fr">' "$work/body"
}
awaits_nobody() {
  [ "$(curl -s -o "$work/body" -w '%{http_code}' -u alice:a "$base/can/?")" = "$1" ]
}

printf 'alice:{PLAIN}a\n' >rooms.htpasswd
open_room F
head -c 2000000 /dev/zero >large
set_list F / dacl list:a "A:fd:alice:$ALL"
start_room F 1000 || return
admin setup
sets office DRIVE yes
start_front 'pages of errors' || return
ask 'the room answers' 200 '[]' alice:a /folder/
for target in / /folder/ /index.html /nothing; do
  shows "no password at $target" 401 'You aren’t signed in' '' "$target"
done
shows_each 'a wrong password' 401 'You aren’t signed in' 'Sie sind nicht angemeldet' \
  'Vous n’êtes pas connecté' alice:b /folder/
# The first one of the browser's that there is, and else English.
german='Sie sind nicht angemeldet'
english='You aren’t signed in'
for languages in de-CH DE,en 'it,de;q=0.7,en;q=0.3' 'es-ES, de-DE, fr' 'it;q=1,de-AT;q=0.9'; do
  shows "German for $languages" 401 "$german" '' / -H "Accept-Language: $languages"
done
many=$(printf 'it,%.0s' {1..300})
for languages in '' en-GB,de it den,fry it,en,de,fr '*' x-de , "$many"; do
  shows "English for '${languages:0:40}'" 401 "$english" '' / -H "Accept-Language: $languages"
done
# Blanks can be taken in two ways each: nginx went through a million of them, without a password.
shows 'English for many blanks' 401 "$english" '' / \
  -H "Accept-Language: $(printf ', %.0s' {1..300})x de"
holds 'which it goes through once' [ "$(grep -c pcre error.log)" = 0 ]
holds 'the browser asks for it' [ "$(curl -s -D - -o /dev/null "$base/" | tr -d '\r' |
  grep -i '^www-authenticate:')" = 'WWW-Authenticate: Basic realm="rooms"' ]
holds 'under the same policy' \
  grep -qi "^Content-Security-Policy: default-src 'none'" <(curl -s -D - -o /dev/null "$base/")
ask 'its style' 200 - '' /rooms/style.css
same 'is that of the page' "$work/body" "$installed/share/rooms/page/style.css"
ask 'nobody asks for them' 404 - '' /rooms/errors/502.html
ask 'nor for those of a language' 404 - '' /rooms/errors/502.de.html

# What the room says of itself stays as it is.
ask 'nothing at that place' 404 '{"at":"/none","why":"no-such"}' alice:a /doc/none

# A room that hangs, for longer than nginx waits.
sed -i 's/proxy_read_timeout [0-9]*s;/proxy_read_timeout 1s;/' sites-enabled/rooms
reload_front
kill -STOP "$server"
shows_each 'a room that hangs' 504 'The room took too long to answer' \
  'Der Raum brauchte zu lange für die Antwort' 'La salle a mis trop longtemps à répondre' \
  alice:a /folder/
shows 'a change meanwhile' 504 'The room took too long to answer' alice:a /folder/new -X POST
kill -CONT "$server"
reloaded awaits_nobody 200

stop_server
shows_each 'no room' 502 'The room doesn’t answer at the moment' \
  'Der Raum antwortet im Moment nicht' 'La salle ne répond pas pour le moment' alice:a /folder/
shows 'no room for a document' 502 'The room doesn’t answer at the moment' alice:a /doc/f -X PUT \
  --data-binary x
shows 'no door for one in place' 502 'The room doesn’t answer at the moment' alice:a /drive/f
shows 'nor for a large one' 502 'The room doesn’t answer at the moment' alice:a /drive/f -X PUT \
  --data-binary "@$PWD/large"

# Passwords that nobody checks.
sed -i 's#unix:[^ ;]*/checks-[$]room_checks#unix:/nowhere/checks#' sites-enabled/rooms
reloaded awaits_nobody 503
shows_each 'nobody checks passwords' 503 'Passwords can’t be checked' \
  'Kennwörter können nicht geprüft werden' 'Les mots de passe ne peuvent pas être vérifiés' \
  alice:a /folder/
