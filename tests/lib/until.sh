# A room at a socket, whose lists get accesses with an end date, and the nights that rooms-admin
# until reads. Where that can't be, the status isn't 0.

. "$here/lib/people.sh"
if ! plays_people; then
  skip 'end dates' 'no loopback, curl, setsid or /usr/bin/python3'
  return 1
fi
make_people
as_user "$rooms" init "$PWD/office/F" alice staff >/dev/null
printf '%s\n' list:a "A:fd:alice:$ALL" D:d:EVERYONE@:Dd A::AUTHENTICATED@:xt |
  as_user "$rooms" reset "$PWD/office/F" / dacl >/dev/null
# Each look at a list and each change of one, granted or not, is recorded.
printf '%s\n' list:a U:fdSF:EVERYONE@:cC |
  as_user "$rooms" reset "$PWD/office/F" / sacl >/dev/null
starts_at_socket
over=$(date -d '3 days ago' +%F)
yesterday=$(date -d yesterday +%F)
today=$(date +%F)
later=$(date -d '90 days' +%F)

asked() { # NAME STATUS USER METHOD TARGET [BODY]
  local got
  got=$(curl -s --unix-socket "$sock" -o "$work/body" -w '%{http_code}' -H "Room-User: $3" \
    -X "$4" "http://localhost$5" ${6+--data-binary "$6"})
  holds "$1 (status $got): $(head -c 200 "$work/body")" [ "$got" = "$2" ]
}
lists() { printf '%s\n' "$@"; } # LINE ..
sets() { asked "the list of $2" 204 "$1" PUT "/dacl$2" "$(lists "${@:3}")"; } # USER PATH LINE ..
list_is() { # NAME USER PATH LINE ..
  curl -s --unix-socket "$sock" -H "Room-User: $2" "http://localhost/dacl$3" >got
  lists "${@:4}" >wanted
  same "$1" got wanted
}
# The lists as a nightly run leaves them.
night=$PWD/backups/office/$(date +%F).030000
dumps() {
  rm -rf look backups/office/*
  mkdir -p look "$night"
  cp office/F* look
  cp office/F "$night"
  "$rooms" dump look/F >"$night/lists.txt" 2>/dev/null
}
top=("A:fdI:alice:$ALL" D:dI:EVERYONE@:Dd)
ends() { echo "A:g:until.$1.$2.$3@$4:"; } # DATE LEVEL u|g.WHO ASKER
ended() { echo "A:g:ended.$today.$1.$2@$3:"; } # LEVEL u|g.WHO ASKER
