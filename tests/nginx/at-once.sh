# Many users at once through nginx with TLS, as an office has them: with passwords of a file, with
# those of a directory, with sessions; and readers beside large uploads. ROOMS_FIGURES=TABLE takes
# the figures that tools/speed puts into docs/speed.md; otherwise a few come for a moment, and it is
# only seen that each is answered.

. "$here/lib/front.sh"
. "$here/lib/directory.sh"
. "$here/lib/door.sh"
. "$here/lib/machine.sh"
. "$here/lib/session.sh"
top=$here/..
lacking=
[ -n "$nginx" ] || lacking='nginx'
for tool in python3 curl openssl htpasswd; do has $tool || lacking="$lacking $tool"; done
if [ -n "$lacking" ] || [ "$loopback" = no ]; then
  skip 'many at once' "no loopback, or missing: $lacking"
  return
fi
# What was checked of a password is remembered for ten seconds.
if [ -n "${ROOMS_FIGURES-}" ]; then sizes=(1 10 50 100) seconds=10; else sizes=(1 3) seconds=1; fi
most=0
for size in "${sizes[@]}"; do most=$((most + size)); done
[ "$most" -ge 14 ] || most=14

# Who there is, with a password of their own, hashed as rooms-admin does it.
for ((n = 1; n <= most; n++)); do echo "user$n word-$n"; done >people
xargs -P 4 -n 2 htpasswd -nbBC 10 <people 2>/dev/null | grep : >rooms.htpasswd
{ echo group,user; sed 's/\(.*\) .*/staff,\1/' people; } >groups.csv
certify_front
open_room F
gives 'who is in the group' 0 "groups 1, members $most\n" '' groups F groups.csv
set_list F / dacl list:a "A:fd:alice:$ALL" A:fdg:staff:rwaxtc A:d:AUTHENTICATED@:x
start_room F 1000000 || return
start_front 'many at once' tls || return
# nginx's own file as Debian has it.
sed -i -e 's/worker_processes 1;/worker_processes auto;/' \
  -e 's/worker_connections 256/worker_connections 768/' \
  -e 's/^http {/http { sendfile on; tcp_nopush on; gzip on;/' nginx.conf
reload_front
start_door office
python3 -B "$here/lib/at_once.py" fill "$PWD/run/rooms/office/socket" people
# What the page asks for beside the room.
mkdir -p root/var/lib/rooms-web/office/mine
names=$(sed 's/\(.*\) .*/"\1"/' people | paste -sd ,)
printf '{"made":"","members":true,"users":[%s],"groups":{"staff":[%s]},"names":{}}\n' \
  "$names" "$names" >root/var/lib/rooms-web/office/people.json
echo '{"made":"","managers":{},"places":[]}' >'root/var/lib/rooms-web/office/mine/*.json'

# They come, and what the play prints is counted; rows go into $table.
people=people table=${ROOMS_FIGURES-} served=$server
front_end=("$proxy" "${doors[0]}")
come() { # WORK LABEL SIZE ..
  local word check why ended=
  while IFS=$'\t' read -r word check why; do
    case $word in
      pass) pass ;;
      fail) fail "$check" "$why" ;;
      told) echo "  $check" ;;
      end) ended=yes ;;
    esac
  done < <(python3 -B "$here/lib/at_once.py" "$1" --port "$secure" --authority rooms.pem \
    --page "$installed/share/rooms/page" --people "$people" "${front_end[@]/#/--front=}" \
    --room "$served" --seconds "$seconds" ${table:+--table "$table"} "${@:2}" 2>play.err)
  [ -n "$ended" ] || fail "$2" "it broke off: $(tail -c 600 play.err)"
}
come day 'passwords of a file' "${sizes[@]}"

# The door is asked what is closed, which stands on no page.
table=
come door 'the door' "${sizes[1]}"

# Readers beside uploads: on the disk; with the room in memory, where no write waits; and with each
# wait of the room for the disk counted.
serve_again() { # FILE
  stop_server
  start_room "$1" 1000000 && served=$server
}
table=${ROOMS_FIGURES:+$PWD/uploads}
come read 'documents are read' "${sizes[1]}"
come beside 'beside 4 large uploads' "${sizes[1]}"
mkdir small
if mount -t tmpfs -o size=1g none small 2>/dev/null; then
  stop_server
  cp F* small
  serve_again small/F && come beside 'the same in memory' "${sizes[1]}"
  stop_server
  umount small
else
  skip 'a room in memory' 'mount is refused'
fi
table= built=$rooms
if has strace && strace -f --seccomp-bpf -o syncs -e trace=fdatasync true 2>/dev/null; then
  { echo '#!/bin/sh'
    echo "exec strace -f --seccomp-bpf -w -c -o $PWD/syncs -e trace=fdatasync,fsync \\"
    echo "  $built \"\$@\""; } >traced
  chmod 755 traced
  rooms=$PWD/traced
  serve_again F && {
    read -r served <"/proc/$server/task/$server/children"
    come beside 'beside 4 large uploads, counted' "${sizes[1]}"
    kill "$served"
    wait "$server"
    server=
    sed 's/^/  /' syncs
  }
  rooms=$built
fi
serve_again F || return
table=${ROOMS_FIGURES-}

# The directory asks for other passwords, so that none is remembered.
why='no Apache, or no mod_authnz_ldap'
sed 's/$/-there/' people >there
echo reader-word >secret
chmod 600 secret
directory() {
  [ -n "$apache2" ] && [ -e "$modules/mod_authnz_ldap.so" ] || return
  { person reader reader-word
    while read -r name word; do person "$name" "$word"; done <there; } | load_directory
  start_directory && good >settings && start_apache "$PWD/settings"
}
if directory; then
  ask_directory
  people=there
  front_end+=("$httpd")
  come day 'of a directory' "${sizes[@]}"
  kill "$httpd"
  wait "$httpd" 2>/dev/null
  stop_directory
  admin setup --directory none
  unset 'front_end[2]'
else
  skip 'users of a directory' "$why"
fi

sessions() {
  [ -n "$apache2" ] && [ -e "$modules/mod_auth_openidc.so" ] || return
  base=https://rooms.example:$secure
  reach=(--http1.1 --resolve "rooms.example:$secure:127.0.0.1" --cacert rooms.pem)
  make_provider
  says_claims '"name": "nobody"'
  start_provider && write_sessions && start_sessions && pasted PASSWORDS=session
}
if sessions; then
  take_front
  reload_front
  while read -r name word; do
    says_claims "\"preferred_username\": \"$name\""
    signs_in jar
    echo "$name $word $(awk '$6 ~ /^mod_auth_openidc_session/ { print $6 "=" $7 }' jar)"
  done <people >signed-in
  people=signed-in
  front_end+=("$httpd")
  come day 'sessions' "${sizes[1]}" "${sizes[${#sizes[@]} - 1]}"
else
  skip 'users with sessions' 'no Apache, or no mod_auth_openidc'
fi
reach=()
[ -z "$table" ] || cat uploads >>"$table"
stop_others
stop_server
stop_proxy
gives 'sound' 0 'sound\n' '' verify F
