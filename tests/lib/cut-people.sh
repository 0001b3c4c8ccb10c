# A room with people in it, for verbs that are cut off at each of their calls of the system: it is
# served, nothing is half written under the name of what is whole, and the same command then does
# all. The room is at a socket, which is the same after each start.

. "$here/lib/cut.sh"
. "$here/lib/people.sh"
can_cut_people() { # NAME OF WHAT IS SKIPPED
  plays_people && has setpriv && has flock && return
  skip "$1" 'no loopback, curl, setsid, setpriv, flock or /usr/bin/python3'
  return 1
}
once_more() { verb "${words[@]}"; }
owes() { ls "$ROOMS_RUN" | grep -vx -e rooms -e rooms-full; }
at_socket() { # USER METHOD TARGET BODY
  curl -s --unix-socket "$sock" -o "$work/body" -w '%{http_code}' -H "Room-User: $1" \
    -X "$2" "http://localhost/$3" ${4+--data-binary "$4"}
}
is_served() {
  holds "$1: the room is served" [ "$(at_socket alice GET 'can/?')$(cat "$work/body")" = '200{}' ]
  whole "$1"
}

# A room with groups, a document of bob's, an access whose end is over, and a night's backup of it.
make_room() {
  make_people
  ln -s tool "$stand/bin/htpasswd"
  web=$PWD/root/var/lib/rooms-web/office sock=$PWD/run/rooms/rooms/socket \
    passwords=$PWD/root/var/lib/rooms-passwords/rooms.htpasswd
  as_user "$rooms" init "$PWD/office/F" alice staff >"$work/out"
  printf '%s\n' group,user staff,bob clerks,carol >groups.csv
  chmod 644 groups.csv
  holds 'groups' as_user "$rooms" groups "$PWD/office/F" "$PWD/groups.csv" >"$work/out"
  printf '%s\n' list:a "A:fd:alice:$ALL" A::AUTHENTICATED@:xt |
    as_user "$rooms" reset "$PWD/office/F" / dacl >"$work/out"
  mkdir -p "${sock%/*}" "${passwords%/*}"
  chown "$STAND_USER" "${sock%/*}"
  echo "$sock" >"$stand/socket"
  setting PORT "$port"
  printf '%s:{PLAIN}p\n' alice bob carol >"$passwords"
  unit start
  holds 'a document of bob' \
    [ "$(at_socket alice PUT doc/his x)$(
      at_socket alice PUT attr/his '{"group":"staff","owner":"bob"}'
    )" = 201204 ]
  holds 'a folder for eve' [ "$(at_socket alice POST folder/given)" = 201 ]
  over=(list:a A:fd:eve:rxtc "A:g:until.$(date -d '3 days ago' +%F).read.u.eve@alice:")
  set_over
  room_verb backup
  told 'a night' 0 'taken back: /given: read of eve'
  unit stop
  cp -a office office.kept
  cp -a root root.kept
  night=$PWD/backups/office/$(ls backups/office)
  unit start
}
set_over() {
  [ "$(at_socket alice PUT dacl/given "$(printf '%s\n' "${over[@]}")")" = 204 ] ||
    fail 'a list' "$(cat "$work/body")"
}
# The room, its passwords and what nginx shows, as they were.
afresh() {
  unit stop
  rm -rf office/F* root
  cp -a office.kept/. office/
  cp -a root.kept root
  unit start
}
# Whoever presses a key is told what the verb has done, or that it has done nothing.
is_told() { # NAME DONE
  [ "$how" = KILL ] || holds "$1: what was done is told" \
    grep -q "interrupted: ${2:+this alone was done: }${2:-nothing was changed}\$" "$work/err"
}
nothing_else() { # NAME
  holds "$1: nothing else is left" \
    [ -z "$(find "${web%/*}" "${passwords%/*}" -name '.*')$(ls -A "$TMPDIR")" ]
  [ "$(id -u)" != 0 ] ||
    holds "$1: nginx gets there" [ "$(stat -c %a "$web" "${web%/*}" | sort -u)" = 750 ]
}
# Of a copy, while the server waits.
seen() { # SUBCOMMAND
  rm -rf look
  mkdir look
  cp office/F* look/
  "$rooms" "$1" look/F 2>&1
}
members_are() { # NAME PAIR ..
  seen groups-out >got
  printf '%s\n' group,user "${@:2}" >wanted
  same "$1" got wanted
}
