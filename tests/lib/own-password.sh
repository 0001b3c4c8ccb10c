# Users' own changes of passwords, through nginx by the file that rooms-admin writes: with a user of
# its own, and a process for each request as systemd has it.

. "$here/lib/front.sh"
keeper=64123
kept=$PWD/machine/var/lib/rooms-passwords
tries=$PWD/run/rooms-own-password/tries
hash_of() { htpasswd -niBC 10 user <<<"$1" | sed 's/^user://; q'; }
lacks_own() {
  [ -z "$nginx" ] || ! has curl || ! has htpasswd || ! has setpriv || [ "$(id -u)" != 0 ]
}

# The service, as its unit starts it.
service() {
  ROOMS_ROOT=$PWD/machine ROOMS_RUN=$PWD/run setpriv --reuid "$keeper" --regid "$keeper" \
    --clear-groups "$@" "$installed/lib/rooms/rooms-service" own-password
}
start_keeper() { # COMMAND ..
  rm -f socket
  ROOMS_ROOT=$PWD/machine ROOMS_RUN=$PWD/run python3 "$here/lib/inetd.py" "$PWD/socket" 8 \
    setpriv --reuid "$keeper" --regid "$keeper" --clear-groups "$@" \
    "$installed/lib/rooms/rooms-service" own-password 2>>keeper.err &
  keeping=$!
  others+=("$keeping")
  until [ -S socket ]; do sleep 0.02; done
}
stop_keeper() {
  kill "$keeping"
  wait "$keeping" 2>/dev/null
}

# Who reads and writes the files of passwords for it, as root.
start_writer() {
  ROOMS_ROOT=$PWD/machine ROOMS_RUN=$PWD/run python3 "$here/lib/inetd.py" \
    "$PWD/run/rooms-own-password/file" 8 "$installed/lib/rooms/rooms-service" password-file \
    2>>keeper.err &
  others+=("$!")
  until [ -S run/rooms-own-password/file ]; do sleep 0.02; done
}
# What it says to a line.
written() { # LINE
  python3 -c 'import socket, sys
with socket.socket(socket.AF_UNIX) as asking:
    asking.connect(sys.argv[1])
    asking.sendall(sys.argv[2].encode() + b"\n")
    asking.shutdown(socket.SHUT_WR)
    print(asking.makefile().read(), end="")' "$PWD/run/rooms-own-password/file" "$1"
}

# Passwords of ./all, or of a file, are those of office; and nobody tried one.
set_passwords() { # FILE
  cp "${1:-all}" "$kept/rooms.htpasswd"
  chown root:www-data "$kept/rooms.htpasswd" "$kept/rooms.first"
  chmod 640 "$kept/rooms.htpasswd" "$kept/rooms.first"
}
no_tries() { rm -f "$tries"/*; }

# nginx with a room of alice's, the passwords of ./all, and the service. Of addresses there is one,
# so the limit by address is tried where it is wanted alone.
start_own() { # NAME ENTRY ..
  chmod 755 "$work" .
  mkdir -p run/rooms-own-password run/rooms-front
  ln -s ../../remembered run/rooms-front/remembered
  install -d -m 700 -o "$keeper" "$tries"
  : >rooms.htpasswd
  open_room F
  set_list F / dacl list:a "A:fd:root:$ALL" A:fd:alice:rwxa A:fd:bob:rx "${@:2}"
  start_room F 100000 || return
  start_front "$1" || return
  chown root:www-data "$kept"
  chmod 710 "$kept"
  set_passwords
  start_writer
  start_keeper
  sed -i -e "s|auth_basic_user_file $PWD/|auth_basic_user_file $kept/|" -e 's|10r/m|6000r/m|' \
    sites-enabled/rooms
  reload_front
}

json() { # OLD NEW
  python3 -c 'import json, sys; print(json.dumps({"old": sys.argv[1], "new": sys.argv[2]}))' "$@"
}
as_json='Content-Type: application/json'
changes() { # NAME STATUS BODY USER:PASSWORD OLD NEW ARGUMENT ..
  ask "$1" "$2" "$3" "$4" /password -X POST -H "$as_json" --data-binary "$(json "$5" "$6")" \
    "${@:7}"
}
# Only the status, for what is asked several times at once.
code_of() { # USER:PASSWORD OLD NEW [FILE-FOR-THE-BODY]
  curl -s -o "${4:-/dev/null}" -w '%{http_code}\n' -u "$1" "$base/password" -H "$as_json" \
    --data-binary "$(json "$2" "$3")"
}
counts() { sort "$@" | uniq -c | tr -s ' \n' ' '; }
