# Earlier nights of a room, through nginx by the file that rooms-admin writes: the judge and the
# supervisor as their units have them, with users of their own.

. "$here/lib/front.sh"
night_user=64124 judge_user=64125
# Today's room, in the folder of the case.
room_file=${room_file-office.rooms}
lacks_earlier() {
  [ -z "$nginx" ] || ! has curl || ! has setpriv || ! has python3 || [ "$(id -u)" != 0 ] ||
    [ "$loopback" = no ]
}

# The judge is in nginx's group, and so gets to the rooms' sockets, as after rooms-admin await.
lets_nginx() {
  chmod 711 run run/rooms
  chgrp www-data run/rooms/office run/rooms/office/socket
  chmod 710 run/rooms/office
  chmod 770 run/rooms/office/socket
}
# Stops the room, runs a command, and starts it again.
at_rest() { # COMMAND ..
  stop_server
  "$@"
  start_room "$room_file" 1000000 && lets_nginx
}
# A backup as a run leaves it; the room is stopped.
keep_night() { # NAME NUMBER
  local folder=backups/office/$1
  mkdir -m 700 -p backups backups/office "$folder"
  cp "$room_file" "$room_file-wal" "$folder/" 2>/dev/null
  echo "number $2" >"$folder/run"
  chmod 600 "$folder"/*
}
copy_night() { # FROM TO NUMBER
  cp -a "backups/office/$1" "backups/office/$2"
  echo "number $3" >"backups/office/$2/run"
}
members() { # GROUP,USER ..
  printf '%s\n' group,user "$@" >groups.csv
  input=groups.csv
  gives 'groups' 0 'groups 1, members 1\n' '' groups "$room_file" groups.csv
  input=/dev/null
}
# What the room itself is asked, without nginx.
room_does() { # USER TARGET ARGUMENT ..
  local code
  code=$(curl -s -o "$work/body" -w '%{http_code}' --unix-socket "$place" -H "Room-User: $1" \
    "${@:3}" "http://x$2")
  [[ $code = 20* ]] || fail "setup: $*" "$code $(head -c 200 "$work/body")"
}
list_of() { # PATH LINE ..
  printf '%s\n' "${@:2}" >list.sent
  room_does root "/dacl$1" -X PUT --data-binary @list.sent
}

# A service at its socket, as its unit has it: $pids has the number of each process of it.
service_at() { # NAME SOCKET-USER SOCKET-GROUP COMMAND ..
  local at=$ROOMS_RUN/rooms-$1
  mkdir -p "$at"
  chmod 711 "$at"
  rm -f "$at/socket"
  : >"$1.pids"
  python3 "$here/lib/activated.py" "$at/socket" 660 "${@:4}" \
    "$installed/lib/rooms/rooms-service" "$1" >>"$1.pids" 2>>"$1.err" &
  others+=("$!")
  until [ -S "$at/socket" ]; do sleep 0.02; done
  chown "$2:$3" "$at/socket"
}
start_earlier() { # [FOLDER-OF-A-MACHINE]: its settings are below that, and its /run too
  local -x ROOMS_RUN=$PWD${1:+/$1}/run ROOMS_SETTINGS=$PWD/${1:-machine}/etc/rooms
  local -x ROOMS_NIGHTS=$PWD/copies ROOMS_NIGHTS_ASKS=$judge_user ROOMS_NIGHTS_MAY_GO=${may_go:-1}
  local -x ROOMS_NIGHTS_IDLE=${idle:-300} ROOMS_NIGHTS_PATIENCE=${copy_patience:-5}
  install -d -m 700 -o "$night_user" -g "$judge_user" copies
  mkdir -p "$ROOMS_RUN/rooms-nights"
  install -d -m 711 -o "$night_user" -g "$judge_user" "$ROOMS_RUN/rooms-nights/open"
  service_at nights root "$judge_user" setpriv --reuid "$night_user" --regid "$judge_user" \
    --clear-groups --inh-caps=+dac_read_search --ambient-caps=+dac_read_search \
    --bounding-set=-all,+dac_read_search
  service_at earlier root www-data setpriv --reuid "$judge_user" --regid www-data \
    --groups "$judge_user" --bounding-set=-all
}
supervisor() { tail -n 1 nights.pids; }

# nginx, today's room, which runs, and its backups.
start_nights() { # NAME
  start_front "$1" && show_nights
}
# The same, where nginx runs.
show_nights() {
  sets office FILE "$PWD/$room_file"
  sets office BACKUPS "$PWD/backups"
  sets office PROGRAM "$rooms"
  lets_nginx
  start_earlier
}
