# rooms-admin for the room of ./office.conf, with the stand-ins of units.sh.

plays_people() { [ "$loopback" = yes ] && has curl && has setsid && [ -x /usr/bin/python3 ]; }

# The settings' name is the room's.
make_people() {
  make_stand
  mv conf office.conf
  mv backups/conf backups/office
  echo PORT= >>office.conf
}
room_verb() { verb "$1" "${@:2}" --room "$PWD/office.conf"; }
setting() { # NAME VALUE
  sed "/^$1=/d" office.conf >conf.new
  echo "$1=$2" >>conf.new
  mv conf.new office.conf
}
ended_well() { holds "$1: $(head -c 300 "$work/err")" [ "$status" = 0 ]; } # NAME
# The server gets another port with each start.
starts() {
  unit start
  read -r port <"$stand/port"
  place=127.0.0.1:$port
  setting PORT "$port"
}

# The same where the server has a socket in the place of a port.
starts_at_socket() {
  listens_at_socket
  unit start
  setting PORT ''
}
leaves_socket() {
  unit stop
  rm -r "$stand/socket" run/rooms
}

# A room of alice's with a document, whose server runs.
room_of_alice() {
  make_people
  as_user "$rooms" init "$PWD/office/F" alice staff >"$work/out"
  printf '%s\n' list:a "A:fd:alice:$ALL" |
    as_user "$rooms" reset "$PWD/office/F" / dacl >"$work/out"
  starts
  asks 'a document' made PUT /doc/f alice hello
}

# A room's program that says in ./ran as whom and where it runs, and that waits at a word, while
# there is ./wait-WORD, until there is ./seen; ./reading has a line then.
watched_program() {
  cat >prog <<END
#!/bin/bash
[ "\$1" = --version ] || echo "\$(id -u) \$PWD \$*" >>"$PWD/ran"
if [ -e "$PWD/wait-\$1" ]; then
  echo at it >"$PWD/reading"
  until [ -e "$PWD/seen" ]; do sleep 0.05; done
fi
exec "$rooms" "\$@"
END
  chmod 755 prog
  : >ran
  : >reading
  chmod 666 ran reading
  setting PROGRAM "$PWD/prog"
}
