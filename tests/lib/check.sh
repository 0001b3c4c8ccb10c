# A room that is well, and all that rooms-admin check looks at beside it: a server, a played nginx,
# what systemd says, and a good backup. Where that can't be, the status isn't 0.

[ "$loopback" = yes ] && [ -x /usr/bin/python3 ] && has openssl || return
make_stand
open_room office/F
mkdir -p run/rooms/office
[ "$STAND_USER" = "$(id -u)" ] || chown -R 65534:65534 office run/rooms/office
sock=$PWD/run/rooms/office/socket
echo "$sock" >"$stand/socket"
unit start

# nginx is played, which answers as a file says, and the room's door.
mkdir -p run/rooms-door/office
cat >front.py <<'END'
import http.server
import socketserver
import sys
import threading
class Front(http.server.BaseHTTPRequestHandler):
    def do_GET(self):
        with open('front.status') as source:
            status = int(source.read())
        with open('front.asked', 'a') as asked:
            asked.write(f'{self.headers["Host"]} {self.path}\n')
        self.send_response(status)
        with open('front.fields') as source:
            for line in source:
                name, _, value = line.rstrip().partition(': ')
                self.send_header(name, value)
        self.send_header('Content-Length', '0')
        self.end_headers()
    def log_message(self, *words):
        pass
class Door(http.server.BaseHTTPRequestHandler):
    def do_GET(self):
        self.send_error(404)
    def log_message(self, *words):
        pass
door = socketserver.ThreadingUnixStreamServer('run/rooms-door/office/socket', Door)
threading.Thread(target=door.serve_forever, daemon=True).start()
server = http.server.HTTPServer(('127.0.0.1', 0), Front)
with open('front.port', 'w') as port:
    port.write(f'{server.server_port}\n')
server.serve_forever()
END
echo 401 >front.status
policy=$(grep -om 1 "default-src 'none'; [^\"]*" "$repo/deploy/nginx/site.conf.in")
ours() { printf '%s\n' "Content-Security-Policy: $policy" >front.fields; }
ours
/usr/bin/python3 front.py &
others+=($!)
until [ -s front.port ]; do sleep 0.02; done
ROOMS_FRONT=127.0.0.1:$(<front.port)
export ROOMS_FRONT

# What systemd says beside the server, and a mail program or none.
mkdir -p root/etc/nginx/{sites-enabled,sites-available} \
  root/etc/systemd/system/timers.target.wants root/var/lib/systemd/timers
: >failed
: >again
echo active >timer
echo yes >private
mv stand/bin/systemctl stand/bin/own
cat >stand/bin/systemctl <<END
#!/usr/bin/env bash
case "\$*" in
  'list-units --state=failed,auto-restart '*) cat "$PWD/failed" "$PWD/again" ;;
  'list-units '*) cat "$PWD/failed" ;;
  'is-active rooms-nightly@office.timer') cat "$PWD/timer" ;;
  'is-active rooms-connections.service') cat "$PWD/bounded" ;;
  'show -p MemoryMax --value rooms.slice') echo infinity ;;
  'show -p MemoryMax'*) echo 1073741824 ;;
  'show -p PrivateUsers '*) cat "$PWD/private" ;;
  'start --no-block '*) echo "\$*" >>"$PWD/told" ;;
  *) exec "$PWD/stand/bin/own" "\$@" ;;
esac
END
chmod 755 stand/bin/systemctl
# What nginx says against its files.
: >refused
cat >stand/bin/nginx <<END
#!/bin/sh
[ "\$*" != '-t -q' ] || cat "$PWD/refused"
[ ! -s "$PWD/refused" ]
END
chmod 755 stand/bin/nginx
settings() { # LINE ..: those of office, and more
  printf '%s\n' "FILE=$PWD/office/F" "BACKUPS=$PWD/backups" \
    UNIT=rooms@office "PROGRAM=$rooms" "$@" >root/etc/rooms/office.conf
  echo 'upstream room_office { server unix:/run/rooms/office/socket; }' \
    >root/etc/nginx/sites-available/rooms
}
settings
ln -s ../sites-available/rooms root/etc/nginx/sites-enabled/rooms
backup() { # DATE: a good one of that time
  local name
  name=$(date -d "$1" +%F.%H%M%S)
  mkdir -p "backups/$name"
  cp office/F "backups/$name/F"
  touch -d "$1" "backups/$name/F"
  echo "$name"
}
backup '1 hour ago' >/dev/null
checks() { # NAME STATUS TEXT ..
  ROOMS_SETTINGS=$PWD/root/etc/rooms PATH=$stand/bin:$PATH timeout "$patience" \
    "$repo/admin/rooms-admin" check ${words[@]+"${words[@]}"} >"$work/out" 2>"$work/err" </dev/null
  status=$?
  told "$@"
  holds "$1: one line" [ "$(wc -l <"$work/out")" = 1 ]
  holds "$1: and no other: $(head -c 300 "$work/err")" [ ! -s "$work/err" ]
}
words=()
