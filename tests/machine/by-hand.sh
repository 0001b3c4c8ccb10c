# Verbs by hand under systemd, while somebody waits for them: a run that is killed lets the server
# go on; a run that hangs keeps nobody from being shut out, and an open question no night from its
# backup; what an access was ended by is in nobody's name; a server that rested runs again; and what
# others send moves no cursor.

top=$repo
version=none
. "$here/lib/machine.sh"
. "$here/lib/booted.sh"
boot_machine 'verbs by hand under systemd' || return
does 'the package' 'dpkg -i rooms.deb'
does 'a room' 'runuser -u rooms -- rooms init /var/lib/rooms/office.rooms alice staff &&
  systemctl enable --now rooms@office &&
  for user in alice bob eve; do echo $user | rooms-admin user add $user || exit; done &&
  systemctl reload nginx'
does 'who may do what' "ask() { curl -sf --unix-socket /run/rooms/office/socket -o /dev/null \
    -H \"Room-User: \$1\" -X \$2 http://localhost/\$3 \${4+--data-binary \"\$4\"}; }
  ask alice PUT dacl/ 'list:a
A:fd:alice:$ALL
A::AUTHENTICATED@:xt' && ask alice PUT sacl/ 'list:a
U:fdSF:EVERYONE@:dCoc' && ask alice POST folder/of-mallory &&
  ask alice PUT dacl/of-mallory 'list:p
A:fd:mallory:$ALL' && ask mallory PUT dacl/of-mallory 'list:p
A:fd:mallory:$ALL
A:fd:bob:rxtc
A:g:until.2026-01-01.read.u.bob@alice:'
  head -c 1000000 /dev/urandom >/tmp/large
  for number in \$(seq 60); do ask alice PUT doc/large\$number @/tmp/large || exit; done"
gets_in() { # NAME USER STATUS
  does "$1" "curl -s -m 20 -o /dev/null -w '%{http_code}\n' -u $2:$2 'http://127.0.0.1/can/?'"
  prints "$1: $2 gets $3" "$3"
}
gets_in 'before' bob 200

# By the kernel's choice, or by hand: nothing of the run can say that it ends.
cat >"$machine/root/kill-while.py" <<'END2'
import os
import subprocess
import sys
import time


def server():
    return subprocess.run(["systemctl", "show", "-p", "MainPID", "--value", "rooms@office"],
                          capture_output=True, text=True).stdout.strip()


def is_away(number):
    return not os.path.exists(f"/proc/{number}")


def holds(run):
    """A copy: by the only connection that it has."""
    try:
        return any(os.readlink(f"/proc/{run}/fd/{one}").startswith("socket:")
                   for one in os.listdir(f"/proc/{run}/fd"))
    except OSError:
        return False


for turn in range(30):
    number = server()
    with open("typed") as typed:
        run = subprocess.Popen(["rooms-admin", *sys.argv[1:]], stdin=typed,
                               stdout=subprocess.DEVNULL, stderr=subprocess.DEVNULL)
    while run.poll() is None and not is_away(number) and not holds(run.pid):
        pass
    run.kill()
    if run.wait() == -9:
        break
ends = time.monotonic() + 60
while time.monotonic() < ends and (is_away(server()) or subprocess.run(
        ["systemctl", "-q", "is-active", "rooms@office"]).returncode):
    time.sleep(0.1)
print("killed" if run.returncode == -9 else f"status {run.returncode}",
      "away" if is_away(server()) else "goes on")
END2
for words in backup standby 'user add dana --groups staff --new'; do
  does "$words, killed" "echo secret >typed; python3 kill-while.py $words"
  prints "$words: the server" 'killed goes on'
  gets_in "after $words" bob 200
done

# In the place of a disk that hangs, the run itself does, once it has a copy to verify: it waits
# there until it is held.
does 'a backup, which tells of the one that was cut off' 'rooms-admin backup || :'
cat >"$machine/usr/local/bin/slow-rooms" <<'END2'
#!/bin/sh
if [ "$1" = verify ]; then
  : >/srv/held/waits
  until [ -e /run/goes-on ]; do sleep 0.1; done
fi
exec /usr/bin/rooms "$@"
END2
chmod 755 "$machine/usr/local/bin/slow-rooms"
does 'a run that hangs' "echo PROGRAM=/usr/local/bin/slow-rooms >>/etc/rooms/office.conf
  mkdir -m 1777 /srv/held; rooms-admin backup >/dev/null 2>&1 & run=\$!
  until [ -e /srv/held/waits ]; do sleep 0.1; done
  kill -STOP \$run; sed -i '\$d' /etc/rooms/office.conf; touch /run/goes-on
  timeout 50 rooms-admin user remove eve &&
    timeout 50 rooms-admin restore --start latest; echo \$?
  kill -CONT \$run; wait \$run; :"
holds 'keeps nobody from being shut out' grep -q '^no password for eve any more' "$work/out"
holds 'nor a room from being restored' [ "$(tail -n 1 "$work/out")" = 0 ]
sleep 11
gets_in 'whoever left' eve 401
gets_in 'and nobody else' bob 200

# A question that nobody answers.
cat >"$machine/root/asked.py" <<'END2'
import os
import pty
import subprocess

process, terminal = pty.fork()
if process == 0:
    os.execvp("rooms-admin", ["rooms-admin", "user", "add", "dora"])
print(os.read(terminal, 1000).decode().strip())
print(subprocess.run(["systemctl", "start", "rooms-nightly@office"]).returncode)
os.kill(process, 15)
END2
does 'a night while a password is asked for' 'python3 asked.py'
prints 'is a good one' 'New password of dora:' 0
does 'one more' 'systemctl start rooms-nightly@office; cat "$(rooms-admin latest)/records.csv"
  cat "$(rooms-admin latest)/lists.txt"'
holds 'an access was ended' grep -q '^A:g:ended\..*\.read\.u\.bob@alice:$' "$work/out"
holds 'and nobody is said to have asked for it' \
  [ "$(grep -c ',alice,/of-mallory,' "$work/out")" = 1 ]

# A night of which all is killed while the server rests, for an access that is over.
cat >"$machine/usr/local/bin/slow-rooms" <<'END2'
#!/bin/sh
[ "$1" != reset ] || sleep 600
exec /usr/bin/rooms "$@"
END2
does 'an access that is over' "curl -sf --unix-socket /run/rooms/office/socket \
  -H 'Room-User: mallory' -X PUT http://localhost/dacl/of-mallory --data-binary 'list:p
A:fd:mallory:$ALL
A:fd:bob:rxtc
A:g:until.2026-01-01.read.u.bob@alice:'
  echo PROGRAM=/usr/local/bin/slow-rooms >>/etc/rooms/office.conf
  systemctl start --no-block rooms-nightly@office"
until_inside 'the server rests' '[ "$(systemctl is-active rooms@office)" = inactive ]'
does 'all of the night is killed' 'sed -i "\$d" /etc/rooms/office.conf
  kill -KILL $(pgrep -f "[r]ooms-admin backup --room office")'
until_inside 'the server runs again' 'systemctl -q is-active rooms@office'

# A room that lies, and what root writes.
cat >"$machine/root/liar.py" <<'END2'
import http.server


class Liar(http.server.BaseHTTPRequestHandler):
    def answer(self):
        body = b"\x1b]0;owned\x07\x1b[2K\rmade 1204, left out 0"
        self.rfile.read(int(self.headers.get("Content-Length") or 0))
        self.send_response(403)
        self.send_header("Content-Length", str(len(body)))
        self.end_headers()
        self.wfile.write(body)
    do_GET = do_PUT = do_POST = answer

    def log_message(self, *_):
        pass


http.server.HTTPServer(("127.0.0.1", 8099), Liar).serve_forever()
END2
inside 'python3 liar.py & liar=$!; sleep 1; mkdir share; echo x >share/f
  rooms-admin import --replace --as alice --room http://127.0.0.1:8099 share /; kill $liar'
told 'a room that lies' 0 'f: not sent: 403 \x1b]0;owned\x07\x1b[2Kmade 1204, left out 0'
holds 'moves no cursor' [ -z "$(tr -d '\n -~' <"$work/err")" ]
does 'what is exported' "rooms-admin export --as alice / /srv/out; ls /srv/out/large1 &&
  ! setpriv --reuid=nobody --regid=nogroup --clear-groups cat /srv/out/large1 2>/dev/null"
does 'nothing is left' 'rooms-admin standby
  ls /run/rooms-directory.* 2>/dev/null; :'
holds 'of any of these runs' [ ! -s "$work/out" ]
stop_machine
