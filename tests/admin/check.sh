# rooms-admin check: one line and a status for monitoring, for a room that is well and for each
# thing that isn't.

if [ -x /usr/bin/python3 ]; then
  /usr/bin/python3 "$here/admin/test_watched.py" >said 2>&1
  status=$?
  holds "its parts: $(tail -n 20 said)" [ "$status" = 0 ]
fi
if ! . "$here/lib/check.sh"; then
  skip 'what a check finds' 'no loopback, or python3 or openssl is missing'
  return
fi
checks 'a room that is well' 0 'rooms OK - office: answers, nginx answers, ' \
  ' of 816 MB in use, last good backup 1 h ago'
holds 'nginx was asked for the room' grep -qx "127.0.0.1:$(<front.port) /can/?" front.asked
words=(-r office)
checks 'by its name' 0 'rooms OK - office: '
words=(--room "$PWD/root/etc/rooms/office.conf")
checks 'by its settings' 0 'rooms OK - office: '
words=()
tree() {
  find office backups root -exec ls -ld --time-style=full-iso {} + |
    grep -v -e front -e 'office$' && cksum office/F backups/*/F
}
tree >before
checks 'once more' 0 'rooms OK'
tree >after
same 'nothing is changed' after before

# nginx.
for status in 404 502 503 504; do
  echo "$status" >front.status
  checks "nginx says $status" 2 "rooms CRITICAL - office: nginx answers $status for it"
done
# Beside other sites of nginx's it is asked by the site's name, and knows another site's answer.
printf '%s\n' 'HOSTS=docs.example rooms.example' CERTIFICATE= KEY= UNENCRYPTED=yes \
  >root/etc/rooms/site
echo 401 >front.status
: >front.asked
checks 'the site of a name' 0 'rooms OK - office: answers, nginx answers, '
holds 'is asked by that' grep -qx 'docs.example /can/?' front.asked
# It has no TLS, which somebody has said is meant so.
sed -i /UNENCRYPTED/d root/etc/rooms/site
checks 'no TLS' 1 'rooms WARNING - passwords and documents travel unencrypted: rooms-admin setup'
echo UNENCRYPTED=yes >>root/etc/rooms/site
for status in 200 401 403 404 502; do
  echo "$status" >front.status
  for field in '' 'Content-Security-Policy: default-src *' \
    'WWW-Authenticate: Basic realm="wiki"'; do
    printf '%s' "${field:+$field
}" >front.fields
    checks "another site says $status, $field" 2 \
      "another site of nginx's answers for docs.example: HOSTS in /etc/rooms/site"
  done
done
echo 401 >front.status
echo 'WWW-Authenticate: Basic realm="rooms"' >front.fields
checks 'it asks for a password of rooms' 0 'rooms OK - office: answers, nginx answers, '
ours
rm root/etc/rooms/site
echo 401 >front.status
echo 'upstream room_office { server 127.0.0.1:1; }' >root/etc/nginx/sites-available/rooms
checks 'nginx asks elsewhere' 2 'nginx passes nothing on to its socket'
settings
ROOMS_FRONT=127.0.0.1:1 checks 'no nginx' 2 "nginx doesn't answer: "

mv "$sock" "$sock.away"
checks 'no socket' 2 "rooms@office doesn't answer (active)"
mv "$sock.away" "$sock"

# A file that was made as root, which its server can't open.
if [ "$STAND_USER" != "$(id -u)" ]; then
  chown 0 office/F
  checks "root's file" 2 \
    "$PWD/office/F isn't its server's, which can't open it: chown -h --reference="
  chown "$STAND_USER:$STAND_USER" office/F
fi

# A directory that checks passwords, and one that is down. Its Apache is played.
cat >apache.py <<'END'
import base64
import http.server
class Apache(http.server.BaseHTTPRequestHandler):
    def do_GET(self):
        named = base64.b64decode(self.headers['Authorization'].split()[1]).decode()
        with open('apache.asked', 'a') as asked:
            asked.write(f'{self.path} {self.headers["Rooms-Key"]} {named}\n')
        with open('apache.status') as source:
            self.send_response(int(source.read()))
        self.send_header('Content-Length', '0')
        self.end_headers()
    def log_message(self, *words):
        pass
server = http.server.HTTPServer(('127.0.0.1', 0), Apache)
with open('apache.port', 'w') as port:
    port.write(f'{server.server_port}\n')
server.serve_forever()
END
/usr/bin/python3 apache.py &
others+=($!)
until [ -s apache.port ]; do sleep 0.02; done
echo 401 >apache.status
: >apache.asked
settings PASSWORDS=directory
checks 'no directory' 2 'PASSWORDS=directory, and no directory: rooms-admin setup --directory'
echo 'proxy_set_header Rooms-Key 0123abcd;' >root/etc/rooms/passwords.key
echo "Listen 127.0.0.1:$(<apache.port)" >root/etc/rooms/directory.apache
checks 'a directory' 0 'rooms OK - office: answers, '
holds 'is asked by a name of nobody' \
  grep -qxE '/password/rooms 0123abcd nobody-[0-9a-f]{16}:x' apache.asked
for status in 500 503 200; do
  echo "$status" >apache.status
  checks "a directory that answers $status" 2 \
    "the directory checks no password, and nobody can sign in: it answers $status"
done
echo 'Listen 127.0.0.1:1' >root/etc/rooms/directory.apache
checks 'one whose Apache is down' 2 'the directory checks no password, and nobody can sign in: '
settings
checks 'one that nobody needs' 0 'rooms OK'
rm root/etc/rooms/{passwords.key,directory.apache}

# What is in use, of LIMIT.
settings LIMIT=none
checks 'no limit' 0 ' MB in use'
settings LIMIT=1
head -c 1048576 /dev/zero >big
for name in one two; do
  curl -s -o said -X PUT -H 'Room-User: root' -H Expect: \
    --data-binary @big --unix-socket "$sock" "http://localhost/doc/$name"
done
checks 'a room that is full' 2 ' of 1 MB in use'
settings LIMIT=3
checks 'one that is nearly so' 0 ' of 3 MB in use'
settings LIMIT=2
checks 'one that is at its limit' 2 ' of 2 MB in use'
for name in 3 4 5 6 7 8 9 10; do
  curl -s -o said -X PUT -H 'Room-User: root' -H Expect: \
    --data-binary @big --unix-socket "$sock" "http://localhost/doc/$name"
done
settings LIMIT=11
checks 'one of which nine tenths are in use' 1 '10 of 11 MB in use'
settings LIMIT=12
checks 'one of which less is' 0 '10 of 12 MB in use'
settings

# The web interface needs the room's door.
mv run/rooms-door/office/socket run/rooms-door/office/before
checks 'no door' 2 "rooms CRITICAL - office: its door doesn't answer: "
mv run/rooms-door/office/before run/rooms-door/office/socket

# What nginx writes for the door, while that doesn't take it. (It has no bytes on the disk.)
changes=root/var/lib/rooms-changes/office
mkdir -p "$changes"
truncate -s 60000000 "$changes/journal"
checks 'a journal of changes' 0 'rooms OK'
truncate -s 50000000 "$changes/journal.old"
checks 'one that has grown' 1 \
  'office: its journal of changes has 110 MB: systemctl status rooms-door@office'
# Whatever the door has put there: nothing is opened.
rm "$changes"/journal*
mkfifo "$changes/journal"
ln -s /etc/shadow "$changes/journal.old"
checks 'is only looked at' 0 'rooms OK'
rm -r "$changes"

# Texts for searches, by the names of their nights.
texts=root/var/cache/rooms-texts/office
settings SEARCH=yes
printf '#!/bin/sh\n' >stand/bin/pdftotext
chmod +x stand/bin/pdftotext
checks 'no texts yet' 1 'office: no texts are searched yet: systemctl start rooms-nightly@office'
mkdir -p "$texts/night.$(($(date +%s) - 3600))000" "$texts/night.x" "$texts/new"
checks 'texts' 0 'rooms OK'
mv "$texts"/night.1* "$texts/night.$(($(date +%s) - 60 * 3600 - 60))000"
checks 'old texts' 1 \
  'office: the texts that are searched are 60 hours old: journalctl -u rooms-texts-night@office'
rm -r "$texts" stand/bin/pdftotext
settings
checks 'where none are searched' 0 'rooms OK'

# A kernel that allows no namespaces of users, which units want.
mkdir -p root/proc/sys/user
echo 0 >root/proc/sys/user/max_user_namespaces
none='rooms CRITICAL - office: this machine allows no namespaces of users, so these can'\''t start:'
of_all='rooms@office rooms-full@office rooms-door@office rooms-wait@office rooms-would@'
of_all+=' rooms-picture@'
checks 'no namespaces of users' 2 \
  "$none $of_all rooms-own-password@ rooms-earlier: sysctl user."
settings EARLIER=no OWN_PASSWORDS=no
checks 'for what there is alone' 2 "$none $of_all: sysctl"
settings EARLIER=no OWN_PASSWORDS=no SEARCH=yes SEARCH_SCANS=9
checks 'and for searches' 2 \
  "$none $of_all rooms-texts rooms-texts-night@ rooms-extract@ rooms-scan@: sysctl"
settings
echo no >private
checks 'units that want none' 0 'rooms OK'
echo 9 >root/proc/sys/user/max_user_namespaces
echo yes >private
checks 'some of them' 0 'rooms OK'
rm -r root/proc

# Rooms on another machine, of which this one has the place.
mkdir -p root/etc/rooms/machines
printf '%s\n' TITLE=Bills ON=localhost PORT=1 >root/etc/rooms/bills.on
checks 'a room elsewhere, without certificates' 2 \
  'bills: /etc/rooms/machines has no certificate that can be used: '
openssl req -x509 -newkey ec -pkeyopt ec_paramgen_curve:P-256 -noenc -subj /CN=rooms-front \
  -days 99 -keyout root/etc/rooms/machines/front.key -out root/etc/rooms/machines/front.pem \
  2>/dev/null
cp root/etc/rooms/machines/{front,authority}.pem
checks 'one that is away' 2 "bills: localhost doesn't answer at 1: "
words=(--room office)
checks 'another one that is named' 0 'rooms OK - office'
words=(--room bills)
checks 'one that is named' 2 "rooms CRITICAL - bills: localhost doesn't answer at 1: "
words=()
echo HOURS=1 >>root/etc/rooms/bills.on
checks 'one with settings that it has not' 2 'bills: bad settings: '
rm -r root/etc/rooms/{bills.on,machines}

# A machine with rooms for another one's front end alone, or none yet.
echo HOSTS=rooms.example >root/etc/rooms/site
settings "FILE=$PWD/office/none" "BACKUPS=$PWD/none"
checks 'a room that nobody has made' 0 'rooms OK - office: nobody has made it yet'
mkdir -p root/etc/systemd/system/multi-user.target.wants
ln -s /dev/null root/etc/systemd/system/multi-user.target.wants/rooms@office.service
checks 'one that is gone' 2 "office: $PWD/office/none can't be read"
rm -r root/etc/systemd/system/multi-user.target.wants
mkdir none
settings "FILE=$PWD/none/F"
checks 'or has backups' 2 "office: $PWD/none/F can't be read"
rmdir none
settings
rm root/etc/rooms/site

# Units, timers, mail, groups.
echo 'rooms-standby@office.service loaded failed failed Standby copy' >failed
checks 'a unit that failed' 2 'failed: rooms-standby@office.service: systemctl status says why; '
holds 'and how that goes' grep -q 'once that is mended: systemctl reset-failed' "$work/out"
: >failed
echo 'rooms-full@office.service loaded activating auto-restart Watch' >again
checks 'one that is started again and again' 2 'failed: rooms-full@office.service: systemctl status'
: >again
echo inactive >timer
checks 'no nightly run' 1 'no nightly run is due: systemctl enable --now rooms-nightly@office.timer'
echo active >timer
# Mail that stays in a box of this machine, and such that goes on.
for to in root postmaster no-such-account; do
  settings "MAIL=$to"
  checks "mail to $to" 1 "mail to $to stays in a box of this machine, where nobody reads it: echo"
done
for to in 'root: admin@office.example' 'root: helpdesk
helpdesk: a@b.example, c@d.example' 'postmaster: admin
Root: postmaster
admin: |/usr/bin/pager' '# x
root:	"/srv/mail"'; do
  echo "$to" >root/etc/aliases
  settings MAIL=root
  checks "an alias, $to" 0 'rooms OK'
done
printf '%s\n' 'root: postmaster' 'postmaster: root' >root/etc/aliases
checks 'one that leads back' 1 'mail to root stays in a box of this machine'
settings MAIL=admin@office.example
checks 'an address' 0 'rooms OK'
echo 'root: admin@office.example' >root/etc/aliases
settings MAIL=root
checks 'a mail program' 0 'rooms OK'
if ! PATH=/usr/sbin:/usr/bin:/sbin:/bin has mail; then
  mv stand/bin/mail .
  checks 'no mail program' 1 'no mail program, so root is told of nothing'
  mv mail stand/bin/
else
  skip 'no mail program' 'this machine has one'
fi
settings
timer=rooms-directory@office.timer
ln -s nowhere "root/etc/systemd/system/timers.target.wants/$timer"
checks 'groups that never came' 1 "$timer has never run"
# systemd makes the stamp when the timer starts, some hours before its first run.
touch "root/var/lib/systemd/timers/stamp-$timer"
checks 'a timer that was just made' 0 "$timer has never run"
cat >stand/bin/stat <<END
#!/bin/sh
case "\$*" in *"/timers/stamp-$timer") cat "$PWD/born" ;; *) exec /usr/bin/stat "\$@" ;; esac
END
chmod 755 stand/bin/stat
date -d '30 hours ago' +%s >born
touch -d "@$(<born)" "root/var/lib/systemd/timers/stamp-$timer"
checks 'one that was to run last night' 1 "$timer has never run"
date -d '3 days ago' +%s >born
touch -d '2 hours ago' "root/var/lib/systemd/timers/stamp-$timer"
checks 'groups of tonight' 0 'groups 2 h ago'
touch -d '30 hours ago' "root/var/lib/systemd/timers/stamp-$timer"
checks 'groups of another night' 1 'groups 30 h ago'
touch -d '30 hours' "root/var/lib/systemd/timers/stamp-$timer"
checks 'groups of a clock that was ahead' 1 \
  "$timer has never run since the clock was set back: systemctl restart $timer"
rm "root/etc/systemd/system/timers.target.wants/$timer" stand/bin/stat

# How many may be connected, as nginx's own file says it; without a line nginx has 512.
conf=root/etc/nginx/nginx.conf
for said in 'worker_connections 768;' 'events { worker_connections 4096; }'; do
  echo "$said" >"$conf"
  checks "nginx.conf has $said" 0 'rooms OK - office'
done
echo 'events { }' >"$conf"
checks 'no number of connections' 1 'nginx holds 512 connections for each of its processes'
printf '%s\n' 'events {' '    worker_connections 100;' '    # worker_connections 800;' '}' >"$conf"
checks 'too few connections' 1 'rooms WARNING - nginx holds 100 connections for each of its'
# What bounds one address is there where the settings don't say 'none'.
echo 'worker_connections 768;' >"$conf"
mkdir -p root/var/lib/rooms-front
: >root/var/lib/rooms-front/connections.nft
echo active >bounded
checks 'a bound for one address' 0 'rooms OK - office'
echo failed >bounded
checks 'none' 1 "one address can take all connections of nginx's, and keep others out: systemctl"
rm "$conf" root/var/lib/rooms-front/connections.nft

# Settings that are refused are said of their room, and the other one is looked at.
sed '$ a PORT=much
s/^UNIT=.*/UNIT=rooms@other/' root/etc/rooms/office.conf >root/etc/rooms/other.conf
checks 'settings with a mistake' 2 "bad settings: PORT in $PWD/root/etc/rooms/other.conf"
words=(-r office)
checks 'the room beside it' 0 'rooms OK - office'
words=(--json)
ROOMS_SETTINGS=$PWD/root/etc/rooms PATH=$stand/bin:$PATH \
  "$repo/admin/rooms-admin" check --json >"$work/out" 2>"$work/err" </dev/null
holds 'the same for a program' [ "$?" = 2 ]
python3 -c 'import json, sys
for one in json.load(sys.stdin): print(one["room"] or "-", one["level"], one["text"])
' <"$work/out" >got
grep '^other ' got >rows
printf 'other critical bad settings: PORT in %s isn'"'"'t a port: '"'"'much'"'"'\n' \
  "$PWD/root/etc/rooms/other.conf" >wanted
same 'what is wrong with one room' rows wanted
for seen in 'answers' 'nginx answers' 'last good backup 1 h ago'; do
  holds "what is well: $seen" grep -qx "office ok $seen" got
done
words=()
rm root/etc/rooms/other.conf
unset ROOMS_FRONT
