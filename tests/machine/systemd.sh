# The units under systemd itself, on a machine that is booted.

top=$here/..
version=none
. "$here/lib/machine.sh"
. "$here/lib/booted.sh"
boot_machine 'the units under systemd' || return

# The package, and the README's commands.
does 'the package is installed' 'dpkg -i rooms.deb'
does 'a room' 'runuser -u rooms -- rooms init /var/lib/rooms/office.rooms alice staff &&
  systemctl enable --now rooms@office rooms-nightly@office.timer &&
  rooms-admin user add alice <<<a &&
  systemctl reload nginx'
shows 'the server' rooms@office ActiveState active
shows 'its watch' rooms-full@office ActiveState active
shows 'its door' rooms-door@office ActiveState active
does 'units with faults' 'systemctl list-units --state=failed --no-legend --plain "rooms*"'
holds 'there are none' [ ! -s "$work/out" ]
does 'when the nightly run begins' \
  'systemctl show rooms-nightly@office.timer -p NextElapseUSecRealtime --value'
holds 'at four' grep -q ' 04:00:00 ' "$work/out"
# Who reaches what: the folder of a socket is passed through by nginx alone, and a port is closed to
# others.
does 'the folder for its socket' 'stat -c "%U %G %a" /run/rooms /run/rooms/office'
printf '%s\n' 'root root 755' 'root www-data 710' >wanted
same 'is for nginx' "$work/out" wanted
does 'who gets there' 'for user in root www-data rooms nobody; do
  ! setpriv --reuid=$user --regid=$(id -g $user) --clear-groups curl -s -o /dev/null \
    --unix-socket /run/rooms/office/socket "http://localhost/can/?" || echo $user
  done; ! (exec 3<>/dev/tcp/127.0.0.1/8780) 2>/dev/null'
printf '%s\n' root www-data >wanted
same 'are root and nginx, and there is no port' "$work/out" wanted
# What lies on the disk: who else than root reads it.
does 'a backup, and a key' 'systemctl start rooms-nightly@office
  : >/etc/rooms/passwords.key; chmod 600 /etc/rooms/passwords.key'
does 'who reads what' 'for user in nobody www-data rooms rooms-passwords rooms-mail rooms-door \
  rooms-backup rooms-night rooms-earlier rooms-wait rooms-texts rooms-extract \
  rooms-picture rooms-would; do
  for file in /var/lib/rooms/office.rooms /var/backups/rooms/office/2*/office.rooms \
    /var/backups/rooms/office/2*/machine.tar /var/lib/rooms-passwords/rooms.htpasswd \
    /etc/rooms/passwords.key /var/lib/rooms-web/office/people.json /etc/shadow; do
    ! setpriv --reuid=$user --regid=$(id -g $user) --clear-groups head -c 1 "$file" \
      >/dev/null 2>&1 || echo $user ${file##*/}
  done; done; rm /etc/rooms/passwords.key'
printf '%s\n' 'www-data rooms.htpasswd' 'www-data people.json' 'rooms office.rooms' >wanted
same 'each its own' "$work/out" wanted
# A room's socket, by the name that others know and by the one that its server gave it.
does 'who gets to a room' 'for place in rooms rooms-server; do
  for user in root www-data rooms nobody; do
    ! setpriv --reuid=$user --regid=$(id -g $user) --clear-groups curl -s -o /dev/null \
      --unix-socket /run/$place/office/socket "http://localhost/can/?" || echo $place $user
  done; done'
printf '%s\n' 'rooms root' 'rooms www-data' 'rooms-server root' 'rooms-server rooms' >wanted
same 'root, nginx, and the user of servers at their own' "$work/out" wanted
# The door: nginx alone gets to it, and it gets to rooms and to nothing else.
does 'what it answers' 'curl -s -u alice:a http://127.0.0.1/door/find/?x'
holds 'as the room would' \
  grep -qxF '{"all":true,"at":"/","found":[],"unlisted":[]}' "$work/out"
does 'the folder for its socket' \
  'cd /run/rooms-door && stat -c "%U %G %a" office office/socket office/kept'
printf '%s\n' 'root root 711' 'root www-data 660' 'rooms-door www-data 700' >wanted
same 'is root'\''s, and the socket nginx'\''s' "$work/out" wanted
does 'who gets to the door' 'for user in root www-data rooms nobody; do
  ! setpriv --reuid=$user --regid=$(id -g $user) --clear-groups curl -s -o /dev/null \
    --unix-socket /run/rooms-door/office/socket http://localhost/ || echo $user
  done'
printf '%s\n' root www-data >wanted
same 'are root and nginx' "$work/out" wanted
does 'what it sees' 'door=$(systemctl show rooms-door@office -p MainPID --value)
  ls /proc/$door/root/run /proc/$door/root/var /proc/$door/root/etc
  grep -E "^(Uid|CapEff|NoNewPrivs)" /proc/$door/status | tr "\t" " "
  ls /proc/$door/root/run/rooms-door; nsenter -t $door -n ls /sys/class/net 2>/dev/null | head -n 1'
cat "$work/out" >seen
holds "$(tr '\n' ' ' <seen): it has no capability" grep -qx 'CapEff: 0000000000000000' seen
holds 'and can get none' grep -qx 'NoNewPrivs: 1' seen
holds 'no password and no settings' [ "$(grep -c -e nginx -e htpasswd -e '^passwd' seen)" = 0 ]
# When a document changed: nginx writes lines for it, and root tells it what a night's copy has.
does 'a change' 'curl -s -o /dev/null -u alice:a -X PUT --data-binary 123 \
  http://127.0.0.1/doc/dated'
until_inside 'is known' 'curl -s -u alice:a http://127.0.0.1/door/folder/ |
  grep -q "\"name\":\"dated\",\"size\":3,\"when\":"'
does 'whose the files are' 'cd /var/lib/rooms-changes &&
  stat -c "%n %U %G %a" . office office/journal office/dates.db'
printf '%s\n' '. root root 755' 'office rooms-door www-data 710' \
  'office/journal rooms-door www-data 620' 'office/dates.db rooms-door www-data 600' >wanted
same 'nginx adds lines, and reads none' "$work/out" wanted
does 'a night' 'systemctl start rooms-nightly@office
  cd /var/lib/rooms-told && stat -c "%n %U %a" . office.night'
printf '%s\n' '. root 711' 'office.night rooms-door 400' >wanted
same 'has a list for it' "$work/out" wanted
cat >"$machine/usr/local/lib/last_list.py" <<'END'
import sqlite3
print(*sqlite3.connect("/var/lib/rooms-changes/office/dates.db").execute(
    "SELECT value FROM told WHERE what = 'copy'").fetchone())
END
until_inside 'which it takes' '[ "$(python3 /usr/local/lib/last_list.py)" = \
  "$(sed -n "1s/ .*//p" /var/lib/rooms-told/office.night)" ]'
does 'the document goes' 'curl -s -u alice:a -X DELETE http://127.0.0.1/object/dated'
does 'it is killed' 'systemctl kill --kill-whom=main -s KILL rooms-door@office'
until_inside 'and comes back' \
  'curl -sf -o /dev/null -u alice:a http://127.0.0.1/door/find/?x'
does 'it is stopped' 'systemctl stop rooms-door@office'
does 'a room of before, which had none' \
  "printf '%s\n' DOOR= SOCKET=yes PORT=8780 >>/etc/rooms/office.conf; rooms-admin setup"
holds 'is told' grep -qxF \
  'new file /etc/rooms/office.conf, where DOOR and SOCKET said what each room has now' "$work/out"
holds 'and has one' grep -qx 'systemctl start rooms-door@office' "$work/out"
shows 'at once' rooms-door@office ActiveState active
does 'the port that was in reserve' 'tail -n 3 /etc/rooms/office.conf
  systemctl is-active rooms-port@office.socket || :; rooms-admin setup'
printf '%s\n' '# DOOR= says nothing any more: each room has its door.' \
  '# SOCKET=yes says nothing any more: each room has its socket.' PORT= inactive \
  'nothing to change' >wanted
head -n 5 "$work/out" >got
same 'stays closed, which is told once' got wanted
does 'those of the other page' "$(block docs/drive.md 'set DRIVE=yes')"
until_inside 'let documents be edited in place' '[ "$(curl -s -o /dev/null -w "%{http_code}" \
  -u alice:a -X PROPFIND -H "Depth: 0" http://127.0.0.1/drive/)" = 207 ]'
does 'nothing is to be closed' \
  'systemctl is-active rooms-firewall; ! nft list table inet rooms 2>/dev/null'
holds 'so the table is not loaded' grep -qx inactive "$work/out"
# The unit has started when the server answers.
restarts_well() { # NAME HOW-CURL-GETS-THERE
  local turn
  for turn in 1 2 3; do
    does "$1, restart $turn" \
      "systemctl restart rooms@office && curl -s -w ' %{http_code}\n' $2/can/?"
    holds "$1, restart $turn: is followed by an answer" grep -qx '{} 200' "$work/out"
  done
}
restarts_well 'at its socket' '--unix-socket /run/rooms/office/socket http://localhost'
# A port that another program has is told, and listened at once it is free.
does 'another program at the port' 'systemd-run -q --unit=other python3 -m http.server \
    --bind 127.0.0.1 8780 && until (: </dev/tcp/127.0.0.1/8780) 2>/dev/null; do sleep 0.1; done
  rooms-admin set PORT=8780 && echo set
  cp -p /etc/rooms/office.conf /root/; echo PORT=8780 >>/etc/rooms/office.conf
  rooms-admin setup; echo "status $?"; systemctl stop other; rooms-admin setup; echo "then $?"
  systemctl is-active rooms-port@office.socket'
for text in 'nothing listens at the port of office: ' 'status 1' 'then 0' active; do
  holds "is told: $text" grep -q "^$text" "$work/out"
done
holds 'and refused by the verb' eval '! grep -qx set "$work/out"'
does 'as it was' 'mv /root/office.conf /etc/rooms/; rooms-admin setup
  systemctl reset-failed rooms-port@office.socket || :'
# A port beside it, and none again, by the blocks of the page: only root and nginx are answered
# there, whatever rules of the firewall somebody loads.
does 'a port' "$(block docs/operating.md 'set PORT=8780')"
does 'what there is' 'systemctl is-active rooms-port@office.socket rooms-firewall &&
  nft list table inet rooms | grep -c "tcp dport"; ls /run/rooms/office'
printf '%s\n' active active 1 socket >wanted
same 'a port, a rule, and the socket' "$work/out" wanted
gets_to_port() { # NAME
  does "$1" 'for user in root www-data rooms rooms-door nobody; do
    ! setpriv --reuid=$user --regid=nogroup --clear-groups curl -sf -m 9 -o /dev/null \
      -H "Room-User: alice" "http://127.0.0.1:8780/can/?" || echo $user; done'
  printf '%s\n' root www-data >wanted
  same "$1: root and nginx" "$work/out" wanted
}
gets_to_port 'who gets to the port'
# By the kernel, and not by a list that any account makes long (services/wait).
does 'which is asked' 'process=$(systemctl show rooms-port@office -p MainPID --value)
  grep -qz "^LISTEN_FDS=2$" /proc/$process/environ'
stop_machine
holds 'the machine starts again' boot
does 'and the table is there before the port' 'entered() { systemctl show "$1" -p "$2" --value; }
  [ "$(entered rooms-firewall ActiveEnterTimestampMonotonic)" -lt \
    "$(entered rooms-port@office.socket ActiveEnterTimestampMonotonic)" ]'
gets_to_port 'who gets to it then'
restarts_well 'at its port' http://127.0.0.1:8780
until_inside 'nginx gets there' '[ "$(curl -s -u alice:a http://127.0.0.1/can/?)" = "{}" ]'
does 'loaded again' 'systemctl restart rooms-firewall && systemctl reload rooms-firewall &&
  nft list table inet rooms | grep -c "tcp dport"'
holds 'it has one rule' grep -qx 1 "$work/out"
# An account that keeps trying, while rules that somebody loads drop the table.
cp "$here/machine/tries.py" "$machine/usr/local/lib/tries.py"
does 'rules loaded again and again' "
  printf '#!/usr/sbin/nft -f\nflush ruleset\n' >/etc/nftables.conf
  setpriv --reuid=nobody --regid=nogroup --clear-groups python3 -I /usr/local/lib/tries.py &
  for turn in 1 2 3 4 5 6 7 8; do nft -f /etc/nftables.conf; sleep 1; done; wait"
holds "let nobody in: $(cat "$work/out")" grep -qx 'True 0' "$work/out"
dropped() { # NAME TEXT
  does "$1" "$2"
  until_inside "$1: the table comes back" 'nft list table inet rooms | grep "tcp dport"'
  gets_to_port "$1: who gets to the port then"
}
dropped 'rules loaded by hand' 'nft -f /etc/nftables.conf'
dropped 'what keeps it is killed' \
  'systemctl kill --kill-whom=main -s KILL rooms-firewall; nft -f /etc/nftables.conf'
does 'nothing keeps it' 'systemctl stop rooms-firewall && nft delete table inet rooms'
gets_to_port 'who gets to the port then'
does 'the room is started again' 'systemctl restart rooms@office; systemctl reset-failed'
dropped 'the service of nftables starts' 'systemctl start nftables'
dropped 'it is loaded again' 'systemctl reload nftables'
dropped 'it is started again' 'systemctl restart nftables'
dropped 'it stops' 'systemctl disable --now nftables'
does 'another upgrade' \
  'dpkg -i rooms.deb && tail -n 1 /etc/rooms/office.conf'
holds 'leaves the port' [ "$(tail -n 1 "$work/out")" = PORT=8780 ]
gets_to_port 'who gets to it after that'
does 'no port' "$(block docs/operating.md 'set PORT= ')"
does 'is there' 'systemctl is-active rooms-port@office.socket || :
  ls -d /etc/systemd/system/rooms-port* /etc/systemd/system/rooms@office.service.wants/* || :
  (exec 3<>/dev/tcp/127.0.0.1/8780) 2>/dev/null || echo closed'
printf '%s\n' inactive closed >wanted
same 'nor a unit of it' "$work/out" wanted
until_inside 'nginx gets there too' '[ "$(curl -s -u alice:a http://127.0.0.1/can/?)" = "{}" ]'
does 'what checks passwords' \
  'systemctl show rooms-passwords -p Wants -p After | grep -c rooms-firewall.service'
holds 'asks for the table first' grep -qx 2 "$work/out"
# A version before: its server has the port itself, and its settings no line for a socket.
does 'a server of a version before' 'unit=/etc/systemd/system/rooms@office.service.d
  systemctl stop rooms@office
  mkdir $unit && printf "%s\n" "[Service]" ExecStart= ExecStartPost= ExecStop= ExecStopPost= \
    PrivateNetwork=no \
    "ExecStart=/usr/bin/rooms serve \${FILE} --port 8780 --count 1000" \
    "RestrictAddressFamilies=AF_INET AF_UNIX" IPAddressAllow=localhost >$unit/before.conf
  echo PORT=8780 >>/etc/rooms/office.conf; systemctl daemon-reload
  systemctl restart rooms@office; sleep 1; ls /run/rooms/office; rm -r $unit
  curl -sf "http://127.0.0.1:8780/can/?" && echo && dpkg -i rooms.deb'
holds 'has a port' [ "$(head -n 1 "$work/out")" = '{}' ]
gets_to_port 'which it has after the upgrade'
does 'at once' 'curl -s -u alice:a http://127.0.0.1/can/?; ls /run/rooms/office'
printf '{}socket\n' >wanted
same 'nginx gets there, by a socket' "$work/out" wanted
does 'a table that can not be loaded' 'systemctl stop rooms-firewall
  nft delete table inet rooms; mv /usr/sbin/nft . && systemctl restart rooms@office &&
  until systemctl -q is-failed rooms-firewall; do sleep 0.1; done && echo failed'
holds 'fails, which is told' grep -qx failed "$work/out"
gets_to_port 'who gets to the port even so'
does 'back' 'mv nft /usr/sbin; systemctl reset-failed rooms-firewall
  echo PORT= >>/etc/rooms/office.conf && rooms-admin setup && systemctl restart rooms@office'
does 'how long runs may take' \
  'for unit in nightly standby directory; do
    systemctl show rooms-$unit@office -p TimeoutStartUSec --value; done'
printf '%s\n' 4h 1h 1h >wanted
same 'ends' "$work/out" wanted

# A unit that fails is told of, by a mail program that another user runs.
mkdir -m 777 "$machine/srv/mailed"
# As mail programs do it: who delivers the mail goes on when the program has ended.
cat >"$machine/usr/local/bin/mail" <<'END'
#!/bin/sh
{ id -un; echo "$*"; cat; } >"/srv/mailed/.$$"
(sleep 2; mv "/srv/mailed/.$$" "/srv/mailed/$$") </dev/null >/dev/null 2>&1 &
END
chmod 755 "$machine/usr/local/bin/mail"
echo 'root: admin@office.example' >"$machine/etc/aliases"
inside 'systemctl start rooms-directory@office'
holds 'groups without settings fail' [ "$status" = 1 ]
until_inside 'somebody is told, once it is delivered' 'cat /srv/mailed/*'
for text in rooms-mail 'root$' 'rooms-directory@office.service on .* failed (exit-code)' \
  'no settings: /etc/rooms/office.groups' 'systemctl status rooms-directory@office.service'; do
  holds "somebody is told ($text): $(head -c 300 "$work/out")" grep -q -e "$text" "$work/out"
done
inside 'systemctl start rooms-directory@office; systemctl start rooms-directory@office'
until_inside 'they have failed again' \
  'systemctl is-failed rooms-directory@office &&
  systemctl show rooms-tell@rooms-directory@office.service -p ActiveState --value |
  grep -qx inactive'
does 'how often' 'sleep 3; ls /srv/mailed | wc -l'
holds 'once' grep -qx 1 "$work/out"
does 'what failed is forgotten' 'systemctl reset-failed; rm /srv/mailed/*'
# A run that warns of something and fails by something else: each is told.
list_is() { # NAME ENTRY ..
  does "$1" "printf '%s\n' list:a A:fd:alice:$ALL ${*:2} | curl -sf -X PUT --data-binary @- \
    -H 'Room-User: alice' --unix-socket /run/rooms/office/socket http://localhost/dacl/"
}
list_is 'a date that can not be kept' A:fd:eve:rxt A:g:until.2026-01-01.read.u.eve@alice:
does 'a file with the name of a backup' ': >/var/backups/rooms/office/2026-01-01.040000'
inside 'systemctl start rooms-nightly@office'
holds 'the nightly run fails' [ "$status" != 0 ]
until_inside 'two mails are sent' '[ "$(ls /srv/mailed | wc -l)" = 2 ] && cat /srv/mailed/*'
for text in 'rooms-nightly@office.service on .* has a warning root$' 'not taken back: /: read of' \
  'rooms-nightly@office.service on .* failed (exit-code) root$' 'no older backup is removed'; do
  holds "two mails ($text): $(head -c 300 "$work/out")" grep -q -e "$text" "$work/out"
done
list_is 'the list as before'
does 'all else too' 'rm /var/backups/rooms/office/2026-01-01.040000 /srv/mailed/*
  systemctl reset-failed'

# Two administrators: one has setup move passwords, which nginx refuses after a while, and the other
# shuts somebody out meanwhile.
does 'bob' 'rooms-admin user add bob <<<b &&
  sed -i "s/^OWN_PASSWORDS=.*/OWN_PASSWORDS=no/" /etc/rooms/office.conf && rooms-admin setup'
cat >"$machine/usr/local/sbin/nginx" <<'END'
#!/bin/sh
[ "$1" != -t ] || { sleep 3; echo refused; exit 1; }
exec /usr/sbin/nginx "$@"
END
chmod 755 "$machine/usr/local/sbin/nginx"
inside 'sed -i "s/^OWN_PASSWORDS=.*/OWN_PASSWORDS=yes/" /etc/rooms/office.conf
  rooms-admin setup & sleep 1.5; rooms-admin user remove bob --password && wait $!'
told 'a move that nginx refuses' 1 'no password for bob any more' 'nginx refuses its files'
does 'bob stays shut out' 'rm /usr/local/sbin/nginx
  ! grep -h ^bob: /etc/nginx/rooms.htpasswd /var/lib/rooms-passwords/rooms.htpasswd 2>/dev/null
  grep -c ^alice: /etc/nginx/rooms.htpasswd; rooms-admin setup
  ! grep ^bob: /var/lib/rooms-passwords/rooms.htpasswd'

answers() { # NAME
  until_inside "$1: the room answers" \
    '[ "$(curl -s -m 20 --unix-socket /run/rooms/office/socket "http://localhost/can/?")" = "{}" ]'
}
answers 'a start'
web='curl -s -o said -w %{http_code} -u alice:a'
# For a moment after a reload of nginx a worker of before may answer, which doesn't know the place
# yet.
answer_is() { # NAME STATUS TEXT
  local began=$SECONDS
  until inside "$3"; [ "$(cat "$work/out")" != 404 ] || [ "$2" = 404 ] ||
    [ $((SECONDS - began)) -ge 10 ]; do
    sleep 0.2
  done
  holds "$1: $2" [ "$(cat "$work/out")" = "$2" ]
}
answer_is 'a document' 201 "$web -X PUT -d hello http://127.0.0.1/doc/f"

# A nightly run: the same process serves before and after it, and its copy has the document.
does 'which process serves' 'systemctl show rooms@office -p MainPID --value'
before=$(cat "$work/out")
does 'a nightly run' 'systemctl start rooms-nightly@office'
shows 'without a stop' rooms@office MainPID "$before"
shows 'it went well' rooms-nightly@office Result success
does 'its copy' 'rooms dump "$(rooms-admin latest)/office.rooms"'
holds 'has the document' grep -q '^document alice staff 5 /f$' "$work/out"

# It is killed at whatever it does: the room answers, and what is left goes with the next run.
for turn in 1 2 3 4 5 6; do
  inside "systemctl start --no-block rooms-nightly@office; sleep 0.$((turn * 7 % 10))
    systemctl kill --kill-whom=$([ $((turn % 2)) = 0 ] && echo main || echo all) -s KILL \
      rooms-nightly@office"
  answers "a run that is killed, $turn"
  ends "a run that is killed, $turn" rooms-nightly@office
done
shows 'the server was never restarted' rooms@office MainPID "$before"
does 'the next run' 'rooms-admin backup; rooms-admin backup &&
  ! ls -d /run/rooms-directory.* /var/backups/rooms/office/*.part 2>/dev/null'
# Nothing of it has a right over others.
does 'its rights' 'for unit in nightly standby; do
  systemctl show "rooms-$unit@office" -p CapabilityBoundingSet --value; done'
holds 'are few' [ "$(grep -c -e cap_kill -e cap_sys_ptrace "$work/out")" = 0 ]

# Copies beside restarts of the unit: each one is sound, and the server runs in the end.
does 'standby copies' \
  'systemctl start rooms-standby@office && rooms verify /var/backups/rooms/office/standby/office.rooms'
for turn in 1 2 3 4; do
  inside "systemctl start --no-block rooms-standby@office; sleep 0.0$((turn * 3))
    systemctl restart rooms@office"
  ends "a copy beside a restart, $turn" rooms-standby@office
  answers "a copy beside a restart, $turn"
  does "the copy, $turn" 'rooms verify /var/backups/rooms/office/standby/office.rooms'
  holds "is sound, $turn" grep -qx sound "$work/out"
done
# One that found no server has failed, which the check would tell.
inside 'systemctl reset-failed rooms-standby@office'
does 'its timer' 'systemctl enable --now rooms-standby@office.timer &&
  systemctl list-timers --no-legend rooms-standby@office.timer'
holds 'is set' [ -s "$work/out" ]
does 'the timer is switched off' 'systemctl disable --now rooms-standby@office.timer'

# A room for another machine's front end, and the place of a room that is on another machine, by the
# blocks of machines.md.
does 'certificates' "$(block docs/machines.md 'certificate --machine b.example')
cd /etc/rooms/machines && cp b.example.pem machine.pem && cp b.example.key machine.key"
does 'a room for another front end' "$(block docs/machines.md 'rooms-admin add --behind')"
shows 'its server' rooms@invoices ActiveState active
front='--cert /etc/rooms/machines/front.pem --key /etc/rooms/machines/front.key'
there='--cacert /etc/rooms/machines/authority.pem --resolve b.example:8443:127.0.0.1 -H Room-User:carol'
answer_is 'the front end gets there' 200 \
  "$web $front $there https://b.example:8443/invoices/folder/"
answer_is 'nobody else does' 400 "$web $there https://b.example:8443/invoices/folder/"
answer_is 'its own site does not show it' 404 "$web http://127.0.0.1/invoices/folder/"
inside 'rooms-admin add --on nowhere.example other'
holds 'a machine that has no address fails' [ "$status" = 1 ]
holds 'by its name' grep -q 'host not found in upstream' "$work/err"
does 'and leaves nothing' \
  '! ls -d /etc/rooms/other* /etc/nginx/rooms-other* 2>/dev/null && nginx -t -q'
does 'a place' 'echo 127.0.0.9 c.example >>/etc/hosts && rooms-admin add --on c.example other &&
  rooms-admin user add alice --room other <<<a'
until_inside 'is there' "[ \"\$($web http://127.0.0.1/other/)\" = 200 ]"
until_inside 'and a machine of another name gets nothing' \
  "[ \"\$($web http://127.0.0.1/other/folder/)\" = 502 ]"
does 'timers that somebody enabled' \
  'systemctl enable --now rooms-directory@invoices.timer rooms-standby@invoices.timer'
does 'both are taken away' 'rooms-admin remove other && rooms-admin remove invoices'
for timer in nightly standby directory; do
  shows "with the timer of rooms-$timer" "rooms-$timer@invoices.timer" ActiveState inactive
done
does 'no unit of it is enabled' '! ls -d /etc/systemd/system/*.wants/*invoices* 2>/dev/null'
shows 'with the server' rooms@invoices ActiveState inactive
shows 'and its watch' rooms-full@invoices ActiveState inactive
answer_is 'office is as before' 200 "$web http://127.0.0.1/doc/f"

# A full room. What MemoryMax says is the limit: 260 MB leave 2.
limit_memory() { # LINE ..
  does "limits: $*" "mkdir -p /etc/systemd/system/rooms@office.service.d &&
    printf '%s\n' '[Service]' $(printf "'%s' " "$@") \
      >/etc/systemd/system/rooms@office.service.d/memory.conf &&
    systemctl daemon-reload"
}
does 'the default' 'rooms-full --look'
holds 'is by the memory of the machine' grep -qxE '0 MB of [1-9][0-9]{2,} are in use' "$work/out"
limit_memory MemoryMax=155M
does 'the watch takes that over' "$(block docs/capacity.md 'restart rooms-full@office')"
holds 'two megabytes' grep -qx '0 MB of 2 are in use' "$work/out"
does 'uploads' 'head -c 1000000 /dev/zero >big; for n in 1 2 3; do
  curl -s -o said -u alice:a -X PUT -H Expect: --data-binary @big http://127.0.0.1/doc/big$n; done'
until_inside 'a flag' '[ -e /run/rooms-full/office.full ]'
answer_is 'what adds' 507 "$web -X PUT -d hello http://127.0.0.1/doc/more"
answer_is 'what reads' 200 "$web http://127.0.0.1/doc/f"
does 'the watch is killed' 'systemctl kill --kill-whom=main -s KILL rooms-full@office'
until_inside 'and started again' \
  '[ "$(systemctl show rooms-full@office -p NRestarts --value)" -ge 1 ] &&
  systemctl is-active -q rooms-full@office'
answer_is 'the room is as full' 507 "$web -X PUT -d hello http://127.0.0.1/doc/more"
answer_is 'what removes' 204 "$web -X DELETE http://127.0.0.1/object/big1"
answer_is 'and once more' 204 "$web -X DELETE http://127.0.0.1/object/big2"
until_inside 'no flag then' '[ ! -e /run/rooms-full/office.full ]'
answer_is 'what adds goes on' 201 "$web -X PUT -d hello http://127.0.0.1/doc/more"
does 'the server stops' 'systemctl stop rooms@office'
shows 'and its watch with it' rooms-full@office ActiveState inactive
does 'the server starts' 'systemctl start rooms@office'
shows 'and its watch with it' rooms-full@office ActiveState active
does 'a mistake in the settings' \
  'sed -i "s/^LIMIT=.*/LIMIT=much/" /etc/rooms/office.conf; systemctl restart rooms@office'
shows 'stops the watch' rooms-full@office ActiveState failed
answers 'but not the room'
inside 'systemctl start rooms-nightly@office'
holds 'the nightly run reports it' [ "$status" != 0 ]
does 'by its name' 'journalctl --no-pager -u rooms-nightly@office'
holds 'LIMIT' grep -q "bad settings: LIMIT in /etc/rooms/office.conf" "$work/out"
checks() { # NAME STATUS TEXT ..
  local text
  inside "$(block docs/capacity.md 'rooms-admin check')"
  holds "$1: $2 and not $status, $(head -c 400 "$work/out" "$work/err")" [ "$status" = "$2" ]
  for text in "${@:3}"; do
    holds "$1 ($text): $(head -c 400 "$work/out")" grep -qF -e "$text" "$work/out"
  done
}
checks 'and so does the check' 2 'rooms CRITICAL - ' \
  'failed: rooms-full@office.service rooms-nightly@office.service' \
  'bad settings: LIMIT in /etc/rooms/office.conf'
does 'the setting is mended' \
  'sed -i "s/^LIMIT=.*/LIMIT=/" /etc/rooms/office.conf; systemctl restart rooms@office'
shows 'and the watch is back' rooms-full@office ActiveState active
does 'and the nightly run' 'systemctl start rooms-nightly@office'
does 'no TLS, as it is meant' 'rooms-admin set --site UNENCRYPTED=yes'
checks 'the check has nothing to say' 0 'rooms OK - office: answers, nginx answers, ' \
  'of 2 MB in use'

# A server that can't start: by MemoryMax where this machine has that, otherwise by a limit of the
# process.
does 'more documents' 'for n in $(seq 30); do
  curl -s -o said --unix-socket /run/rooms/office/socket -X PUT -H "Room-User: alice" -H Expect: \
    --data-binary @big http://localhost/doc/m$n; done'
inside 'systemctl show rooms@office -p MemoryCurrent --value'
if [[ $(cat "$work/out") =~ ^[0-9]+$ ]]; then
  limit_memory MemoryMax=20M MemorySwapMax=0
else
  skip 'a server that is killed by MemoryMax' 'systemd has no such limit here; LimitAS= is used'
  limit_memory LimitAS=20M
fi
inside 'systemctl restart rooms@office'
inside 'timeout 110 rooms-nightly'
holds 'a server that can not start: the nightly run fails' [ "$status" = 1 ]
holds 'a server that can not start: it says so' \
  grep -q "rooms@office doesn't \(answer at /run/rooms/office/socket\|stay\|start\)" "$work/err"
does 'the limit is taken away' \
  'rm /etc/systemd/system/rooms@office.service.d/memory.conf; systemctl daemon-reload
  systemctl restart rooms@office'
answers 'with more memory'
does 'a nightly run after all' 'systemctl start rooms-nightly@office'
does 'all is there' 'rooms dump "$(rooms-admin latest)/office.rooms"'
holds 'also what was answered last' grep -q '^document alice staff 1000000 /m30$' "$work/out"

# The package goes while rooms are served, one by settings that name no unit: none is served then,
# least of all at a port that is open to every account.
does 'a room with a port' 'rooms-admin add --port 8790 ledger carol accounting &&
  sed -i "s/^UNIT=.*/UNIT=/" /etc/rooms/ledger.conf && systemctl is-active rooms@ledger'
as_nobody='setpriv --reuid=nobody --regid=nogroup --clear-groups curl -s -m 9 -o /dev/null
  -H Room-User:carol -w %{http_code} http://127.0.0.1:8790/folder/'
inside "$(tr '\n' ' ' <<<"$as_nobody")"
holds 'which is closed to others' grep -qx 000 "$work/out"
does 'the package is removed' 'dpkg -r rooms'
inside "$(tr '\n' ' ' <<<"$as_nobody")"
holds 'nobody gets there' grep -qx 000 "$work/out"
does 'what runs of it' 'grep -lsz -e "^/usr/lib/rooms/" -e "^/usr/s\?bin/rooms" \
    -e "rooms_service[s]" /proc/[0-9]*/cmdline || :
  systemctl reset-failed "rooms-tell*"
  systemctl list-units --plain --no-legend "rooms*"; nft list tables'
holds "is nothing, and there is no table: $(head -c 300 "$work/out")" [ ! -s "$work/out" ]
does 'purged' 'mkdir -p /var/lib/rooms-web/ledger && dpkg --purge rooms'
does 'its settings and what nginx showed' 'ls -d /etc/rooms/*.conf /var/lib/rooms-web 2>/dev/null
  ls /var/lib/rooms'
holds 'are gone' eval '! grep -q -e /etc/rooms -e rooms-web "$work/out"'
holds 'and the rooms stay' grep -qx ledger.rooms "$work/out"
stop_machine
rm -rf machine
