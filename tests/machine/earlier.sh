# Earlier nights on an installed machine, under systemd: a document that was removed comes back;
# what is shown after another machine has taken over; and what a program in the place of each
# service can do.

top=$here/..
version=none
. "$here/lib/machine.sh"
. "$here/lib/booted.sh"
boot_machine 'earlier nights on a machine' || return
does 'the package is installed' 'dpkg -i rooms.deb'
does 'a room' 'runuser -u rooms -- rooms init /var/lib/rooms/office.rooms alice staff &&
  systemctl enable --now rooms@office && rooms-admin user add alice <<<"gravel under bridges" &&
  rooms-admin user add bob <<<"walnuts in december" && systemctl reload-or-restart nginx'
for unit in earlier nights; do
  shows 'its socket' "rooms-$unit.socket" ActiveState active
  shows 'nothing runs as long as nobody asks' "rooms-$unit.service" ActiveState inactive
done
web='curl -s -o /dev/null -w %{http_code}'
is() { # NAME STATUS TEXT
  inside "$3"
  holds "$1: $(cat "$work/out" "$work/err")" [ "$(cat "$work/out")" = "$2" ]
}
at=http://127.0.0.1
alice="-u 'alice:gravel under bridges'"
bob="-u 'bob:walnuts in december'"
until_inside 'nginx asks for it' "[ \"\$($web $alice $at/folder/)\" = 200 ]"
is 'a list' 204 "printf 'list:a\nA:fd:alice:rwanNxDtThHdcCoy\nA:fd:bob:rxwatc\n' |
  $web $alice $at/dacl/ -X PUT --data-binary @-"
is 'a document of bob' 201 "$web $bob $at/doc/letter -X PUT --data-binary yesterday"
is 'no night yet' '{"gone":"owners","nights":[]}' "curl -s $bob $at/earlier/nights"
does 'a night' 'systemctl start rooms-nightly@office'
is 'it is removed' 204 "$web $alice $at/object/letter -X DELETE"
does 'its name' 'basename "$(rooms-admin latest)"'
night=$(cat "$work/out")
inside "time -p $web $bob $at/earlier/$night/doc/letter"
holds "bob sees it: $(cat "$work/out")" [ "$(cat "$work/out")" = 200 ]
echo "  a night opened under systemd: $(sed -n 's/^real //p' "$work/err") s"
is 'as it was' yesterday "curl -s $bob $at/earlier/$night/doc/letter"
is 'and alice, who manages the room' yesterday "curl -s $alice $at/earlier/$night/doc/letter"
is 'he puts it back' 201 "curl -s $bob $at/earlier/$night/doc/letter |
  $web $bob $at/doc/letter -X PUT --data-binary @-"
does 'whose the copies are' 'cd /var/cache/rooms-nights && stat -c "%U %G %a" . * && cd \
  /run/rooms-nights && stat -c "%U %G %a" . socket open open/* && cd /run/rooms-earlier &&
  stat -c "%U %G %a" . socket'
printf '%s\n' 'rooms-night rooms-earlier 700' 'rooms-night rooms-earlier 700' 'root root 711' \
  'root rooms-earlier 660' 'rooms-night rooms-earlier 711' 'rooms-night rooms-earlier 710' \
  'root root 711' 'root www-data 660' >wanted
same 'are for two services and nginx' "$work/out" wanted
does 'who runs' 'for unit in earlier nights; do
    process=$(systemctl show rooms-$unit -p MainPID --value)
    for one in $process $(cat /proc/$process/task/*/children); do
      echo "$(stat -c %U /proc/$one) $(sed -n "s/^CapEff:[[:space:]]*//p" /proc/$one/status)"
    done
  done'
printf '%s\n' 'rooms-earlier 0000000000000000' 'rooms-night 0000000000000004' \
  'rooms-night 0000000000000000' >wanted
same 'as whom, and with what right' "$work/out" wanted
# Who opens them is asked for more than it may do, for ten seconds.
cp "$here/machine/loaded.py" "$machine/usr/local/lib/"
does 'six nights' 'for n in 1 2 3 4 5; do systemctl start rooms-nightly@office; sleep 1; done'
does 'a load' \
  'python3 -IB /usr/local/lib/loaded.py 10 $(basename -a /var/backups/rooms/office/2*)'
told=$(cat "$work/out")
holds "no more than 96 tasks, 1,536 MB, four nights: $told" awk '{
  exit !($1 > 40 && $1 <= 96 && $3 > 0 && $3 <= 1536 && $5 == 4 && $7 > 20 && $9 > 0 && $11 > 0)
}' <<<"$told"
until_inside 'and it goes on' "[ \"\$($web $bob $at/earlier/$night/doc/letter)\" = 200 ]"
# Each is killed, and comes again.
for unit in earlier nights; do
  does "rooms-$unit is killed" "systemctl kill --kill-whom=main -s KILL rooms-$unit.service"
  until_inside 'and comes again' "[ \"\$($web $bob $at/earlier/$night/doc/letter)\" = 200 ]"
done
# One that can't start is tried again and again, and not as fast as it fails.
broken=$machine/etc/systemd/system/rooms-earlier.service.d
mkdir "$broken"
printf '%s\n' '[Service]' ExecStart= ExecStart=/bin/false >"$broken/broken.conf"
does 'a judge that fails' "systemctl daemon-reload; systemctl stop rooms-earlier.service
  curl -s -m 9 $bob $at/earlier/nights; journalctl --sync; journalctl -u rooms-earlier.service \
    --no-pager -o cat --since '9 seconds ago' | grep -c 'Main process exited'"
tries=$(tail -n 1 "$work/out")
holds "is tried every other second: $tries times in nine" [ "$tries" -ge 2 -a "$tries" -le 6 ]
rm -r "$broken"
does 'it is mended' 'systemctl daemon-reload'
until_inside 'and judges again' "[ \"\$($web $bob $at/earlier/$night/doc/letter)\" = 200 ]"
does 'the setting' 'sed -i s/^EARLIER=.*/EARLIER=no/ /etc/rooms/office.conf'
is 'counts at once' 404 "$web $bob $at/earlier/$night/doc/letter"
does 'and setup' 'rooms-admin setup'
until_inside 'says it to nginx' \
  "curl -s $bob $at/earlier/nights | grep -qxF '{\"why\":\"no-earlier\"}'"
for unit in earlier nights; do
  shows 'no socket' "rooms-$unit.socket" ActiveState inactive
done
does 'it is shown again' 'sed -i s/^EARLIER=.*/EARLIER=owners/ /etc/rooms/office.conf
  rooms-admin setup'
until_inside 'as before' "[ \"\$($web $bob $at/earlier/$night/doc/letter)\" = 200 ]"
does 'units with faults' 'systemctl reset-failed "rooms-tell*"
  systemctl list-units --state=failed --no-legend --plain "rooms*"'
holds "there are none: $(cat "$work/out")" [ ! -s "$work/out" ]
does 'what the logs have' 'journalctl -t rooms-nights -t rooms-earlier --no-pager -o cat'
holds "no line: $(head -n 3 "$work/out")" eval '! grep -q -e failed -e Traceback "$work/out"'

# Another machine takes over, as docs/machines.md says. It is played by this one, without its rooms
# and backups; the settings were copied beforehand.
does 'hourly copies' 'sed -i s/^HOURS=.*/HOURS=2/ /etc/rooms/office.conf && rooms-admin standby &&
  ls /var/backups/rooms/office/hours'
hour=$(tail -n 1 "$work/out")
is 'one is a night too' yesterday "curl -s $bob $at/earlier/$hour/doc/letter"
is 'what came after the last copy' 201 "$web $bob $at/doc/late -X PUT --data-binary x"
does 'the old machine ends' '
  systemctl disable --now rooms@office rooms-{nightly,standby,directory}@office.timer
  mkdir /srv/old && mv /var/lib/rooms/* /srv/old && mv /var/backups/rooms /srv/backups &&
  mkdir -p -m 700 /var/backups/rooms /var/backups/rooms/standby &&
  cp -p /srv/backups/office/standby/office.rooms /var/backups/rooms/standby'
block docs/machines.md 'rooms-admin restore /var/backups/rooms/standby' >"$machine/root/pasted"
does 'the other one takes over' 'bash -eu pasted'
until_inside 'and serves the room' "[ \"\$($web $bob $at/doc/letter)\" = 200 ]"
is 'as it was copied last' 404 "$web $bob $at/doc/late"
is 'without a night of before' '{"gone":"owners","nights":[]}' "curl -s $bob $at/earlier/nights"
is 'and none is shown' 404 "$web $bob $at/earlier/$night/doc/letter"
inside 'rooms-admin check'
told 'nor an hourly copy: it is told' 1 \
  'no hourly copy: systemctl enable --now rooms-standby@office.timer' 'no backup yet: '
does 'backups of the old one are brought' 'mkdir -m 700 /var/backups/rooms/office &&
  cp -a /srv/backups/office/{20*,hours} /var/backups/rooms/office'
for one in "$night" "$hour"; do
  is 'it is shown' yesterday "curl -s $bob $at/earlier/$one/doc/letter"
done
# (An hourly copy is of when its name says.)
does 'a night and an hourly copy of its own' "systemctl start rooms-nightly@office &&
  cd /var/backups/rooms/office/hours && mv $hour \$(date -d '90 minutes ago' +%F.%H%M%S) &&
  rooms-admin standby"
is 'are shown beside them' 9 "curl -s $bob $at/earlier/nights | grep -o '\"night\"' | wc -l"
does 'nothing of it is as no run leaves it' 'rooms-admin backups'
holds 'which would be told' [ ! -s "$work/err" ]
does 'EARLIER_FROM' "sed -i s/^EARLIER_FROM=.*/EARLIER_FROM=\$(date -d '1 day' +%F)/ \
  /etc/rooms/office.conf"
is 'hides nights here too' '{"gone":"owners","nights":[]}' "curl -s $bob $at/earlier/nights"
is 'all of them' 404 "$web $bob $at/earlier/$night/doc/letter"
does 'without it' 'sed -i s/^EARLIER_FROM=.*/EARLIER_FROM=/ /etc/rooms/office.conf'
is 'they are shown again' yesterday "curl -s $bob $at/earlier/$night/doc/letter"

# A program of somebody else's in the place of each service.
cp "$here/machine/probe.py" "$machine/usr/local/lib/probe.py"
does 'what there is to find' 'echo key >/etc/ssl/private/probe.key
  chmod 600 /etc/ssl/private/probe.key; echo key >/etc/rooms/passwords.key
  chmod 600 /etc/rooms/passwords.key; chmod 1777 /var/tmp'
probed() { # NAME UNIT: with what it can do in $work/out
  mkdir -p "$machine/etc/systemd/system/$2.service.d"
  printf '%s\n' '[Service]' ExecStart= 'ExecStart=/usr/bin/python3 -I /usr/local/lib/probe.py' \
    "SyslogIdentifier=probe-$2" >"$machine/etc/systemd/system/$2.service.d/probe.conf"
  does "$1" "systemctl stop $2.service; systemctl daemon-reload; systemctl stop $2.socket
    rm -f /run/$2/socket; systemctl start $2.socket $2.service"
  until_inside 'has ended' "[ \"\$(systemctl show $2.service -p ActiveState --value)\" = inactive ]"
  does 'what it could do' "journalctl --sync; journalctl -t probe-$2 --no-pager -o cat"
}
probed 'in the place of the judge' rooms-earlier
printf '%s\n' 'write /var/tmp' 'ask /run/rooms/office/socket' 'ask /run/rooms-nights/socket' >wanted
same 'what it can do' "$work/out" wanted
probed 'in the place of who opens nights' rooms-nights
printf '%s\n' 'read /etc/rooms/office.conf' 'list /var/backups/rooms' \
  'write /var/cache/rooms-nights' >wanted
same 'what it can do' "$work/out" wanted
stop_machine
