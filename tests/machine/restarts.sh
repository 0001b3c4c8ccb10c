# Users who go on asking while a room's server is started anew, under systemd and behind nginx:
# nobody is lost, nothing is done twice, and nobody waits for ever.

top=$here/..
version=none
. "$here/lib/machine.sh"
. "$here/lib/booted.sh"
boot_machine 'restarts that nobody notices' || return
cp "$here/lib/restarted.py" "$here/lib/cut_room.py" "$machine/usr/local/lib/"
does 'a room' 'dpkg -i rooms.deb
  runuser -u rooms -- rooms init /var/lib/rooms/office.rooms alice staff &&
  systemctl enable --now rooms@office && rooms-admin user add alice <<<a &&
  systemctl reload-or-restart nginx'
web='curl -s -o /dev/null -w %{http_code} -u alice:a http://127.0.0.1'
until_inside 'nginx asks for it' "[ \"\$($web/can/?)\" = 200 ]"
does 'a folder' "$web/folder/load -X POST"
shows 'where others wait' rooms-wait@office.socket ActiveState active
# A large document goes by the door, whose socket is systemd's, as that of who waits is.
does 'a large document comes in, and goes out' 'mkdir tree &&
  head -c 3000000 /dev/urandom >tree/scan && rooms-admin import --as alice tree /load &&
  rooms-admin export --no-lists --as alice /load out && cmp tree/scan out/scan'

# Where the machine has no memory left, an account's processes go before what serves rooms, and what
# reads documents before those.
does 'who goes when' 'for unit in nginx rooms@office rooms-door@office rooms-wait@office \
  rooms-passwords rooms-extract@0 rooms-scan@0 rooms-picture@0 rooms-would@0; do
  echo $unit $(systemctl show $unit -p OOMScoreAdjust --value); done'
prints 'who serves rooms goes last' 'nginx -500' 'rooms@office -500' 'rooms-door@office -500' \
  'rooms-wait@office -500' 'rooms-passwords -500' 'rooms-extract@0 1000' 'rooms-scan@0 1000' \
  'rooms-picture@0 1000' 'rooms-would@0 1000'
inside 'echo -500 >/proc/self/oom_score_adj'
if [ "$status" = 0 ]; then
  does 'with all of its processes' 'systemctl restart nginx && systemctl start rooms-wait@office
    for unit in nginx rooms@office rooms-door@office rooms-wait@office; do
      main=$(systemctl show $unit -p MainPID --value)
      for one in $main $(cat /proc/$main/task/*/children); do
        echo $unit $(cat /proc/$one/oom_score_adj)
      done | sort -u; done'
  prints 'which have that from it' 'nginx -500' 'rooms@office -500' 'rooms-door@office -500' \
    'rooms-wait@office -500'
  until_inside 'nginx asks again' "[ \"\$($web/can/?)\" = 200 ]"
else
  skip 'processes that go last' 'root may not have them do so here'
fi

# nginx that is killed comes again, however often. What root asks of it is as without that.
does 'nginx is killed eight times' 'for n in {1..8}; do
    systemctl kill --kill-whom=main -s KILL nginx || :; sleep 1.3
  done'
until_inside 'it comes again' "[ \"\$($web/can/?)\" = 200 ]"
does 'another program of it' 'before=$(systemctl show nginx -p MainPID --value)
  invoke-rc.d nginx upgrade && sleep 1 && main=$(systemctl show nginx -p MainPID --value) &&
  [ "$main" != "$before" ] && systemctl kill --kill-whom=main -s KILL nginx'
until_inside 'comes again too' "[ \"\$($web/can/?)\" = 200 ]"
does 'a worker that is killed' 'before=$(systemctl show nginx -p MainPID --value)
  kill -9 $(head -n 1 /proc/$before/task/$before/children | cut -d " " -f 1); sleep 0.5
  [ "$(systemctl show nginx -p MainPID --value)" = "$before" ]'
does 'nginx that is stopped stays so' \
  'systemctl stop nginx; sleep 2; [ "$(systemctl is-active nginx)" = inactive ]'
does 'and one that can not start' 'echo "nonsense;" >/etc/nginx/conf.d/ends.conf
  ! systemctl start nginx && sleep 2 && [ "$(systemctl is-active nginx)" = failed ]
  systemctl show nginx -p OnFailure --value'
prints 'is told' rooms-tell@nginx.service.service
does 'until it can' 'rm /etc/nginx/conf.d/ends.conf; systemctl start nginx'
until_inside 'nginx asks once more' "[ \"\$($web/can/?)\" = 200 ]"

# A watch over the size that ends at once is started again and again, and hasn't failed: the night
# tells it.
does 'a watch that ends at once' 'unit=/etc/systemd/system/rooms-full@.service.d; mkdir -p $unit
  printf "%s\n" "[Service]" ExecStart= ExecStart=/bin/false RestartSec=100ms >$unit/ends.conf
  systemctl daemon-reload; systemctl restart rooms-full@office || :
  sleep 5'
inside 'systemctl start rooms-nightly@office'
holds 'has the nightly run fail, which is mailed' [ "$status" != 0 ]
says_watch='journalctl --sync; journalctl -u rooms-nightly@office --no-pager -o cat'
inside "$says_watch | grep -c \"rooms-full@office doesn't stay: systemctl status\""
prints 'by that name' 1
does 'it stays again' 'rm -r /etc/systemd/system/rooms-full@.service.d; systemctl daemon-reload
  systemctl restart rooms-full@office; systemctl reset-failed; systemctl start rooms-nightly@office'

# What has no answer is lost; the command's own words are kept.
asked_while() { # NAME COMMAND [TARGET]: what came of it is in the file numbers
  inside "{ sleep 1; { $2; } >said 2>&1 || echo failed >>said; sleep 1; } |
    python3 -B /usr/local/lib/restarted.py 80 alice:a 20 '${3:-/door/find/?nothing}' 2>lost"
  echo "$1: $(cat "$work/out")"
  cp "$work/out" numbers
  inside 'cat said lost | tail -n 5'
}
nobody_is_lost() { # NAME COMMAND [TARGET]
  asked_while "$@"
  holds "$1: $(cat numbers "$work/out")" \
    grep -Eq '^[0-9]{2,} asked, 0 lost, 0 twice, 0 missing, ' numbers
  holds "$1: it went well: $(cat "$work/out")" eval '! grep -qx failed "$work/out"'
}
nobody_is_lost 'a restart' 'systemctl restart rooms@office'
nobody_is_lost 'three of them' 'for n in 1 2 3; do systemctl restart rooms@office; done'
nobody_is_lost 'somebody joins a group' 'rooms-admin user add bob --new --groups staff <<<b'
nobody_is_lost 'somebody leaves' 'rooms-admin user remove bob'
# A list by root, and a backup in the room's place: what was added since isn't in that.
nobody_is_lost 'a list' "printf '%s\n' list:a A::bob:r | rooms-admin list set /load"
does 'a backup' 'systemctl start rooms-nightly@office'
asked_while 'a restore' 'rooms-admin restore --start latest'
holds "a restore: $(cat numbers "$work/out")" grep -Eq '^[0-9]{2,} asked, 0 lost, ' numbers
holds 'a restore: it went well' eval '! grep -qx failed "$work/out"'
nobody_is_lost 'a door' 'for n in 1 2 3; do systemctl restart rooms-door@office; done'
# An upgrade starts the door anew as well.
nobody_is_lost 'an upgrade' "dpkg -i rooms.deb && systemctl restart 'rooms@*'"
# One that is killed takes with it whom it had accepted, and nothing is sent again.
asked_while 'a kill' 'systemctl kill --kill-whom=main -s KILL rooms@office'
holds "a kill: $(cat numbers)" grep -Eq '^[0-9]{2,} asked, [0-9]{1,3} lost, 0 twice, 0 missing, ' \
  numbers
until_inside 'the room is back' "[ \"\$($web/can/?)\" = 200 ]"

# Somebody stops the room: nobody waits, and what goes with it ends.
takes() { # NAME STATUS MOST-SECONDS
  inside "curl -s -o /dev/null -w '%{http_code} %{time_total}' -u alice:a http://127.0.0.1/can/?"
  holds "$1: $(cat "$work/out")" \
    awk -v status="$2" -v most="$3" '{ exit !($1 ~ "^" status && $NF + 0 <= most) }' "$work/out"
}
does 'it is stopped' 'systemctl stop rooms@office'
takes 'a room that is stopped' 502 2
for unit in rooms-door@office rooms-door@office.socket rooms-wait@office.socket; do
  shows "$unit" "$unit" ActiveState inactive
done
does 'it is started' 'systemctl start rooms@office'
takes 'a room that is back' 200 5

# A server that never listens: they wait for as long as they may, from when the other one went.
own=/etc/systemd/system/rooms@office.service.d
served_by() { # COMMAND
  mkdir -p "$machine$own"
  printf '%s\n' '[Service]' ExecStart= "ExecStart=$1" >"$machine$own/other.conf"
}
does 'they may for four seconds' 'systemctl stop rooms-wait@office.service
  sed -i "s/^START, LAST = .*/START, LAST = 4.0, 10.0/" /usr/share/rooms/rooms_admin/room/waits.py'
served_by '/bin/sleep 600'
does 'a server that never listens' \
  'systemctl daemon-reload; systemctl restart --no-block rooms@office'
until_inside 'it is awaited' 'systemctl is-active rooms@office | grep -qx activating'
takes 'who asks in time' 502 5
takes 'who asks then' 502 1
cat >"$machine/usr/local/lib/many.py" <<'END'
import socket
import time
many = [socket.socket(socket.AF_UNIX) for _ in range(700)]
refused = 0
ends = time.monotonic() + 10
for place, one in enumerate(many):
    one.setblocking(False)
    while one.connect_ex("/run/rooms/office/socket"):
        # (Those who wait may not be taken as fast as they come.)
        if place >= 500 or time.monotonic() > ends:
            refused += 1
            break
        time.sleep(0.01)
print(refused)
END
does 'waits again' 'systemctl stop rooms@office; sed -i "s/ = 4.0, 10.0/ = 20.0, 10.0/" \
  /usr/share/rooms/rooms_admin/room/waits.py; systemctl start --no-block rooms@office; sleep 1'
does 'seven hundred at once' 'python3 /usr/local/lib/many.py'
holds "some are refused at once: $(cat "$work/out")" \
  awk '{ exit !($1 > 150 && $1 < 230) }' "$work/out"
# One that ends at once, again and again.
served_by /bin/false
does 'a server that can not start' \
  'systemctl daemon-reload; systemctl stop rooms@office; systemctl start --no-block rooms@office
  sleep 2'
takes 'nobody waits for it' 502 2

# A room that ends when it has done what it was asked, before it says so.
served_by '/usr/bin/python3 -IB /usr/local/lib/cut_room.py /run/rooms-server/office/socket \
  /var/lib/rooms/done'
does 'a room that ends' 'systemctl daemon-reload; systemctl reset-failed rooms@office
  systemctl restart rooms@office'
for asked in 'PUT /doc/f -d x' 'DELETE /object/f' 'POST /move/f -d {"to":"/g"}' \
  'POST /doc/f -d x'; do
  read -r method target words <<<"$asked"
  until_inside 'it is there' "[ \"\$($web/can/?)\" = 200 ]"
  inside "$web$target -X $method $words"
  holds "$method $target: $(cat "$work/out")" [ "$(cat "$work/out")" = 502 ]
done
until_inside 'it is there again' "[ \"\$($web/can/?)\" = 200 ]"
does 'what was done' 'cat /var/lib/rooms/done'
prints 'each once' 'PUT /doc/f' 'DELETE /object/f' 'POST /move/f' 'POST /doc/f'
stop_machine
