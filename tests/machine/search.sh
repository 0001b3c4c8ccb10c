# A search in texts on a machine with the package: from the setting to what is found through nginx,
# what its log has, what the check says, and what goes with the setting; hostile documents and a
# program of somebody else's in the place of each of the three services.

top=$repo
version=none
. "$here/lib/machine.sh"
. "$here/lib/booted.sh"
boot_machine 'a search on a machine' || return
does 'the package, and a room' 'dpkg -i rooms.deb
  runuser -u rooms -- rooms init /var/lib/rooms/office.rooms alice staff &&
  systemctl enable --now rooms@office && rooms-admin user add alice <<<"gravel under bridges" &&
  systemctl reload-or-restart nginx'
asks="curl -s -u 'alice:gravel under bridges'"
at=http://127.0.0.1
put() { # NAME TEXT
  does "a document $1" "$asks -f -T - $at/doc/$1 <<<'$2'"
}
until_inside 'it is served' "$asks -f -o /dev/null '$at/can/?'"
put plan 'The secretword of our plan'
put other 'Nothing of that kind'
door_is_there() {
  until_inside 'its door answers' "$asks -f -o /dev/null '$at/door/closed/'"
}
found() { # NAME WORD WANTED: its status, and the paths
  inside "$asks -w ' %{http_code}' '$at/door/search/?$2' | sed 's/\"text\":\[[^]]*\],\?//g' |
    grep -o -e '\"path\":\"[^\"]*\"' -e '[0-9]*\$' -e '\"why\":\"[^\"]*\"' | tr '\n' ' '"
  holds "$1: $(cat "$work/out")" [ "$(cat "$work/out")" = "$3" ]
}
found 'as installed there is none' secretword '"why":"no-search" 404 '
does 'no text is kept' 'systemctl start rooms-nightly@office && ! ls /var/cache/rooms-texts/*'
does 'the setting, as the page has it' 'rooms-admin set SEARCH=yes
  rooms-admin setup && systemctl restart rooms-door@office'
door_is_there
inside 'rooms-admin check'
holds 'the check says that no texts are there' grep -q 'no texts are searched yet' "$work/out"
found 'before a night' secretword '"why":"no-texts" 503 '
does 'a night' 'systemctl start rooms-nightly@office'
until_inside 'is taken' "$asks -f -o /dev/null '$at/door/search/?word'"
found 'a word of one' SECRETWORD '"path":"/plan" 200 '
found 'a word of none' nosuchword '200 '
inside 'rooms-admin check'
holds 'the check is content' eval '! grep -q "texts" "$work/out"'
put plan 'Rewritten by day'
found 'an old word' secretword '200 '
found 'a new one' rewritten '"path":"/plan" 200 '
does 'the logs' 'cat /var/log/nginx/*.log; journalctl --no-pager'
holds 'have no word of a search' eval '! grep -qi -e secretword -e nosuchword "$work/out"'
does 'who reads texts' 'for user in nobody www-data rooms rooms-door rooms-earlier rooms-extract; do
  ! setpriv --reuid=$user --regid=$(id -g $user) --clear-groups \
    cat /var/cache/rooms-texts/office/night.*/texts >/dev/null 2>&1 || echo $user
  for one in texts extract scan; do
    ! setpriv --reuid=$user --regid=$(id -g $user) --clear-groups \
      curl -s --max-time 3 --unix-socket /run/rooms-$one/socket http://x/ >/dev/null 2>&1 ||
      echo $user asks $one
  done
done'
holds "nobody else: $(cat "$work/out")" [ "$(grep -vc '^rooms-door asks' "$work/out")" = 0 ]

# The power goes between a removal and a new paper of that name: the machine has no word of it.
does 'a stop without a word' 'rm /run/rooms-door/office/kept/dates &&
  systemctl kill --kill-whom=main -s KILL rooms-door@office && sleep 1'
door_is_there
found 'nothing is vouched for' rewritten '"why":"no-texts" 503 '
does 'the next night' 'systemctl start rooms-nightly@office'
until_inside 'is taken' "$asks -f -o /dev/null '$at/door/search/?word'"
found 'and has what is there' rewritten '"path":"/plan" 200 '

# Hostile documents by the unit itself.
mkdir -p "$machine/root/tests"
cp "$here"/services/{hostile_papers,papers}.py "$here"/machine/{probe,bounds}.py \
  "$machine/root/tests"
cp "$here"/machine/{probe,bounds}.py "$machine/usr/local/lib"
does 'hostile documents' 'cd tests &&
  PYTHONPATH=/usr/share/rooms python3 -B hostile_papers.py none /run/rooms-extract/socket'
passes 'each of them' "$(grep -c ' s$' "$work/out")"
# A program of somebody else's in the place of each.
does 'what there is to find' 'mkdir -m 700 /var/cache/rooms-texts-copies/office
  touch /var/cache/rooms-texts-copies/office/room
  chown rooms-texts: /var/cache/rooms-texts-copies/office; echo key >/etc/ssl/private/probe.key
  chmod 600 /etc/ssl/private/probe.key; echo key >/etc/rooms/passwords.key; chmod 1777 /var/tmp'
in_place() { # UNIT PROGRAM
  mkdir -p "$machine/etc/systemd/system/$1.service.d"
  printf '%s\n' '[Unit]' OnFailure= '[Service]' ExecStart= "ExecStart=/usr/bin/python3 -I $2" \
    "SyslogIdentifier=probe-$1" ExecStopPost= >"$machine/etc/systemd/system/$1.service.d/probe.conf"
  does "$2 in the place of $1" 'systemctl daemon-reload; systemctl restart rooms-extract.socket'
}
can() { # NAME WHAT-IT-CAN-DO ..
  printf '%s\n' "${@:2}" >wanted
  same "$1: what it can do" did wanted
}
said='python3 -c "
import socket
asking = socket.socket(socket.AF_UNIX)
asking.connect(\"/run/rooms-extract/socket\")
asking.shutdown(socket.SHUT_WR)
print(asking.makefile().read(), end=\"\")"'
in_place rooms-extract@ /usr/local/lib/probe.py
does 'it is asked' "$said"
cp "$work/out" did
can 'who reads a document' ''
rm -r "$machine/etc/systemd/system/rooms-extract@.service.d"
does 'where scans are read' 'rooms-admin set SEARCH_SCANS=1; rooms-admin setup'
in_place rooms-scan@ /usr/local/lib/probe.py
does 'it is asked' "${said/rooms-extract/rooms-scan}"
cp "$work/out" did
can 'who reads a scan' ''
rm -r "$machine/etc/systemd/system/rooms-scan@.service.d"
for one in extract scan; do
  sees_no_other "rooms-$one" "/run/rooms-$one/socket"
  shows 'where there is no memory it goes first' "rooms-$one@0" OOMScoreAdjust 1000
done
# One that takes what it can: time, memory, files, processes.
cat >"$machine/usr/local/lib/takes.py" <<'END'
import contextlib, os, resource, sys, time
with contextlib.suppress(MemoryError):
    taken = [bytearray(b"x") * (8 << 20) for _ in range(100)]
    print("800 MB", flush=True)
taken = None
written = 0
with contextlib.suppress(OSError):
    for number in range(100):
        with open(f"/tmp/{number}", "wb") as out:
            out.write(b"x" * (1 << 20))
        written += 1
print("files of more than 8 MB" if written > 8 else "no more files", flush=True)
count = 0
with contextlib.suppress(OSError):
    while count < 200:
        if os.fork() == 0:
            time.sleep(60)
            os._exit(0)
        count += 1
print(f"{count} processes", flush=True)
time.sleep(60)
print("60 seconds", flush=True)
END
in_place rooms-extract@ /usr/local/lib/takes.py
does 'it takes what it can' "time -p $said"
cp "$work/out" did
inside 'cat /sys/fs/cgroup/cgroup.controllers'
case " $(cat "$work/out") " in
  *' pids '*) can 'who takes' 'no more files' '7 processes' ;;
  *)
    skip 'who takes: 8 tasks' 'no limits of groups of processes here'
    can 'who takes' 'no more files' '200 processes'
    ;;
esac
inside 'systemctl list-units --all --plain --no-legend "rooms-extract@*"; pgrep -f takes.py'
holds "nothing of it is left: $(head -n 3 "$work/out")" [ ! -s "$work/out" ]
rm -r "$machine/etc/systemd/system/rooms-extract@.service.d"
probed() { # NAME UNIT INSTANCE WHAT-IT-CAN-DO ..
  in_place "$2" /usr/local/lib/probe.py
  does "$1" "systemctl stop rooms-texts.socket rooms-texts; systemctl start $2$3; sleep 2
    journalctl --sync; journalctl -t probe-$2 --no-pager -o cat"
  cp "$work/out" did
  can "$1" "${@:4}"
  rm -r "$machine/etc/systemd/system/$2.service.d"
}
probed 'who keeps texts' rooms-texts '' 'list /var/cache/rooms-texts/office' 'write /var/tmp'
probed 'who has a night read' rooms-texts-night@ office \
  'list /var/cache/rooms-texts/office' 'list /var/cache/rooms-texts-copies/office' \
  'write /var/cache/rooms-texts/office' 'ask /run/rooms-extract/socket' \
  'ask /run/rooms-scan/socket'

# What goes with the setting, and with the room.
does 'as before' 'systemctl daemon-reload; systemctl reset-failed
  systemctl start rooms-texts.socket rooms-nightly@office'
until_inside 'texts are searched' "$asks -f -o /dev/null '$at/door/search/?word'"
does 'without the setting' 'rooms-admin set SEARCH=no
  rooms-admin setup && systemctl restart rooms-door@office && ! ls /var/cache/rooms-texts/*
  ! systemctl is-active rooms-texts.socket rooms-extract.socket rooms-scan.socket'
door_is_there
found 'none is searched' rewritten '"why":"no-search" 404 '
stop_machine
