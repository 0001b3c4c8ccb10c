# What a program can do in the place of a room's server, of the watch over its size, of its door, of
# what sends mail and of the Apaches that check passwords and sessions, each under its own unit on a
# machine with the package; and how much of it some of them get.

top=$repo
version=none
. "$here/lib/machine.sh"
. "$here/lib/booted.sh"
boot_machine 'services that were taken over' || return
does 'the package, and two rooms' 'dpkg -i rooms.deb
  runuser -u rooms -- rooms init /var/lib/rooms/office.rooms alice staff &&
  systemctl enable --now rooms@office && rooms-admin add invoices carol accounting &&
  rooms-admin user add alice <<<a && systemctl start rooms-nightly@office &&
  systemctl reload-or-restart nginx'
cp "$here"/machine/{probe,bounds}.py "$machine/usr/local/lib/"
does 'what there is to find' 'echo key >/etc/ssl/private/probe.key
  chmod 600 /etc/ssl/private/probe.key; echo key >/etc/rooms/passwords.key
  chmod 600 /etc/rooms/passwords.key; chmod 1777 /var/tmp'
# What they print is in ./did; who starts as root goes on as the user `becomes`.
in_place() { # NAME UNIT WORDS
  local folder=$machine/etc/systemd/system/${2%@*} word= name=${3%% *}
  name=${name%.py}-${2%@*}
  [[ $2 != *@* ]] || folder+=@
  [ -z "${becomes-}" ] ||
    word="/usr/bin/setpriv --reuid=$becomes --regid=$becomes --clear-groups "
  mkdir -p "$folder.service.d"
  printf '%s\n' '[Unit]' OnFailure= ConditionPathExists= '[Service]' ExecCondition= ExecStart= \
    ExecStartPost= Restart=no OOMPolicy=continue MemorySwapMax=0 StandardOutput=journal \
    "SyslogIdentifier=$name" \
    "ExecStart=$word/usr/bin/python3 -I /usr/local/lib/$3" >"$folder.service.d/probe.conf"
  does "$1" "systemctl stop $2; systemctl daemon-reload; systemctl start $2"
  until_inside 'has ended' "[ \"\$(systemctl show $2 -p ActiveState --value)\" = inactive ]"
  inside "journalctl --sync; journalctl -t $name --no-pager -o cat"
  cp "$work/out" did
  rm "$folder.service.d/probe.conf"
  does 'as it was' 'systemctl daemon-reload'
}
probed() { # NAME UNIT WHAT-IT-CAN-DO ..
  in_place "$1" "$2" probe.py
  printf '%s\n' "${@:3}" >wanted
  same "$1: what it can do" did wanted
}
# The numbers of the table of budgets: what a unit says,
limited() { # NAME UNIT TASKS MEGABYTES
  inside "systemctl show $2 -p MemoryMax -p TasksMax"
  printf '%s\n' "MemoryMax=$(($4 << 20))" "TasksMax=$3" >wanted
  same "$1: what its unit says" "$work/out" wanted
}
# which is tried where this machine can hold anybody to it.
bounded() { # NAME UNIT TASKS MEGABYTES
  local more=$(($4 * 5 / 4)) limits
  limited "$@"
  inside 'cat /sys/fs/cgroup/cgroup.controllers'
  limits=" $(cat "$work/out") "
  if [[ $limits != *' memory '* || $limits != *' pids '* ]] ||
    [ "$(awk '/^MemAvailable/ { print int($2 / 1024) }' /proc/meminfo)" -le $((more + 2048)) ]; then
    skip "$1: $3 tasks, $4 MB" 'no limits of groups of processes here, or too little memory'
    return
  fi
  in_place "$1" "$2" "bounds.py $more"
  printf '%s\n' "tasks: $3" "$more MB: no" >wanted
  same "$1: how many tasks, and how much memory" did wanted
}
probed 'in the place of a door' rooms-door@office \
  'write /var/tmp' 'write /var/lib/rooms-changes/office' 'ask /run/rooms/office/socket' \
  'ask /run/rooms/invoices/socket' 'ask /run/rooms-picture/socket' 'ask /run/rooms-would/socket'
probed 'in the place of a watch' rooms-full@office \
  'read /etc/rooms/office.conf' 'read /etc/nginx/nginx.conf' 'list /var/lib/rooms' \
  'list /var/log/nginx' 'write /run/rooms-full' 'write /var/tmp'
# It is the server itself: nobody listens in its place.
probed 'in the place of a server' rooms@office \
  'read /etc/rooms/office.conf' 'read /etc/nginx/nginx.conf' 'list /var/lib/rooms' \
  'list /var/log/nginx' 'write /run/rooms-server/office' 'write /var/lib/rooms' 'write /var/tmp'
# What sshd, a mail server or systemd look for in a home would be obeyed outside of the unit: no
# user has one, also where a version before gave one to a server that runs.
does 'where users were at home' 'systemctl start rooms@invoices &&
  unshare --pid --fork --mount-proc usermod --home /var/lib/rooms rooms && rooms-admin setup'
holds 'is told' grep -qx 'the user rooms is at home nowhere' "$work/out"
does 'and is nowhere' \
  "getent passwd | sed -n 's/^rooms\(-[a-z]*\)\?:.*:\(.*\):.*/\2/p' | sort -u"
prints 'for none of them' /nonexistent
does 'a port for the room' 'echo PORT=8780 >>/etc/rooms/office.conf && rooms-admin setup &&
  systemctl restart rooms@office'
probed 'in the place of what listens at a port' rooms-port@office \
  'write /var/tmp' 'ask /run/rooms/office/socket' 'ask /run/rooms/invoices/socket'
# (Whom the room's socket leads to doesn't matter: it may be asked.)
probed 'in the place of who waits' rooms-wait@office \
  'write /var/tmp' 'ask /run/rooms/office/socket'
probed 'in the place of what sends mail' rooms-tell@probe \
  'read /etc/rooms/office.conf' 'read /etc/nginx/nginx.conf' 'list /var/log/nginx' \
  'write /run/lock' 'write /var/tmp' 'write /dev/shm' 'make a folder' \
  'ask /run/dbus/system_bus_socket' 'ask others at /run' 'ask 127.0.0.1:80' \
  'make a file that runs as its owner' 'a namespace' 'see processes of others'
# Apache's processes that answer: nginx believes what they say of a password or a session.
becomes=rooms-passwords
by_apache=('read /etc/rooms/office.conf' 'read /etc/nginx/nginx.conf' 'list /var/log/nginx'
  'write /var/tmp' 'ask others at /run' 'ask 127.0.0.1:80')
probed 'in the place of what asks a directory' rooms-passwords "${by_apache[@]}"
bounded 'what asks a directory' rooms-passwords 256 512
becomes= bounded 'what opens nights' rooms-nights 96 1536
becomes= bounded 'what listens at a port' rooms-port@office 160 128
becomes= bounded 'a watch' rooms-full@office 32 256
becomes= bounded 'what sends mail' rooms-tell@probe 128 512
# These begin by a connection, or see no program of ours.
limited 'the text of a scan' rooms-scan@probe 8 512
limited 'who keeps texts' rooms-texts 32 384
limited "a night's texts" rooms-texts-night@office 16 512
limited 'the judge of earlier nights' rooms-earlier 96 512
limited 'an own password' rooms-own-password@probe 8 64
limited 'who writes own passwords' rooms-password-file@probe 4 96
does 'the unit of the page' "$(block docs/directory.md '[Service]' | sed '/^systemctl /d')"
probed 'in the place of what has sessions' rooms-session "${by_apache[@]}"
bounded 'what has sessions' rooms-session 256 512

# What says what would come of a change: whoever asks has its output. Python needs files that its
# unit hides, and calls about files that it refuses; and another question waits, whose process it
# might end.
cat >"$machine/usr/local/lib/signals.py" <<'END'
import os
for one in range(2, 4000):
    try:
        os.kill(one, 0)
        print("a signal to", one)
    except OSError:
        pass
print("tried")
END
cat >"$machine/usr/local/lib/asks.py" <<'END'
import socket
import sys
import time
asking = socket.socket(socket.AF_UNIX)
asking.connect("/run/rooms-would/socket")
time.sleep(int(sys.argv[1]))
asking.shutdown(socket.SHUT_WR)
print(asking.makefile().read(), end="")
END
asked_there() { # NAME WORDS LINE ..
  printf '%s\n' '[Service]' ExecStart= "ExecStart=/usr/bin/python3 -I /usr/local/lib/$2" \
    'BindReadOnlyPaths=/usr/bin /usr/lib /lib /lib64 /usr/local/lib' \
    'SystemCallFilter=@file-system ioctl' >"$machine/root/probe.conf"
  # (An instance is what the files say when it begins.)
  does "$1" 'unit=/etc/systemd/system/rooms-would@.service.d
    python3 -I /usr/local/lib/asks.py 6 >/root/said & sleep 1
    mkdir -p $unit; cp /root/probe.conf $unit; systemctl daemon-reload
    python3 -I /usr/local/lib/asks.py 0; wait; head -n 1 /root/said
    rm -r $unit; systemctl daemon-reload'
  printf '%s\n' "${@:3}" 'refused: line 1: W3 no folder' >wanted
  same "$1: what it can do" "$work/out" wanted
}
asked_there 'in the place of what says what would come of a change' probe.py ''
asked_there 'what it can end' signals.py tried
asked_there 'how much it gets' 'bounds.py 320' 'tasks: 1' '320 MB: no'

# The log takes some thousand connections, of whatever account: what starts without one goes on.
cat >"$machine/usr/local/lib/streams.py" <<'END'
import resource, socket, time
most = resource.getrlimit(resource.RLIMIT_NOFILE)[1]
resource.setrlimit(resource.RLIMIT_NOFILE, (most, most))
held = [socket.socket(socket.AF_UNIX) for _ in range(5000)]
for one in held:
    one.connect("/run/systemd/journal/stdout")
print("held", flush=True)
time.sleep(60)
END
does 'an account has all connections of the log' 'true
  setpriv --reuid=nobody --regid=nogroup --clear-groups \
    python3 -I /usr/local/lib/streams.py >held & takes=$!
  until [ -s held ]; do sleep 0.1; done; sleep 1
  systemctl restart rooms@office rooms-door@office
  for at in can/?x door/find/?x; do
    curl -s -u alice:a -o /dev/null -w "%{http_code}\n" http://127.0.0.1/$at
  done
  curl -s -u alice:a -o /dev/null -w "%{http_code}\n" http://127.0.0.1/password \
    -H "Content-Type: application/json" -d "{\"old\":\"a\",\"new\":\"gravel under bridges\"}"
  kill $takes'
prints 'a server, its door and own passwords go on' 200 200 204

# Where a unit that ends has systemd remove what its user left in memory, the machine's first
# process goes through all of /dev/shm, from a folder into the next: any account could use up its
# stack.
does 'folders in one another, of an account' 'setpriv --reuid=nobody --regid=nogroup \
  --clear-groups python3 -Ic "import os; os.chdir(\"/dev/shm\")
for _ in range(9000): os.mkdir(\"a\"); os.chdir(\"a\")"'
does 'units that end' 'python3 -I /usr/local/lib/asks.py 0 >/dev/null; sleep 1
  systemctl stop "rooms*.service"; awk "/^VmStk/ { print \$2 < 1000 }" /proc/1/status'
prints 'take little of its stack' 1
stop_machine
