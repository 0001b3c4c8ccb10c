# A neighbour in the network who takes connections of nginx's and says nothing keeps nobody out, an
# office behind one address has what it needs, and other rules that somebody loads don't matter.

top=$repo
version=none
. "$here/lib/machine.sh"
. "$here/lib/booted.sh"
if ! has ip || ! has unshare || ! has python3; then
  skip 'connections from one address' 'ip, unshare or python3 is missing'
  return
fi
boot_machine 'connections from one address' || return
does 'the package, and a room' 'dpkg -i rooms.deb
  runuser -u rooms -- rooms init /var/lib/rooms/office.rooms alice staff &&
  systemctl enable --now rooms@office && rooms-admin user add alice <<<a &&
  systemctl reload-or-restart nginx'
# Two machines beside it, each with a network of its own, which has their number in it.
beside() { # NUMBER: its process is in `neighbour`
  unshare --net sleep 1000 &
  neighbour=$!
  others+=("$neighbour")
  until [ "$(readlink "/proc/$neighbour/ns/net")" != "$(readlink /proc/self/ns/net)" ]; do
    sleep 0.05
  done
  nsenter -t "$first" -n ip link add "beside$1" type veth peer name out netns "$neighbour" &&
    nsenter -t "$first" -n sh -ec "ip address add 192.0.2.$((16 * $1 + 1))/28 dev beside$1
      ip address add 2001:db8:$1::1/64 dev beside$1 nodad; ip link set beside$1 up" &&
    nsenter -t "$neighbour" -n sh -ec "ip address add 192.0.2.$((16 * $1 + 2))/28 dev out
      for n in 2 3 4 5; do ip address add 2001:db8:$1::\$n/64 dev out nodad; done
      ip link set lo up; ip link set out up"
}
if ! { beside 1 && attacker=$neighbour && beside 2; } 2>said; then
  skip 'connections from one address' "no networks here: $(head -c 200 said)"
  stop_machine
  return
fi
user=$neighbour
gets_in() { # ADDRESS SECONDS
  [ "$(nsenter -t "$user" -n curl -s -m "$2" -o /dev/null -w '%{http_code}' -u alice:a \
    "http://$1/can/?")" = 200 ]
}
soon() { # COMMAND ..: it succeeds within a minute
  local began=$SECONDS
  until "$@" || [ $((SECONDS - began)) -ge 60 ]; do sleep 0.5; done
  "$@"
}
holds 'another machine gets there' soon gets_in 192.0.2.33 20
# While it lasts, a user gets in at once.
flooded() { # NAME USER'S-TARGET TARGET SOURCE ..
  local flood turn in=0
  nsenter -t "$attacker" -n python3 "$here/machine/flood.py" 5000 16 "${@:3}" 2>said &
  flood=$!
  sleep 3
  for turn in {1..10}; do
    ! gets_in "$2" 2 || in=$((in + 1))
    sleep 1
  done
  holds "$1: $in of 10 times a user gets in" [ "$in" = 10 ]
  holds "$1: it lasts: $(head -c 200 said)" kill -0 "$flood"
  wait "$flood"
}
flooded 'half requests from one address' 192.0.2.33 192.0.2.17 192.0.2.18
flooded 'half requests from one network of IPv6' '[2001:db8:2::1]' 2001:db8:1::1 \
  2001:db8:1::{2,3,4,5}

# Connections that end at once: each stays for a while in the kernel's table of all, which has
# 65,536 of them or more.
does 'for how long' 'cat /proc/sys/net/netfilter/nf_conntrack_tcp_timeout_time_wait'
prints 'is short' 10
cat >short.py <<'END'
import contextlib
import socket
import time

ends, made = time.monotonic() + 8, 0
while time.monotonic() < ends:
    with contextlib.suppress(OSError), socket.socket(socket.AF_INET6) as one:
        one.settimeout(0.2)
        one.bind((f"2001:db8:1::{2 + made % 4}", 0))
        made += 1
        one.connect(("2001:db8:1::1", 80))
END
shorts=()
for each in 1 2 3; do
  nsenter -t "$attacker" -n python3 short.py &
  shorts+=($!)
done
wait "${shorts[@]}"
sleep 1
does 'connections that end at once' 'cat /proc/sys/net/netfilter/nf_conntrack_count'
holds "few of them stay: $(cat "$work/out")" [ "$(cat "$work/out")" -lt 12000 ]
holds 'another one gets in' gets_in 192.0.2.33 2

# Accounts of the machine itself, which have many addresses there: all together have as many as one.
cp "$here/machine/flood.py" "$machine/usr/local/lib/flood.py"
nsenter -t "$first" --all setpriv --reuid=nobody --regid=nogroup --clear-groups \
  python3 /usr/local/lib/flood.py 3200 16 127.0.0.1 127.0.0.1 127.0.0.2 127.0.0.3 127.0.0.4 \
  2>said &
flood=$!
sleep 3
in=0
for turn in {1..10}; do
  ! gets_in 192.0.2.33 2 || in=$((in + 1))
  sleep 1
done
holds "half requests from the machine itself: $in of 10 times a user gets in" [ "$in" = 10 ]
holds "they last: $(head -c 200 said)" kill -0 "$flood"
wait "$flood"
does 'root gets in meanwhile' 'curl -s -o /dev/null -u alice:a http://127.0.0.1/can/?'

# Where the kernel counts connections, it has a table of all that the machine sends and gets. Where
# that is full, it takes no connection of anybody's.
cat >"$machine/usr/local/lib/fills.py" <<'END'
import contextlib
import socket
import struct

# (IP_PKTINFO is 8.)
at = socket.socket(socket.AF_INET, socket.SOCK_DGRAM)
for number in range(30000):
    source = struct.pack("=i4sxxxx", 0, bytes([127, 1, number >> 8, number & 255]))
    with contextlib.suppress(OSError):
        at.sendmsg([b"x"], [(socket.IPPROTO_IP, 8, source)], 0, ("127.0.0.1", 9))
END
# Those of before go within ten seconds.
settled='at=/proc/sys/net/netfilter/nf_conntrack_count
  for turn in {1..300}; do [ $(cat $at) -ge 100 ] || break; sleep 0.1; done; before=$(cat $at)'
does 'an account sends to as many as it likes' "$settled"'
  setpriv --reuid=nobody --regid=nogroup --clear-groups python3 -I /usr/local/lib/fills.py
  echo $(($(cat $at) - before))'
holds "the table has few of them: $(cat "$work/out")" [ "$(cat "$work/out")" -lt 5000 ]
holds 'and was asked for them' [ "$(cat "$work/out")" -gt 1000 ]

# One that has ended doesn't count, and stays there.
cat >"$machine/usr/local/lib/ends.py" <<'END'
import socket
import time

listening = socket.create_server(("127.0.0.1", 0), backlog=4096)
ends, made = time.monotonic() + 8, 0
while time.monotonic() < ends:
    with socket.socket() as one:
        one.settimeout(0.2)
        made += 1
        one.bind((f"127.2.{made >> 12}.1", 0))
        try:
            one.connect(listening.getsockname())
            listening.accept()[0].close()
        except OSError:
            pass
END
does 'an account begins and ends as many as it likes' "$settled"'
  for each in 1 2 3; do setpriv --reuid=nobody --regid=nogroup --clear-groups \
    python3 -I /usr/local/lib/ends.py & done; wait; echo $(($(cat $at) - before))'
holds "the table has few of these: $(cat "$work/out")" [ "$(cat "$work/out")" -lt 9000 ]
holds 'and was asked for more' [ "$(cat "$work/out")" -gt 2000 ]

# As many as the table says, of browsers that stay connected; the next one waits until one ends.
does 'how many one address may have' \
  'sed -n "s/.* ip saddr ct count over \([0-9]*\) } drop/\1/p" /var/lib/rooms-front/connections.nft'
most=$(cat "$work/out")
does 'half of what nginx holds, or one for each 6 MB' '
  half=$(($(sed -n "s/.*worker_connections \([0-9]*\);/\1/p" /etc/nginx/nginx.conf) * $(nproc) / 2))
  memory=$(awk "/^MemTotal/ { print int(\$2 / 6144) }" /proc/meminfo)
  echo $((half < memory ? half : memory))'
prints 'is that' "$most"
cat >office.py <<'END'
import contextlib
import resource
import socket
import sys

most = int(sys.argv[1])
resource.setrlimit(resource.RLIMIT_NOFILE, (most + 100, most + 100))


def connected(seconds):
    one = socket.create_connection(("192.0.2.33", 80), seconds)
    one.sendall(b"GET /style.css HTTP/1.1\r\nHost: rooms.example\r\n\r\n")
    return one if one.recv(12) == b"HTTP/1.1 401" else None


held = [connected(20) for _ in range(most)]
print(sum(one is not None for one in held))
with contextlib.suppress(OSError):
    print(connected(2) and "one more")
held.pop().close()
print(connected(20) and "one for another")
END
office() { # NAME NUMBER
  nsenter -t "$user" -n python3 office.py "$2" >got 2>said
  printf '%s\n' "$2" 'one for another' >wanted
  same "$1: $(head -c 200 said)" got wanted
}
office 'an office behind one address' "$most"
does 'a number of its own' \
  'echo CONNECTIONS=120 >>/etc/rooms/site; rooms-admin setup; rooms-admin setup | grep nothing'
office 'is what it gets' 120

# Other rules: none of them is touched, and what drops all of them doesn't drop this for long.
table='nft list table inet rooms_connections | grep -q "over 120 } drop"'
does 'rules of somebody else' 'nft add table inet theirs; systemctl restart rooms-connections'
until_inside 'beside them is the table' "$table && nft list table inet theirs"
does 'all rules are dropped' 'nft flush ruleset'
until_inside 'it is there again' "$table"
does 'rules by their service' 'systemctl restart nftables'
until_inside 'it is there again' "$table"
does 'what keeps it is killed' \
  'systemctl kill --kill-whom=main -s KILL rooms-connections; nft flush ruleset'
until_inside 'it comes back' "$table"
does 'it stops' 'systemctl stop rooms-connections; ! nft list table inet rooms_connections'
does 'setup has it back, as after a removal that was cut off' "rooms-admin setup && $table"
does 'it stops again' 'systemctl stop rooms-connections'
inside 'rooms-admin check'
holds "the check tells it: $(head -c 300 "$work/out")" \
  grep -q 'one address can take all connections of nginx' "$work/out"
does 'it starts' "systemctl start rooms-connections; $table"
does 'a machine that can not have it' 'mv /usr/sbin/nft . && echo CONNECTIONS=130 >>/etc/rooms/site
  rooms-admin setup; status=$?; mv nft /usr/sbin; [ $status = 0 ]'
holds 'has its rooms served, and is told' grep -q "can't have its table wants CONNECTIONS=none" \
  "$work/out"
does 'once it can' "systemctl reset-failed rooms-connections; systemctl restart rooms-connections
  nft list table inet rooms_connections | grep -q 'over 130 } drop'"
does 'no limit' 'echo CONNECTIONS=none >>/etc/rooms/site; rooms-admin setup; nft list tables'
holds 'is no table' eval '! grep -q rooms_connections "$work/out"'
inside 'rooms-admin setup; systemctl is-enabled rooms-connections'
printf '%s\n' 'nothing to change' disabled >wanted
same 'and none comes back' <(grep -x -f wanted "$work/out") wanted

# Another account in the place of an Apache that checks passwords, while that is stopped: whom nginx
# sends passwords isn't connected with it, also where it has no place for who waits.
cat >"$machine/usr/local/lib/in_its_place.py" <<'END'
import os, socket, sys
os.setresuid(*[int(sys.argv[1])] * 3)
at = socket.socket()
at.setsockopt(socket.SOL_SOCKET, socket.SO_REUSEADDR, 1)
at.bind(("", 8778))
at.listen(int(sys.argv[2]))
print("listens", flush=True)
at.accept()[0].recv(1)
END
in_its_place() { # NAME USER BACKLOG
  does "$1" "exec 3< <(exec python3 -I /usr/local/lib/in_its_place.py $2 $3 2>&1)
    [ \"\$(head -n 1 <&3)\" = listens ]; listens=\$!
    timeout 2 bash -c 'exec 4<>/dev/tcp/127.0.0.1/8778' 2>/dev/null && echo answers
    kill \$listens 2>/dev/null; true"
  printf '%s' "${@:4}" >wanted
  same "$1: it answers" "$work/out" wanted
}
in_its_place 'without the table' 1 9 answers $'\n'
does 'with it' 'systemctl start rooms-firewall'
in_its_place 'another account' 1 9
in_its_place 'without a place for who waits' 1 0
in_its_place root 0 9 answers $'\n'
# It drops what asks for a connection, so that who asks waits, and begins one of its own from there:
# where both have begun, nobody answers the other.
cat >"$machine/usr/local/lib/from_there.py" <<'END'
import os, socket, sys, time
os.setresuid(*[int(sys.argv[1])] * 3)
def own():
    at = socket.socket()
    at.setsockopt(socket.SOL_SOCKET, socket.SO_REUSEADDR, 1)
    at.setsockopt(socket.SOL_SOCKET, socket.SO_REUSEPORT, 1)
    at.bind(("127.0.0.1", 8778))
    return at
drops = own()
# IP_MINTTL: what has been on its way for less is dropped.
drops.setsockopt(socket.IPPROTO_IP, 21, 255)
drops.listen(9)
print("drops", flush=True)
ends = time.monotonic() + 6
while time.monotonic() < ends:
    for row in open("/proc/net/tcp"):
        words = row.split()
        if words[3] == "02" and words[2] == "0100007F:224A":
            begun = own()
            begun.settimeout(1)
            try:
                begun.connect(("127.0.0.1", int(words[1].split(":")[1], 16)))
                print("from there", flush=True)
                ends = 0
            except OSError:
                pass
    time.sleep(0.02)
END
from_there() { # NAME USER TEXT
  does "$1" "exec 3< <(exec python3 -I /usr/local/lib/from_there.py $2 2>&1)
    [ \"\$(head -n 1 <&3)\" = drops ]
    timeout 5 bash -c 'exec 4<>/dev/tcp/127.0.0.1/8778; sleep 1' 2>/dev/null; cat <&3"
  printf '%s' "${@:3}" >wanted
  same "$1: it is connected" "$work/out" wanted
}
from_there 'another account from there' 1
from_there 'root from there' 0 'from there' $'\n'

# Where another program has the port of TLS, nginx goes on with the site of before.
cat >"$machine/usr/local/lib/port_443.py" <<'END'
import socket
at = socket.create_server(("0.0.0.0", 443))
while True:
    at.accept()[0].close()
END
does 'another program at the port of TLS' 'rooms-admin certificate rooms.example &&
  systemd-run -q --unit=other python3 -I /usr/local/lib/port_443.py
  until (exec 3<>/dev/tcp/127.0.0.1/443) 2>/dev/null; do sleep 0.05; done'
inside 'rooms-admin setup --tls /etc/ssl/rooms.pem /etc/ssl/private/rooms.key'
holds "TLS without its port fails: $status" [ "$status" = 1 ]
holds 'by its name' grep -q '^rooms-admin setup: nginx has no TLS: ' "$work/err"
holds 'and nobody is told to go there' eval '! grep -q "Users then open" "$work/out"'
inside 'rooms-admin check'
holds 'the check says so' grep -q 'CRITICAL - office: nginx has no TLS, though ' "$work/out"
does 'once the port is free' 'systemctl stop other && systemctl reload nginx
  while rooms-admin check | grep -q "nginx has no TLS"; do sleep 0.2; done'
stop_machine
