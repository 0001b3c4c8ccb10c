# What the journal has of rooms-admin: a line for each run that changes something, with who asked,
# and one with its status; and that a log which isn't there or hangs stops nothing.

if [ ! -x /usr/bin/python3 ]; then
  skip 'the journal' '/usr/bin/python3 is missing'
  return
fi
cat >listen.py <<'END'
import socket, sys
at = socket.socket(socket.AF_UNIX, socket.SOCK_DGRAM)
at.bind(sys.argv[1])
print("listening", flush=True)
while sys.argv[2:] != ["hangs"]:
    print(at.recv(65536).decode("utf-8", "backslashreplace").replace("\n", "<LF>"), flush=True)
sys.stdin.read()
END
mkdir -p machine/etc/rooms
conf=machine/etc/rooms/office.conf
printf '%s\n' FILE=/F BACKUPS=/b KEEP=1 >$conf
export ROOMS_LOG=$PWD/log
asks() { # WORD ..
  "$repo/admin/rooms-admin" "$@" </dev/null >"$work/out" 2>"$work/err"
  status=$?
}
heard=1
said() { # NAME TEXT [STATUS]: all that was heard since, but for the number of the process
  local turn who verb
  for turn in {1..50}; do [ "$(wc -l <heard)" -le "$((heard + 1))" ] || break; sleep 0.05; done
  tail -n "+$((heard + 1))" heard >lines
  holds "$1: one process" [ "$(grep -o '\[[0-9]*\]' lines | sort -u | wc -l)" = 1 ]
  sed 's/\[[0-9]*\]/[N]/' lines >got
  heard=$(wc -l <heard)
  read -r who _ _ verb _ <<<"$2"
  printf '<85>rooms-admin[N]: %s\n' "$2" "$who asked for $verb: status ${3-0}" >wanted
  same "$1" got wanted
}
asks set --destdir "$PWD/machine" KEEP=2
holds 'without a log' [ "$status$(tail -n 1 $conf)" = 0KEEP=2 ]
/usr/bin/python3 listen.py "$PWD/log" >>heard &
others+=("$!")
until [ -s heard ]; do sleep 0.05; done
me=$(id -un)
asks set --destdir "$PWD/machine" KEEP=3
said 'a change' "$me asks for: set --destdir $PWD/machine KEEP=3"
holds 'is done' [ "$status$(tail -n 1 $conf)" = 0KEEP=3 ]
if [ "$(id -u)" = 0 ]; then
  SUDO_USER=carol asks set --destdir "$PWD/machine" 'TITLE=two words'
  said 'who asked root' \
    "carol asks for: set --destdir $PWD/machine 'TITLE=two words'"
  SUDO_USER=$'a\nb' asks set --destdir "$PWD/machine" KEEP=4
  said 'by a name that is none' "$me asks for: set --destdir $PWD/machine KEEP=4"
fi
asks set --destdir "$PWD/machine" $'KEEP=5\n<85>rooms-admin: bob'
said 'one line for each' \
  "$me asks for: set --destdir $PWD/machine 'KEEP=5\\n<85>rooms-admin: bob'" 2
asks set --destdir "$PWD/machine" --dry-run KEEP=6
asks rooms
asks set --help
asks members --room "$PWD/none.conf"
asks user list --room "$PWD/none.conf"
asks user add bob --dry-run --room "$PWD/none.conf"
ROOMS_UNIT=u asks until --room "$PWD/none.conf"
asks user change bob --add staff --room "$PWD/none.conf"
said 'what changes nothing has none' \
  "$me asks for: user change bob --add staff --room $PWD/none.conf" 2
asks members --room "$PWD/none.conf" "$PWD/listen.py"
said 'a file does' "$me asks for: members --room $PWD/none.conf $PWD/listen.py" 2

# A log that nobody reads any more.
rm log
mkfifo waits
exec 7<>waits
/usr/bin/python3 listen.py "$PWD/log" hangs <waits >hung &
others+=("$!")
until [ -s hung ]; do sleep 0.05; done
/usr/bin/python3 - "$PWD/log" <<'END'
import socket, sys
at = socket.socket(socket.AF_UNIX, socket.SOCK_DGRAM)
at.connect(sys.argv[1])
at.setblocking(False)
try:
    while True:
        at.send(b"x")
except BlockingIOError:
    pass
END
began=$SECONDS
asks set --destdir "$PWD/machine" KEEP=7
holds 'a log that hangs' [ "$status$(grep -c KEEP=7 $conf)$((SECONDS - began < 20))" = 011 ]
exec 7>&-
unset ROOMS_LOG
