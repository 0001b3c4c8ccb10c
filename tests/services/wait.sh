# Who waits while a room's server is started anew: types and style, its parts, and the program,
# which is started anew while twenty users ask it. (Under systemd, behind nginx: machine/restarts.)
# And who asks at a room's port (machine/systemd).

if ! has python3; then
  skip 'who waits for a server' 'python3 is missing'
  return
fi
services=$repo/services
printf '%s\n' '[mypy]' 'strict = True' "cache_dir = $PWD/mypy" >mypy.ini
if has mypy; then
  MYPYPATH=$services:$repo/admin mypy --config-file mypy.ini "$services/rooms_services/wait.py" \
    "$here"/services/test_{wait,port}.py "$here"/lib/{restarted,cut_room}.py >"$work/out" 2>&1
  status=$?
  holds "mypy --strict: $(tail -n 5 "$work/out")" [ "$status" = 0 ]
else
  skip 'types of who waits' 'mypy is missing'
fi
if has flake8; then
  flake8 --isolated --max-line-length 100 "$services/rooms_services/wait.py" \
    "$here"/lib/{restarted,cut_room}.py "$here"/services/test_{wait,port}.py >"$work/out" 2>&1
  status=$?
  holds "flake8: $(head -n 5 "$work/out")" [ "$status" = 0 ]
else
  skip 'style of who waits' 'flake8 is missing'
fi
(cd "$here/services" &&
  PYTHONPATH=$services:$repo/admin python3 -B -m unittest test_wait test_port) >"$work/out" 2>&1
status=$?
holds "its parts: $(tail -n 20 "$work/out")" [ "$status" = 0 ]

# What the units do, by hand. Paths of sockets are short.
export ROOMS_RUN=$PWD/run ROOM=office
mkdir -p run/rooms-server/office run/rooms-wait bin
printf '%s\n' '#!/bin/sh' 'cat jobs' >bin/systemctl
chmod 755 bin/systemctl
PATH=$PWD/bin:$PATH
if [ ${#ROOMS_RUN} -gt 80 ]; then
  skip 'the program is started anew' 'the path of this folder is too long for a socket'
  return
fi
python3 -B "$here/lib/activated.py" "$PWD/run/rooms-wait/office" 666 \
  "$repo/deploy/rooms-service" wait >waiting.out 2>&1 &
others+=("$!")
open_room F
room=$PWD/run/rooms/office/socket
own=$PWD/run/rooms-server/office/socket
arrive() {
  rm -f "$own"
  "$rooms" serve F --socket "$own" --count 1000000 >serve.out 2>&1 9>&- &
  server=$!
  MAINPID=$server "$repo/admin/rooms-admin" await --room office >"$work/out" 2>&1
}
anew() { # the server, as systemctl restart does
  echo '7 rooms@office.service restart running' >jobs
  "$repo/admin/rooms-admin" await --leave --room office >"$work/out" 2>&1
  kill "$server"
  wait "$server" 2>/dev/null
  sleep 0.3
  arrive
}
began=$SECONDS
until [ -S run/rooms-wait/office ] || [ $((SECONDS - began)) -ge "$patience" ]; do sleep 0.02; done
arrive
holds "a server: $(cat "$work/out")" [ -S "$room" ]
curl -s -o "$work/body" --unix-socket "$room" -H 'Room-User: root' -X POST http://x/folder/load
mkfifo going
python3 -B "$here/lib/restarted.py" "$room" root: 20 '/can/?' <going >numbers 2>lost &
asking=$!
exec 9>going
for turn in 1 2 3; do
  sleep 0.5
  anew
  holds "it is back: $(cat "$work/out")" [ "$(stat -c %i "$room")" = "$(stat -c %i "$own")" ]
done
exec 9>&-
wait "$asking"
echo "twenty users, three restarts: $(cat numbers)"
holds "nobody is lost: $(cat numbers) $(head -n 3 lost)" \
  grep -Eq '^[0-9]{2,} asked, 0 lost, 0 twice, 0 missing, ' numbers
echo '7 rooms@office.service stop running' >jobs
holds 'somebody stops it' "$repo/admin/rooms-admin" await --leave --room office
holds 'nobody waits' [ ! -e "$room" ]
stop_server
gives 'the room is sound' 0 'sound\n' '' verify F
