# What the machine can refuse: a closed or full standard output, a full disk, rights, locks and
# ports; and a backup.

open_room F
printf 'group,user\nsales,alice\n' >in.csv
for command in 'dump F' 'get F /' 'review F /' 'audit F' 'groups-out F' 'verify F' 'migrate F' \
  'groups F in.csv'; do
  "$rooms" $command </dev/null 2>"$work/err" >&-
  status=$?
  : >"$work/out"
  wants "closed standard output: $command" 3 '' 'fault: file\n'
  if [ -c /dev/full ]; then
    "$rooms" $command </dev/null 2>"$work/err" >/dev/full
    status=$?
    wants "full standard output: $command" 3 '' 'fault: file\n'
  fi
done
if [ "$loopback" = yes ]; then
  for turn in {1..50}; do
    "$rooms" serve F --port "$((port += 1))" </dev/null 2>"$work/err" >&-
    status=$?
    # The port may be another program's.
    grep -q '^fault: net$' "$work/err" || break
  done
  wants 'closed standard output: serve' 3 '' 'fault: file\n'
fi
gives 'the members came in all the same' 0 'group,user\nsales,alice\n' '' groups-out F
# A line that can't be printed comes after the change: a list that is set, a file that is upgraded.
if [ -c /dev/full ]; then
  open_room N
  from_lines list:a "A:fd:alice:$ALL"
  "$rooms" reset N / dacl <"$input" 2>"$work/err" >/dev/full
  status=$?
  input=/dev/null
  : >"$work/out"
  wants 'full standard output: reset' 3 '' 'fault: file\n'
  gives 'the list is set all the same' 0 \
    "folder root staff /\ndacl\nlist:a\nA:fd:alice:$ALL\nsacl\nlist:a\n" '' dump N
  take rejoined.1.db N1
  gives 'an older file' 2 'refused: schema 1 is old\n' '' verify N1
  "$rooms" migrate N1 </dev/null 2>"$work/err" >/dev/full
  status=$?
  : >"$work/out"
  wants 'full standard output: migrate' 3 '' 'fault: file\n'
  gives 'the file is upgraded all the same' 0 'sound\n' '' verify N1
  gives 'a second time there is nothing to do' 2 'refused: schema 2 is new\n' '' migrate N1
fi
if [ -c /dev/full ]; then
  "$rooms" init init-full root staff </dev/null 2>"$work/err" >/dev/full
  status=$?
  : >"$work/out"
  wants 'full standard output: init' 3 '' 'fault: file\n'
  holds 'no file stays' is_missing init-full
fi
gives 'sound' 0 'sound\n' '' verify F

# A backup: the file and its log, copied once no process has them. The log holds what was written
# last.
open_room B
run dump B
cp "$work/out" old
if start_server B 2; then
  asks 'a document before the copy' made PUT /doc/f root hello
  stop_server
  holds 'a log stays behind a server that was killed' is_there B-wal
  mkdir both alone
  cp B B-wal both/
  cp B alone/
  gives 'the copy of both is sound' 0 'sound\n' '' verify both/B
  run dump both/B
  {
    cat old
    echo 'document root staff 5 /f'
    echo dacl
    printf '%s\n' list:a "A:I:root:$ALL"
    printf '%s\n' sacl list:a
  } >new
  wants_file 'it has what was written last' 0 new
  run dump alone/B
  wants_file 'the copy of the file alone lacks it' 0 old
  # Restored over a room that went on: both are put back, and nothing is left of the log that was
  # there.
  mkdir back
  cp B B-wal back/
  if start_server B 2; then
    asks 'a document after the copy' made PUT /doc/g root hello
    stop_server
  fi
  rm -f B B-wal
  cp back/B B
  if [ -e back/B-wal ]; then cp back/B-wal B-wal; fi
  run dump B
  wants_file 'what is restored is the copy' 0 new
  gives 'and is sound' 0 'sound\n' '' verify B
  if start_server B 1; then
    asks 'the document of the copy' "reply '200 OK' application/octet-stream hello" GET /doc/f root
    server_ends 'it ends' 0 ''
  fi
fi

# One process at a time has a room, and one socket a port.
open_room G
if start_server F 1; then
  gives 'two servers on one file' 3 '' 'fault: database\n' serve F --port "$((port + 1000))"
  gives 'a look at a file that is served' 3 '' 'fault: database\n' dump F
  gives 'init on a file that is served' 2 'refused: file exists\n' '' init F root staff
  gives 'a port in use' 3 '' 'fault: net\n' serve G --port "$port"
  asks 'the server is well' "json '200 OK' '{}'" GET '/can/?' root
  server_ends 'it ends' 0 ''
fi
gives 'the file is free again' 0 'sound\n' '' verify F
exec 7<>G
gives 'another process has the file open' 0 'sound\n' '' verify G
exec 7>&-
if has_sqlite; then
  mkfifo hold
  {
    echo 'PRAGMA locking_mode=exclusive; BEGIN IMMEDIATE; SELECT 1;'
    cat hold
  } | sqlite3 G >held 2>&1 &
  holder=$!
  began=$SECONDS
  until grep -q '^1$' held 2>/dev/null || [ $((SECONDS - began)) -ge "$patience" ]; do
    sleep 0.01
  done
  gives 'sqlite3 writes in the file' 3 '' 'fault: database\n' verify G
  echo 'ROLLBACK;' >hold
  wait "$holder"
  gives 'and lets it go' 0 'sound\n' '' verify G
else
  skip 'sqlite3 writes in the file' 'no sqlite3, or one that is too old'
fi
if ln G second-name 2>/dev/null; then
  gives 'a file with two names' 3 '' 'fault: database\n' verify G
  rm second-name
else
  skip 'a file with two names' 'this disk has one name for each'
fi

# Rights.
as_other() { # COMMAND ..
  if [ "$(id -u)" != 0 ]; then
    "$@"
  else
    setpriv --reuid=65534 --regid=65534 --clear-groups "$@"
  fi
}
# Whether another user can run the program here and reach its files, but can't read a file of mode
# 000.
meets_rights() {
  chmod 755 "$work" .
  chmod 000 G G-wal
  as_other "$rooms" --version </dev/null >/dev/null 2>&1
  [ $? = 2 ] && as_other test -r "$PWD/in.csv" && ! as_other test -r "$PWD/G"
}
if ! meets_rights 2>/dev/null; then
  chmod 600 G G-wal
  skip 'a file without rights' 'no other user can run the program here, or that one may read all'
else
  as_other "$rooms" dump G </dev/null >"$work/out" 2>"$work/err"
  status=$?
  wants 'a file without rights' 3 '' 'fault: database\n'
  as_other "$rooms" init New root staff </dev/null >"$work/out" 2>"$work/err"
  status=$?
  if [ "$(id -u)" = 0 ]; then wants 'a folder without rights' 3 '' 'fault: file\n'; fi
  mkdir locked
  chmod 000 locked
  as_other "$rooms" dump locked/F </dev/null >"$work/out" 2>"$work/err"
  status=$?
  wants 'a folder that may not be entered' 3 '' 'fault: file\n'
  chmod 600 G G-wal
  chmod 700 locked
fi

# A small disk: it takes a room and little more, and then it is filled up.
mkdir small
if mount -t tmpfs -o size=1m none small 2>/dev/null; then
  gives 'init on a small disk' 0 'ready\n' '' init small/F root staff
  from_lines 'list:a' "A:fd:root:$ALL"
  gives 'reset on a small disk' 0 'done\n' '' reset small/F / dacl
  input=/dev/null
  run dump small/F
  cp "$work/out" before
  { echo group,user; seq -f 'b,user%05.0f' 20000; } >many.csv
  head -c 2000000 /dev/zero >small/filler 2>/dev/null
  gives 'groups on a full disk' 3 '' 'fault: database\n' groups small/F many.csv
  run dump small/F
  wants_file 'which changes nothing' 0 before
  # What is printed of a room finds no space beside it.
  for command in dump groups-out audit; do
    # The space that the last command freed is filled again.
    head -c 2000000 /dev/zero >>small/more 2>/dev/null
    "$rooms" "$command" small/F </dev/null 2>"$work/err" >small/told
    status=$?
    : >"$work/out"
    wants "$command onto a full disk" 3 '' 'fault: file\n'
    holds "$command onto a full disk: nothing is there" [ ! -s small/told ]
    rm small/told
  done
  run dump small/F
  wants_file 'which changes nothing either' 0 before
  gives 'and stays sound' 0 'sound\n' '' verify small/F
  if start_server small/F 3; then
    asks 'a document on a full disk' "json '500 Internal Server Error' '{\"why\":\"store\"}'" \
      PUT /doc/f root hello
    asks 'a look at a full disk' "json '200 OK' '[]'" GET /folder/ root
    rm small/filler small/more
    asks 'a document once there is room' made PUT /doc/f root hello
    server_ends 'the server goes on' 0 ''
  fi
  head -c 2000000 /dev/zero >small/filler 2>/dev/null
  gives 'init on a full disk' 3 '' 'fault: database\n' init small/G root staff
  holds 'no file stays' is_missing small/G
  holds 'no log stays' is_missing small/G-wal
  rm -f small/filler small/more small/F small/F-wal
  gives 'a second try' 0 'ready\n' '' init small/G root staff
  umount small
else
  skip 'a full disk' 'no leave to mount'
fi

# Out of memory.
if (ulimit -v 60000) 2>/dev/null && has seq; then
  # (Short names take no memory of their own.)
  long=$(printf 'u%.0s' {1..54})
  { echo group,user; seq 20000 | sed "s/.*/$long&,$long&/"; } >many.csv
  if ! (ulimit -v 20000; "$rooms" --version </dev/null 2>/dev/null; [ $? = 2 ]); then
    skip 'out of memory' 'the program does not start in 20 MB'
    return
  fi
  (
    ulimit -v 20000
    "$rooms" groups F many.csv </dev/null >"$work/out" 2>"$work/err"
    echo $? >status
  )
  status=$(cat status)
  wants 'out of memory' 3 '' 'fault: memory\n'
  gives 'which changes nothing' 0 'group,user\nsales,alice\n' '' groups-out F
fi
gives 'sound' 0 'sound\n' '' verify F

# A connection that runs out of memory is reported, and the next one is served: with little more
# memory than a server needs, the largest body doesn't fit.
if [ "$loopback" = no ] || ! (ulimit -v 60000) 2>/dev/null; then
  skip 'a connection that wants memory' 'no loopback, or no limit of memory'
  return
fi
open_room W
{
  printf 'PUT /doc/big HTTP/1.1\r\nRoom-User: root\r\nConnection: close\r\n'
  printf 'Content-Length: 1048576\r\n\r\n'
  head -c 1048576 /dev/zero
} >large
told=no
for ((limit = 8000; limit <= 40000; limit += 500)); do
  port=$((port + 1))
  place=127.0.0.1:$port
  : >"$work/server.out"
  (ulimit -v "$limit" && exec "$rooms" serve W --port "$port" --count 2) \
    </dev/null >"$work/server.out" 2>"$work/server.err" &
  server=$!
  if await_line; then
    cp large "$work/sent"
    exchange 2>/dev/null
    cp "$work/reply" first.reply
    last_message GET '/can/?' root >"$work/sent"
    exchange
    wait_for "$server" || fail 'a server with little memory' "it doesn't end"
    json '500 Internal Server Error' '{"why":"store"}' >"$work/short.reply"
    # With less memory than this the next one wants some too.
    if [ -s "$work/server.err" ] && ! cmp -s "$work/reply" "$work/short.reply"; then
      server_ends 'a connection that wants memory' 0 'connection 1: memory fault\n'
      holds 'it has no reply' [ ! -s first.reply ]
      json '200 OK' '{}' >"$work/want.reply"
      same 'the next one is served' "$work/reply" "$work/want.reply"
      told=yes
    fi
    # With more memory than this the request itself is answered.
    [ "$told" = no ] && [ ! -s first.reply ] || break
  fi
  stop_server
done
stop_server
[ "$told" = yes ] || skip 'a connection that wants memory' 'the limit was not met'
gives 'sound after want of memory' 0 'sound\n' '' verify W
