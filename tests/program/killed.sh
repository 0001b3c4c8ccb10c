# A server that is killed at any moment: what was answered is on the disk, and the file opens and is
# sound.

# Puts documents n1, n2 .. on one connection, and counts in `answered` those that were answered.
put_until_cut() {
  local number line
  exec 3<>"/dev/tcp/127.0.0.1/$port" || return
  for ((number = 1; number < 100000; number++)); do
    printf 'PUT /doc/n%s HTTP/1.1\r\nRoom-User: root\r\nContent-Length: %s\r\n\r\n%s' \
      "$number" "${#number}" "$number" >&3 2>/dev/null || break
    IFS= read -r -t "$patience" line <&3 || break
    [ "$line" = $'HTTP/1.1 201 Created\r' ] || { echo "$line" >>odd; break; }
    echo "$number" >>answered
    IFS= read -r -t "$patience" line <&3 || break
    IFS= read -r -t "$patience" line <&3 || break
  done
  exec 3>&- 3<&-
}

# Waits until the writer has COUNT answers, or has ended.
await_answers() { # COUNT
  local began=$SECONDS
  while [ "$(wc -l <answered)" -lt "$1" ] && [ $((SECONDS - began)) -lt "$patience" ]; do
    kill -0 "$writer" 2>/dev/null || return
    sleep 0.002
  done
}

open_room F
rounds=40
[ "$loopback" = yes ] || rounds=0
all=0
: >odd
for ((round = 1; round <= rounds; round++)); do
  start_server F 1000 || break
  # The shell would report each process that was killed.
  : >answered
  { put_until_cut 2>/dev/null & } 2>/dev/null
  writer=$!
  await_answers $((round % 6))
  sleep "0.$(printf '%03d' $((RANDOM % 100)))"
  { kill -9 "$server"; wait "$server"; } 2>/dev/null
  server=
  wait "$writer" 2>/dev/null
  count=$(wc -l <answered)
  all=$((all + count))
  gives "killed $round: sound" 0 'sound\n' '' verify F
  run dump F
  # Each answered document is there with its bytes' length, and at most one more.
  there=$(grep -c '^document root staff [0-9]* /n[0-9]*$' "$work/out")
  if [ "$there" = "$count" ] || [ "$there" = $((count + 1)) ]; then
    pass
  else
    fail "killed $round" "$count were answered, $there are there"
  fi
  # The last answered one is read back; then all of them go.
  if [ "$count" -gt 0 ] && start_server F 1; then
    asks "killed $round: read back" "reply '200 OK' application/octet-stream $count" \
      GET "/doc/n$count" root
    server_ends "killed $round: ends" 0 ''
  fi
  new_room F
  from_lines 'list:a' "A:fd:root:$ALL"
  run reset F / dacl
  input=/dev/null
done
holds 'nothing odd was answered' [ ! -s odd ]
if [ "$loopback" = yes ]; then
  holds 'enough was answered' [ "$all" -gt 40 ]
else
  skip 'servers that are killed' 'this machine has no loopback'
fi

# The operator's subcommands, killed: the file holds what was before or what was asked.
kill_soon() { # COMMAND ..
  "$rooms" "$@" <"$input" >/dev/null 2>&1 &
  local process=$!
  sleep "0.00$((RANDOM % 10))"
  { kill -9 "$process"; wait "$process"; } 2>/dev/null
}
open_room F
printf 'group,user\na,one\n' >first.csv
{ echo group,user; seq -f 'b,user%05.0f' 3000; } >second.csv
for ((round = 1; round <= 20; round++)); do
  gives "groups $round" 0 'groups 1, members 1\n' '' groups F first.csv
  kill_soon groups F second.csv
  run groups-out F
  one_of "groups killed $round" first.csv second.csv
  gives "groups killed $round: sound" 0 'sound\n' '' verify F
done
take "rejoined.1.db" old
for ((round = 1; round <= 20; round++)); do
  cp old M
  rm -f M-wal
  kill_soon migrate M
  run migrate M
  case $status in
    0) wants "migrate killed $round" 0 'migrated\n' '' ;;
    *) wants "migrate killed $round" 2 'refused: schema 2 is new\n' '' ;;
  esac
  run dump M
  wants_file "migrate killed $round: dump" 0 "$data/rejoined.dump"
done
for ((round = 1; round <= 20; round++)); do
  rm -f I I-wal
  kill_soon init I root staff
  run dump I
  case $status in
    0) wants "init killed $round" 0 "$EMPTY_ROOM" '' ;;
    2) wants "init killed $round" 2 'refused: not a rooms file\n' '' ;;
    *) wants "init killed $round" 3 '' 'fault: file\n' ;;
  esac
done
