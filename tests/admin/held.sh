# What holds a room while it is copied, and for how long: a copy that is killed, a server that
# hangs, a disk that is slow or hangs, a room that is too large. Whoever asks meanwhile is answered
# afterwards, and the copy has all that was written before.

. "$here/lib/nights.sh"
if [ "$loopback" = no ] || ! has flock || ! has setpriv || ! has setsid || ! has curl; then
  skip 'a room that is held' 'no loopback, or no flock, setpriv, setsid, curl'
  return
fi
make_stand
new_office
stands() { verb standby --room "$PWD/conf"; }
reader=cat
[ "$STAND_USER" = "$(id -u)" ] || reader=setpriv
# What is done once the room is held, in the process that copies. (The stand-in of sleep doesn't.)
while_held() { printf '%s\n' 'PATH=${PATH#*:}' "$@" >"$stand/at-$reader"; } # LINE ..
put() { # NAME [FILE]: the status, and the seconds that it took
  curl -q -s -m "$patience" -o "$work/body.$1" -w '%{http_code} %{time_total}' -X PUT -H Expect: \
    -H 'Room-User: root' --unix-socket "$sock" --data-binary "${2:-hello}" "http://localhost/doc/$1"
}
puts_later() { put "$1" >"later.$1" & } # NAME
took() { sed 's/.* //; s/[.].*//' "later.$1"; } # NAME
has_document() { # FOLDER NAME
  rm -f look look-wal
  cp "$1/F" look && { [ ! -e "$1/F-wal" ] || cp "$1/F-wal" look-wal; } &&
    [ "$("$rooms" verify look 2>&1)" = sound ] &&
    "$rooms" dump look >dumped 2>&1 && grep -q "^document root staff [0-9]* /$2\$" dumped
}
copy_of() { # VERB: the folder of its last copy
  [ "$1" = standby ] && echo backups/conf/standby || echo "backups/conf/$(newest)"
}
waits_for() { # FILE
  local turn
  for turn in {1..400}; do [ ! -e "$1" ] || return 0; sleep 0.05; done
}

# Nobody is answered while the files are copied, and both stay as they are; all who came meanwhile
# are answered afterwards, and aren't in the copy.
for verb in standby backup; do
  put "before-$verb" >said
  while_held "cd '$PWD'; touch held; cksum office/F* >sums.1; sleep 2; cksum office/F* >sums.2"
  rm -f held
  verb "$verb" --room "$PWD/conf" &
  run=$!
  waits_for held
  for n in 1 2 3; do puts_later "$verb-$n"; done
  wait "$run"
  wait
  holds "$verb: it was held" is_there held
  same "$verb: both files stay as they are" sums.2 sums.1
  for n in 1 2 3; do
    holds "$verb: who waits is answered: $(<"later.$verb-$n")" \
      eval '[[ $(<"later.$verb-$n") = "201 "* ]] && [ "$(took "$verb-$n")" -ge 1 ]'
    has_document "$(copy_of "$verb")" "$verb-$n"
    holds "$verb: what came meanwhile isn't in the copy" [ "$?" != 0 ]
  done
  holds "$verb: what was answered before is" has_document "$(copy_of "$verb")" "before-$verb"
  answers "$verb: both are in the room" "/doc/$verb-1" \
    "reply '200 OK' application/octet-stream hello"
done

until_answered() { # NAME: how many milliseconds that takes is in took
  local began
  began=$(date +%s%N)
  until [ -s "later.$1" ] || [ $(($(date +%s%N) - began)) -gt 20000000000 ]; do sleep 0.005; done
  took=$((($(date +%s%N) - began) / 1000000))
}
free() { # NAME: beside other work one is answered later, though nothing holds the room
  puts_later "$1"
  until_answered "$1"
  [ "$((20 * took))" -le "$most" ] || most=$((20 * took))
}

# A kill while the room is held: the next request is answered at once, and nothing has to be done.
for verb in standby backup; do
  for how in KILL TERM; do
    rm -f held
    most=1000
    free "free-$verb-$how"
    while_held "echo \$\$ >'$PWD/hooked'; touch '$PWD/held'; exec sleep 60"
    verb "$verb" --room "$PWD/conf" &
    run=$!
    waits_for held
    puts_later "killed-$verb-$how"
    sleep 0.5
    holds "$verb, $how: nobody was answered before" [ ! -s "later.killed-$verb-$how" ]
    kill -s "$how" "$(cat "$stand/script")"
    until_answered "killed-$verb-$how"
    ms=$took
    free "freed-$verb-$how"
    holds "$verb, $how: the next is answered ($ms ms of $most): $(<"later.killed-$verb-$how")" \
      eval '[ "$ms" -lt "$most" ] && [[ $(<"later.killed-$verb-$how") = "201 "* ]]'
    wait "$run"
    unit_runs "$verb, $how: the server runs"
    owes_nothing "$verb, $how"
    kill "$(cat hooked)"
    verb "$verb" --room "$PWD/conf"
    holds "$verb, $how: the next run has a copy" \
      has_document "$(copy_of "$verb")" "killed-$verb-$how"
    holds "$verb, $how: the server was never started again" \
      [ "$(cat "$stand/out")" = "listening $sock" ]
  done
done

# A server that hangs lets nobody in. A copy for the standby ends with that; the night stops it.
kill -STOP "$(cat "$stand/pid")"
stands
says 'a server that hangs' 1 "rooms doesn't answer within 5 s; the last copy stays"
sleep 1
night
says 'a server that hangs at night' 1 \
  "rooms doesn't answer within 5 s: rooms is stopped for the copy, and started again"
mailed 'a server that hangs at night' "doesn't answer within 5 s"
answers 'it was started again' '/can/?' "json '200 OK' '{}'"
holds 'there is a backup' has_document "$(copy_of backup)" killed-backup-TERM
owes_nothing 'a server that hangs'
# One that never comes to the end of an answer, and one that speaks otherwise.
for text in "b'HTTP/1.1 200 OK\\r\\n'" "b'x' * 2000" "b''"; do
  unit stop
  rm -f "$sock"
  python3 -IBc "import socket, sys, time
with socket.socket(socket.AF_UNIX) as at:
    at.bind(sys.argv[1])
    at.listen()
    while True:
        one = at.accept()[0]
        for n in range(len($text) // 10 + 1):
            one.sendall(($text)[10 * n:10 * n + 10])
            time.sleep(0.2)
        time.sleep(0 if $text == b'' else 60)
        one.close()" "$sock" 2>/dev/null &
  other=$!
  # The unit of this stand-in is a process.
  echo "$other" >"$stand/pid"
  : >"$stand/started"
  for turn in {1..100}; do [ ! -S "$sock" ] || break; sleep 0.05; done
  stands
  says "a server that answers $text" 1 "rooms doesn't answer"
  kill "$other" 2>/dev/null
  wait "$other" 2>/dev/null
done
unit stop
unit start

# What the machine has at hand: how fast, and whether its disk clones.
head -c 900000 /dev/urandom >body
has_numbers() { printf '%s\n' "$@" >"$stand/waits"; } # NAME=SECONDS ..
put large @body >said
put large-too @body >said
sleep 1
night
holds 'a large room' has_document "$(copy_of backup)" large

# A disk that hangs: the server goes on after its time, is never stopped, and it is told.
before=$(newest)
for verb in standby backup; do
  has_numbers SHORTEST=3
  rm -f held
  while_held "echo \$\$ >'$PWD/hooked'; touch '$PWD/held'; exec sleep 60"
  verb "$verb" --room "$PWD/conf" &
  run=$!
  waits_for held
  puts_later "hung-$verb"
  wait "$run"
  cp "$stand/messages" messages
  wait
  holds "$verb, a disk that hangs: it was held for 3 s: $(<"later.hung-$verb")" \
    eval '[[ $(<"later.hung-$verb") = "201 "* ]] && [ "$(took "hung-$verb")" -lt 6 ]'
  holds "$verb, a disk that hangs: it is told: $(head -c 300 "$work/err")" \
    grep -q 'took more than 3 s for 0 of . MB, and is given up: its disk or that of' "$work/err"
  holds "$verb, a disk that hangs: the server was not stopped" \
    [ "$(grep -c 'systemctl stop' "$stand/steps")" = 0 ]
  kill "$(cat hooked)"
done
holds 'a disk that hangs: mail' grep -qF 'hangs, or is too slow' messages
holds 'a disk that hangs: the last backup stays, and no other is there' \
  [ "$(newest) $(find backups -name '*.part' | wc -l)" = "$before 0" ]

# A disk that is slow: a copy for the standby is refused, and the night stops the server.
has_numbers SHORTEST=3
echo 0.2 >"$stand/slow"
stands
says 'a disk that is slow, by day' 1 \
  'copied at night alone, while its server is stopped: the copy of'
says 'a disk that is slow' 1 'took more than 3 s for'
answers 'a disk that is slow: the server answers' '/can/?' "json '200 OK' '{}'"
sleep 1
night
says 'a disk that is slow, at night' 1 ': rooms is stopped for the copy, and started again'
mailed 'a disk that is slow, at night' 'took more than 3 s'
unit_runs 'a disk that is slow: the server runs'
owes_nothing 'a disk that is slow'
holds 'a disk that is slow: there is a backup' has_document "$(copy_of backup)" hung-backup

# A room that is too large for that is never held. Where its disk clones, it is, however slow.
has_numbers SHORTEST=2 LONGEST=4 SPEED=100000
echo no >"$stand/clones"
stands
says 'a room that is too large' 1 'MB, which may take more than 4 s to copy; the last copy stays'
sleep 1
night
says 'a room that is too large, at night' 0 ': rooms is stopped for the copy, and started again'
holds 'a room that is too large, at night: a warning' \
  grep -q '^mail -s rooms on .* is stopped for its copies root$' "$stand/messages"
holds 'a room that is too large, at night: there is a backup' \
  has_document "$(copy_of backup)" hung-backup
holds 'for which it is stopped once' [ "$(grep -c 'systemctl stop' "$stand/steps")" = 1 ]
unit_runs 'a room that is too large: the server runs'
owes_nothing 'a room that is too large'
echo yes >"$stand/clones"
stands
says 'a room that is cloned' 0 'requests wait while'
holds 'a room that is cloned: there is a copy' has_document backups/conf/standby hung-backup
sleep 1
night
says 'a room that is cloned, at night' 0 'for 4 s at most'
holds 'a room that is cloned: it is not stopped' \
  [ "$(grep -c 'systemctl stop' "$stand/steps")" = 0 ]
rm "$stand/slow" "$stand/clones"
# Where it can't be copied at all, nobody is kept waiting: a file with holes.
has_numbers SPEED=1000
unit stop
cp office/F whole
truncate -s 8T office/F 2>/dev/null && {
  unit start
  : >"$stand/started"
  stands
  before=$(cat "$stand/steps" | wc -l)
  sleep 1
  night
  says 'a room of 8 TB' 1 'copy of'
  says 'a room of 8 TB, for which there is no space' 1 'MB free'
  holds 'a room of 8 TB: it is not stopped' [ "$(grep -c 'systemctl stop' "$stand/steps")" = 0 ]
}
unit stop
cat whole >office/F
rm "$stand/waits"
unit start

# A run that is killed with all its processes while the server is stopped: the next one starts it.
has_numbers SHORTEST=2 LONGEST=4 SPEED=100000
echo no >"$stand/clones"
rm -f held
while_held "echo \$\$ >'$PWD/hooked'; touch '$PWD/held'; exec sleep 60"
sleep 1
verb backup --room "$PWD/conf" &
run=$!
waits_for held
unit_rests 'a room that is too large: the server is stopped meanwhile'
guard=$(pgrep -P "$(cat "$stand/script")" | tr '\n' ' ')
# shellcheck disable=SC2086
kill -KILL $guard "$(cat "$stand/script")" "$(cat hooked)"
wait "$run"
unit_rests 'a run that is killed whole'
rm "$stand/waits" "$stand/clones"
sleep 1
night
says 'is told by the next one' 1 'interrupted: an earlier run was cut off'
answers 'which starts the server' '/can/?' "json '200 OK' '{}'"
owes_nothing 'the next one'
