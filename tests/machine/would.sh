# What would come of a change, on an installed machine: who gets to the program that says it, and
# how much of the machine it gets. (What it can do in other hands is in taken-over.)

top=$here/..
version=none
. "$here/lib/machine.sh"
. "$here/lib/booted.sh"
boot_machine 'what would come of a change, on a machine' || return
does 'the package, and a room' 'dpkg -i rooms.deb
  runuser -u rooms -- rooms init /var/lib/rooms/office.rooms alice staff &&
  systemctl enable --now rooms@office && rooms-admin user add alice <<<a &&
  systemctl reload-or-restart nginx'
shows 'the socket' rooms-would.socket ActiveState active
does 'whose it is' 'cd /run/rooms-would && stat -c "%n %U %G %a" . socket'
printf '%s\n' '. root root 711' 'socket rooms-door rooms-door 600' >wanted
same 'is the doors'\''' "$work/out" wanted
does 'who gets there' 'for user in nobody www-data rooms rooms-door rooms-would rooms-earlier; do
  ! setpriv --reuid=$user --regid=$(id -g $user) --clear-groups python3 -c "
import socket
socket.socket(socket.AF_UNIX).connect(\"/run/rooms-would/socket\")" 2>/dev/null || echo $user
  done'
echo rooms-door >wanted
same 'the doors alone' "$work/out" wanted

# A question in each way that it may go. What waits is asked by root, past the door.
question() { printf '%s\n' 'member staff bob' 'folder alice staff /' list:a "$@"; }
question A:g:staff:rx 'look /' >"$machine/root/question"
question A:staff:rx 'look /' >"$machine/root/wrong"
{
  for n in {1..900}; do echo "as l$n * g$n"; done
  echo 'folder alice staff /'
  echo list:a
  for n in {1..4000}; do printf 'document bob staff /%d\nfollows\n' "$n"; done
} >"$machine/root/long"
cat >"$machine/usr/local/lib/waits.py" <<'END'
"""Asks NUMBER times at once, and ends no question; then prints how long each waited, and what for."""
import socket
import sys
import time

began = time.monotonic()
asking = [socket.socket(socket.AF_UNIX) for _ in range(int(sys.argv[1]))]
for one in asking:
    one.connect("/run/rooms-would/socket")
    one.send(b"look /\n")
for one in asking:
    try:
        said = one.makefile().read()
    except ConnectionError:
        said = ""
    print(round((time.monotonic() - began) / 5) * 5, said.strip().replace("\n", ", "))
END
asks="curl -s -w ' %{http_code}' -u alice:a http://127.0.0.1/door/would --data-binary @/root"
until_inside 'the door is there' "[ \"\$($asks/question)\" != '' ]"
is() { # NAME WANTED TEXT
  inside "$3"
  holds "$1: $(head -c 300 "$work/out" "$work/err")" [ "$(cat "$work/out")" = "$2" ]
}
none='{"why":"no-answer"} 503'
rows='["/","folder","alice","","no","","no"],["/","folder","bob","rx","no","rx","no"],'
rows+='["/","folder","*","","no","","no"],["/","folder","ANONYMOUS@","","no","","no"]'
is 'an answer' "{\"lists\":[],\"rows\":[$rows]} 200" "$asks/question"
is 'a refusal' '{"line":"refused: line 4: A5 not four parts","why":"refused"} 400' "$asks/wrong"
inside "time -p $asks/question"
echo "  a question under systemd: $(sed -n 's/^real //p' "$work/err") s"
inside "time -p $asks/long -o /dev/null"
echo "  one about 4,000 objects, of 904 callers: $(sed -n 's/^real //p' "$work/err") s"
holds 'is answered' grep -q ' 200$' "$work/out"
is 'one that is killed gives no part of an answer' "$none" "$asks/long &
  for turn in {1..300}; do
    unit=\$(systemctl list-units --plain --no-legend 'rooms-would@*' | sed 's/ .*//')
    [ -z \"\$unit\" ] || { systemctl kill -s KILL \$unit; break; }
  done; wait"
is 'a question without an end' '10 ' 'python3 -I /usr/local/lib/waits.py 1'
is 'beside eight of them' "$none" "python3 -I /usr/local/lib/waits.py 8 >/dev/null & sleep 1
  $asks/question; wait"
is 'and then' "{\"lists\":[],\"rows\":[$rows]} 200" "$asks/question"
shows 'the socket stays' rooms-would.socket ActiveState active
does 'units with faults' 'systemctl list-units --state=failed --no-legend --plain "rooms*"'
holds 'there are none' [ ! -s "$work/out" ]
does 'what an answer writes to the journal' "journalctl --sync; date +%s.%N >since; sleep 1
  $asks/question >/dev/null; journalctl --sync
  journalctl -u 'rooms-would@*' --since \"@\$(cat since)\" -o cat --no-pager -q"
holds "is nothing: $(cat "$work/out")" [ ! -s "$work/out" ]
stop_machine
