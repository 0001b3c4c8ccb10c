# Backups under systemd: rooms that share BACKUPS, with nights and standby copies at once; and what
# a server that was taken over can do at a night: its user, with each restriction of its unit and
# without them, waits for the program that works on the copy, and tries to hold it, to get into its
# folder and to change what is there. Nothing of root's gets to it, and no backup is lost.

top=$repo
version=none
. "$here/lib/machine.sh"
. "$here/lib/booted.sh"
boot_machine 'backups under systemd' || return
does 'the package' 'dpkg -i rooms.deb'
does 'a room' 'runuser -u rooms -- rooms init /var/lib/rooms/office.rooms alice staff &&
  systemctl enable --now rooms@office'

# Two rooms with one BACKUPS, as docs/backup.md says: each night and each copy is there, and nobody
# is shown what is the other room's.
does 'two rooms with one folder of backups' '
  rooms-admin add invoices carol accounting >/dev/null
  sed -i s#^BACKUPS=.*#BACKUPS=/var/backups/rooms# /etc/rooms/invoices.conf
  printf "%s\n" group,user staff,alice staff,eve >/tmp/o
  printf "%s\n" group,user staff,alice secret-merger,carol >/tmp/i
  chmod 644 /tmp/?; systemctl stop rooms@office rooms@invoices
  runuser -u rooms -- rooms groups /var/lib/rooms/office.rooms /tmp/o
  runuser -u rooms -- rooms groups /var/lib/rooms/invoices.rooms /tmp/i
  systemctl start rooms@office rooms@invoices'
for turn in 1 2 3 4; do
  for what in nightly standby; do
    does "both at once, $what, $turn" "systemctl start rooms-$what@office & one=\$!
      systemctl start rooms-$what@invoices & two=\$!; wait \$one && wait \$two"
  done
done
does 'what there is' 'cd /var/backups/rooms && ls -d */standby/*.rooms
  for room in office invoices; do rooms-admin backups --room $room | wc -l; cat $(
    rooms-admin latest --room $room)/run; done; ls | wc -l'
prints 'is all of it' invoices/standby/invoices.rooms office/standby/office.rooms 4 'number 4' 4 \
  'number 4' 2
does 'the names of one' 'rooms-admin people; cat /var/lib/rooms-web/office/people.json'
holds 'are its own' \
  [ "$(grep -c -e secret -e carol "$work/out") $(grep -c staff "$work/out")" = '0 1' ]
does 'back to one room' 'rooms-admin remove invoices >/dev/null; rm -r /var/backups/rooms/*'

does 'a folder for the review' "curl -s --unix-socket /run/rooms/office/socket \
  -H Room-User:alice -o /dev/null -w '%{http_code}\n' -X POST http://localhost/folder/audit"
prints 'is made' 201

# The program is slow, so that whoever waits for it finds it at each word. What it finds it holds,
# and in its folder it does all that it may.
cat >"$machine/usr/local/bin/slow" <<'END'
#!/bin/sh
case $2 in ./*) sleep 0.4 ;; esac
exec /usr/bin/rooms "$@"
END
cat >"$machine/opt/attacker.py" <<'END'
import os
import signal
import sys
import time

said, ends = set(), time.monotonic() + 60


def say(text):
    if text not in said:
        said.add(text)
        print(text, flush=True)


def tries(name, work):
    try:
        work()
        say("DONE " + name)
    except OSError as fault:
        say(name + ": " + fault.strerror)


def swap(folder):
    """A link to a secret in the place of a text, the largest number, a pipe, and an open folder."""
    os.rename("unfinished", "text", src_dir_fd=folder, dst_dir_fd=folder)
    os.symlink("/etc/shadow", "unfinished", dir_fd=folder)


def renumber(folder):
    os.unlink("run", dir_fd=folder)
    with os.fdopen(os.open("run", os.O_WRONLY | os.O_CREAT, 0o644, dir_fd=folder), "w") as out:
        out.write("number 999999999\n")


def see(process):
    with open(f"/proc/{process}/cmdline", "rb") as source:
        words = source.read().split(b"\0")
    if not any(one.startswith(b"./") for one in words) or b"attacker" in b"".join(words):
        return
    say("seen")
    tries("hold", lambda: os.kill(process, signal.SIGSTOP))
    try:
        folder = os.open(f"/proc/{process}/cwd", os.O_RDONLY | os.O_DIRECTORY)
    except OSError as fault:
        say("enter: " + fault.strerror)
        return
    say("DONE enter")
    for name, work in (("open", lambda: os.fchmod(folder, 0o777)),
                       ("number", lambda: renumber(folder)), ("link", lambda: swap(folder))):
        tries(name, work)
    tries("let go", lambda: os.kill(process, signal.SIGCONT))


say(f"as {os.getuid()}")
for place in ("/var/backups/rooms", "/var/backups/rooms/office"):
    tries("list", lambda: os.listdir(place))
while time.monotonic() < ends and not os.path.exists(sys.argv[1]):
    for one in os.listdir("/proc"):
        if one.isdigit() and int(one) != os.getpid():
            try:
                see(int(one))
            except OSError:
                pass
    for one in os.listdir("/var/tmp"):
        if one.startswith("rooms-get"):
            tries("copy", lambda: os.listdir("/var/tmp/" + one))
END
does 'its unit, with another program' 'chmod 755 /usr/local/bin/slow /opt /opt/attacker.py
  sed -i "s#^PROGRAM=.*#PROGRAM=/usr/local/bin/slow#; s#^REVIEW=.*#REVIEW=/audit#
    s#^REVIEWER=.*#REVIEWER=alice#" /etc/rooms/office.conf
  sed -e "/^Exec/d; /^  exec /d; /^RuntimeDirectory/d; /^Wants=/d; /^OnFailure/d" \
    -e "/^StandardOutput/d" \
    -e "s#^Restart=always#ExecStart=/usr/bin/python3 -I /opt/attacker.py /opt/over#" \
    /usr/lib/systemd/system/rooms@.service >/etc/systemd/system/evil@.service
  systemctl daemon-reload; grep -c ^Protect /etc/systemd/system/evil@.service'
holds 'has its restrictions' [ "$(cat "$work/out")" -ge 8 ]

night() { # NAME: with what was found of it in $last
  inside 'systemctl start rooms-nightly@office'
  holds "$1: it goes well, $(head -c 300 "$work/err")" [ "$status" = 0 ]
  does "$1: where it is" 'rooms-admin latest'
  last=$(cat "$work/out")
}
is_as_root_left_it() { # NAME NUMBER
  does "$1: its number" "cat $last/run"
  prints "$1: its number" "number $2"
  does "$1: whose it is" "find /var/backups/rooms -not -user root -o -not -group root -o -perm /077"
  holds "$1: root's alone: $(cat "$work/out")" [ ! -s "$work/out" ]
  does "$1: what it has" "cd $last && find . ! -type f ! -path . ; ls"
  prints "$1: what it has" dates lists.txt machine.tar office.rooms office.rooms-wal records.csv \
    review.csv run
  does "$1: the review in the room" "curl -s --unix-socket /run/rooms/office/socket \
    -H Room-User:alice http://localhost/doc/audit/\$(date +%F)-review.csv | head -n 1"
  prints "$1: the review in the room" path,kind,user,rights,remove
}
waits() { # NAME HOW: the attacker, until there was a night
  does "$1" "rm -f /opt/over
    $2
    sleep 1"
}
number=0
waits 'with the restrictions of the unit' 'systemctl restart evil@office'
night 'a night'
is_as_root_left_it 'a night' $((number += 1))
does 'the attacker' 'touch /opt/over; sleep 1; journalctl -u evil@office -o cat --no-pager |
  grep -v -e "^Started" -e "^evil@office" -e Consumed -e Deactivated'
holds "has seen nobody: $(cat "$work/out")" \
  [ "$(grep -c -e ^DONE -e ^seen "$work/out") $(grep -c '^list: Permission' "$work/out")" = '0 1' ]
# Something else runs as that user, as `rooms init` of a page does: by it nobody leaves the unit.
cat >"$machine/opt/leave.py" <<'END'
import os
import time

ends = time.monotonic() + 4
while time.monotonic() < ends:
    for one in os.listdir("/proc"):
        if one.isdigit() and int(one) != os.getpid():
            for place, how in (("root/var/tmp/left", "w"), ("mem", "r+b"), ("cwd/left", "w")):
                try:
                    open(f"/proc/{one}/{place}", how).close()
                    print("DONE", one, place, flush=True)
                except OSError:
                    pass
    time.sleep(0.02)
print("tried", flush=True)
END
does 'what tries to leave its unit' 'chmod 644 /opt/leave.py; systemctl stop evil@office
  sed -e "s#/opt/attacker.py /opt/over#/opt/leave.py#" /etc/systemd/system/evil@.service \
    >/etc/systemd/system/leaving@.service; systemctl daemon-reload
  systemctl start leaving@office; cd /var/tmp; runuser -u rooms -- sleep 5
  journalctl -u leaving@office -o cat --no-pager | grep -e ^DONE -e ^tried | sort | uniq -c |
    sort -rn | head -n 5; systemctl stop leaving@office; ls /var/tmp/left 2>/dev/null || :'
holds "does not: $(cat "$work/out")" [ "$(awk '{ print $2 }' "$work/out" | sort -u)" = tried ]
# A shell of that user, as a page of this product gives it for `rooms init`.
waits 'without them' 'setsid runuser -u rooms -- python3 -I /opt/attacker.py /opt/over \
  >/root/attacked 2>&1 </dev/null &'
night 'another night'
is_as_root_left_it 'another night' $((number += 1))
does 'the attacker' 'touch /opt/over; sleep 1; cat attacked'
holds "has seen it: $(cat "$work/out")" grep -qx seen "$work/out"
printf '%s\n' 'enter: Permission denied' 'hold: Operation not permitted' \
  'list: Permission denied' >wanted
grep -v -e '^as ' -e '^seen$' "$work/out" | sort >got
same 'and could do nothing' got wanted
# Those of a standby, and one by hand, outside of its unit, where /var/tmp is that of all.
waits 'at copies by hand' 'setsid runuser -u rooms -- python3 -I /opt/attacker.py /opt/over \
  >/root/attacked 2>&1 </dev/null &'
does 'a standby copy' 'rooms-admin standby && rooms-admin get latest /audit/$(date +%F)-review.csv'
does 'the attacker' 'touch /opt/over; sleep 1; cat attacked'
holds "has seen it: $(cat "$work/out")" grep -qx seen "$work/out"
holds 'and the folder of the copy' grep -qx 'copy: Permission denied' "$work/out"
holds 'and could do nothing' [ "$(grep -c ^DONE "$work/out")" = 0 ]

# What it can leave in its own folder: a link, a pipe and a device in the place of its log. Nothing
# of what they lead to gets into a backup, and the last one stays.
for what in 'ln -s /etc/shadow' mkfifo; do
  does "$what" "systemctl stop rooms@office; cd /var/lib/rooms
    runuser -u rooms -- sh -c 'rm -f office.rooms-wal; $what office.rooms-wal'
    timeout 60 rooms-admin backup; [ \$? = 1 ] && rooms-admin latest
    ! grep -rl 'root:[*!\$]' /var/backups/rooms/office
    rm office.rooms-wal && systemctl start rooms@office"
  prints "$what: the last backup stays" "$last"
done

# What an earlier version could have left: a folder that is open to all with another tar, and the
# largest number. It is told, is no backup, and the good ones stay.
does 'what was poisoned' "cp -a $last /var/backups/rooms/2026-01-01.040000 &&
  chmod 777 /var/backups/rooms/2026-01-01.040000 &&
  cp -a $last /var/backups/rooms/2026-01-02.040000 &&
  echo number 999999999 >/var/backups/rooms/2026-01-02.040000/run
  sed -i s/^KEEP=.*/KEEP=1/ /etc/rooms/office.conf; find /var/backups -name run | wc -l"
kept=$(cat "$work/out")
for turn in 1 2; do
  inside 'systemctl start rooms-nightly@office'
  holds "a night beside it, $turn, fails" [ "$status" = 1 ]
  does 'what it says' 'journalctl -u rooms-nightly@office -o cat --no-pager -n 20'
  for text in 'no backup: /var/backups/rooms/2026-01-01.040000 is not root' \
    'bad number: /var/backups/rooms/2026-01-02.040000/run is no number'; do
    holds "it says why ($text)" grep -qF "no older backup is removed: $text" "$work/out"
  done
  does 'the newest' 'cat $(rooms-admin latest)/run'
  prints 'the newest' "number $((number += 1))"
done
does 'and nothing is gone' 'find /var/backups -name run | wc -l'
prints 'but two more are there' $((kept + 2))
does 'without it' 'rm -r /var/backups/rooms/2026-01-0*; systemctl start rooms-nightly@office
  ls -d /var/backups/rooms/office/2* | wc -l'
prints 'the nights go on, and keep one' 1
stop_machine
rm -rf machine
