# Whoever calls a verb by sudo may freeze or kill all in a control group of their own, or have
# logind send any signal to all that they began since they signed in, and hands on how late a wait
# ends: a room whose server rests for that verb comes back all the same, and nothing is locked then.

. "$here/lib/machine.sh"
. "$here/lib/booted.sh"
boot_machine 'a group of another account' || return
does 'a room' 'dpkg -i rooms.deb
  runuser -u rooms -- rooms init /var/lib/rooms/office.rooms alice staff &&
  systemctl enable --now rooms@office && rooms-admin user add alice <<<typed-by-alice'
cat >"$machine/root/group" <<'END'
for at in /sys/fs/cgroup/unified /sys/fs/cgroup; do [ ! -e $at/cgroup.procs ] || break; done
at=$at/deputy
mkdir -p $at && chown -R daemon $at && [ -e $at/cgroup.kill ]
END
inside '. ./group'
if [ "$status" != 0 ]; then
  skip 'a group of another account' 'no control groups that can be given away here'
  stop_machine
  return
fi
# What a process hands on, and then what is to have it.
cat >"$machine/usr/local/lib/late.py" <<'END'
import ctypes, os, sys
ctypes.CDLL(None).prctl(29, ctypes.c_ulong(10 ** 18))
os.execvp(sys.argv[1], sys.argv[1:])
END
cat >"$machine/root/calls" <<'END'
. ./group
began=$(systemctl show -p ActiveEnterTimestampMonotonic --value rooms@office)
asks="rooms-admin user change --add $1 --new alice"
case $1 in
  freeze | kill) (echo $BASHPID >$at/cgroup.procs; exec $asks) >said 2>&1 & ;;
  # As logind puts whoever signs in.
  signed-in)
    systemd-run -q --scope --slice=user-1.slice --unit=session-7 $asks >said 2>&1 & ;;
  late) python3 -I /usr/local/lib/late.py $asks >said 2>&1 & ;;
esac
while [ "$(systemctl is-active rooms@office)" = active ]; do sleep 0.02; done
case $1 in
  freeze | kill)
    setpriv --reuid=daemon --regid=daemon --clear-groups sh -c "echo 1 >$at/cgroup.$1" ;;
  signed-in) systemctl kill -s STOP session-7.scope ;;
esac
for turn in {1..600}; do
  [ "$(systemctl is-active rooms@office)" != active ] || break
  sleep 0.1
done
[ "$turn" -lt 600 ] && echo active
[ "$(systemctl show -p ActiveEnterTimestampMonotonic --value rooms@office)" != "$began" ] &&
  echo anew
for turn in {1..100}; do [ -e /run/rooms-directory.rooms@office ] || break; sleep 0.1; done
ls /run/rooms-directory.* 2>/dev/null
flock -w 60 /run/rooms-admin/rooms@office echo free
echo 0 >$at/cgroup.freeze
[ "$1" != signed-in ] || systemctl kill -s CONT session-7.scope
wait
END
for word in freeze kill signed-in late; do
  inside "bash calls $word"
  cp "$work/out" got
  printf '%s\n' active anew free >wanted
  same "$word: the room is back, and nothing is owed" got wanted
  does "$word: the change is made" "rooms-admin members | grep -qx $word,alice"
done
stop_machine
