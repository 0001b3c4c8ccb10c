# Where a program in the place of each service can make folders that others see: of folders in one
# another without end systemd's first process would keep each open, when it removes what a unit
# leaves, and root's programs might go in. (What a service has in memory of its own nobody enters.)

top=$repo
version=none
. "$here/lib/machine.sh"
. "$here/lib/booted.sh"
boot_machine 'folders that a service can make' || return
does 'the package, and what a room has' 'dpkg -i rooms.deb; chmod 1777 /var/tmp
  install -d -o rooms-texts -m 700 /var/cache/rooms-texts-copies/office
  mkdir -p /root/found /run/rooms/office /etc/systemd/system/rooms-port@office.socket.d
  printf "%s\n" "[Socket]" ListenStream=127.0.0.1:8780 \
    >/etc/systemd/system/rooms-port@office.socket.d/port.conf'
cp "$here/machine/nested.py" "$machine/usr/local/lib/"
does 'the unit of the page' "$(block docs/directory.md '[Service]' | sed '/^systemctl /d')"
# root itself makes folders, in units that read what no service has made, or where a child of theirs
# has a filter (admin/style); and rooms-would@ has no file.
units=()
for file in "$repo"/deploy/systemd/rooms*.service rooms-session.service; do
  unit=${file##*/}
  unit=${unit%.service}
  case $unit in
    rooms-connections | rooms-firewall | rooms-directory@ | rooms-nightly@) continue ;;
    rooms-standby@ | rooms-would@) continue ;;
    # Apache's processes that answer are of that user.
    rooms-passwords | rooms-session)
      word='/usr/bin/setpriv --reuid=rooms-passwords --regid=rooms-passwords --clear-groups ' ;;
    *) word= ;;
  esac
  mkdir -p "$machine/etc/systemd/system/$unit.service.d"
  printf '%s\n' '[Unit]' OnFailure= ConditionPathExists= '[Service]' Type=oneshot Restart=no \
    RuntimeMaxSec=infinity ExecCondition= ExecStart= ExecStartPost= ExecStop= ExecStopPost= \
    StandardInput=null StandardOutput=journal StandardError=journal \
    "ExecStart=$word/usr/bin/python3 -I /usr/local/lib/nested.py made.by.%p" \
    "ExecStartPost=+/bin/sh -c 'find / -path /proc -prune -o -path /sys -prune \
-o -name made.by.%p -printf \"%%h\\\\n\" >/root/found/%p'" \
    >"$machine/etc/systemd/system/$unit.service.d/nested.conf"
  units+=("${unit/%@/@office}")
done
does 'each unit has its turn' "systemctl daemon-reload; for unit in ${units[*]}; do
  systemctl start \$unit || { journalctl -u \$unit --no-pager -n 5; exit 1; }; done"
does 'what each made' 'cd /root/found && for one in *; do
  sed "s,/systemd-private-[^/]*,/private,; s,^,$one ," $one | sort; done'
cp "$work/out" made
# Each of these has a word in its unit. What isn't removed by systemd are folders of their own that
# stay; root's programs bring up what is in one before that goes.
printf '%s\n' 'rooms-nights /run/rooms-nights/open' 'rooms-nights /var/cache/rooms-nights' \
  'rooms-tell /dev/shm' 'rooms-tell /run/lock' 'rooms-tell /run/rooms-tell' \
  'rooms-texts-night /var/cache/rooms-texts-copies/office' \
  'rooms-texts-night /var/cache/rooms-texts/office' >wanted
same 'folders of their own' made wanted
# Nor does any of the others have a ring, by which it could be done in another way.
does 'filters of calls' "for unit in ${units[*]}; do
  systemctl show \$unit -p SystemCallFilter --value | tr ' ' '\n' |
    grep -qxe mkdir -e mkdirat -e io_uring_setup && echo \${unit%@*}; done; true"
printf '%s\n' rooms-extract rooms-nights rooms-picture rooms-scan rooms-texts-night >wanted
same 'that let it' "$work/out" wanted
stop_machine
