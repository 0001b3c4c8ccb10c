# A user's own password on an installed machine, under systemd: the change, and what a program in
# the place of the service can do.

top=$here/..
version=none
. "$here/lib/machine.sh"
. "$here/lib/booted.sh"
boot_machine 'own passwords on a machine' || return
does 'the package is installed' 'dpkg -i rooms.deb'
does 'a room' 'runuser -u rooms -- rooms init /var/lib/rooms/office.rooms alice staff &&
  systemctl enable --now rooms@office && rooms-admin user add alice --first <<<"given to alice" &&
  systemctl reload-or-restart nginx'
shows 'the socket' rooms-own-password.socket ActiveState active
does 'whose the files are' 'cd /var/lib/rooms-passwords && stat -c "%n %U %G %a" . *'
printf '%s\n' '. root www-data 710' 'rooms.first root www-data 640' \
  'rooms.htpasswd root www-data 640' >wanted
same 'are root'\''s, for nginx' "$work/out" wanted
does 'nginx can not hold them' '! setpriv --reuid=www-data --regid=www-data --clear-groups \
  flock -n /var/lib/rooms-passwords true 2>/dev/null'
web='curl -s -o /dev/null -w %{http_code}'
is() { # NAME STATUS TEXT
  inside "$3"
  holds "$1: $(cat "$work/out" "$work/err")" [ "$(cat "$work/out")" = "$2" ]
}
changes() { # USER:PASSWORD OLD NEW
  printf "%s -u '%s' -H 'Content-Type: application/json' -d '%s' http://127.0.0.1/password" \
    "$web" "$1" "{\"old\":\"$2\",\"new\":\"$3\"}"
}
until_inside 'nginx asks for it' \
  "[ \"\$($web -u 'alice:given to alice' http://127.0.0.1/)\" = 200 ]"
is 'a first password opens nothing' 403 "$web -u 'alice:given to alice' http://127.0.0.1/folder/"
is 'she chooses her own' 204 \
  "$(changes 'alice:given to alice' 'given to alice' 'walnuts in december')"
is 'which opens the room' 200 "$web -u 'alice:walnuts in december' http://127.0.0.1/folder/"
is 'a wrong one' 403 "$(changes 'alice:walnuts in december' wrong 'gravel under bridges')"
inside "time -p $(changes 'alice:walnuts in december' 'walnuts in december' 'gravel under bridges')"
echo "  one change under systemd: $(sed -n 's/^real //p' "$work/err") s"
is 'the new one counts' 200 "$web -u 'alice:gravel under bridges' http://127.0.0.1/folder/"
is 'and the old one no more' 401 "$web -u 'alice:walnuts in december' http://127.0.0.1/folder/"
does 'whose the files are then' 'cd /var/lib/rooms-passwords && stat -c "%n %U %G %a" . *'
same 'they stay' "$work/out" wanted
does 'another account' 'setpriv --reuid=nobody --regid=nogroup --clear-groups \
  logger -t rooms-own-password "rooms-own-password: bob of office has a new password"
  journalctl --sync'
does 'what the log has' "journalctl -u 'rooms-own-password@*' --no-pager -o cat"
holds 'nothing of the other account' eval '! grep -q "bob of office" "$work/out"'
holds 'a line for each change' [ "$(grep -c 'alice of office has a new password' "$work/out")" = 2 ]
holds 'and no password' eval '! grep -q -e gravel -e chosen -e given "$work/out"'
does 'what is counted of tries' 'cd /run/rooms-own-password/tries && touch -d "2 hours ago" older &&
  systemd-tmpfiles --clean rooms.conf && ls'
holds 'goes once it counts no more' eval 'grep -q . "$work/out" && ! grep -q older "$work/out"'
does 'a verb of root' 'rooms-admin user remove alice --password'
is 'ends it at once' 401 "$web -u 'alice:gravel under bridges' http://127.0.0.1/"
does 'units with faults' 'systemctl list-units --state=failed --no-legend --plain "rooms*"'
holds 'there are none' [ ! -s "$work/out" ]

# A program of somebody else's in the place of the service.
cp "$here/machine/probe.py" "$machine/usr/local/lib/probe.py"
place() { # UNIT
  mkdir -p "$machine/etc/systemd/system/$1.d"
  printf '%s\n' '[Service]' ExecStart= 'ExecStart=/usr/bin/python3 -I /usr/local/lib/probe.py' \
    >"$machine/etc/systemd/system/$1.d/probe.conf"
}
place rooms-own-password@.service
does 'it is put there' 'systemctl daemon-reload; echo key >/etc/ssl/private/probe.key
  chmod 600 /etc/ssl/private/probe.key; rooms-admin user add alice <<<"one of root"
  systemctl start rooms-nightly@office; chmod 1777 /var/tmp'
does 'and asked' "python3 -c '
import socket
asking = socket.socket(socket.AF_UNIX)
asking.connect(\"/run/rooms-own-password/socket\")
asking.shutdown(socket.SHUT_WR)
print(asking.makefile().read(), end=\"\")'"
echo 'write /var/tmp' >wanted
same 'what it can do' "$work/out" wanted
# It asks who writes, for whom nobody else does.
cat >"$machine/usr/local/lib/asks.py" <<'END'
import socket


def said(line):
    with socket.socket(socket.AF_UNIX) as asking:
        asking.connect("/run/rooms-own-password/file")
        asking.sendall(line.encode() + b"\n")
        asking.shutdown(socket.SHUT_WR)
        return asking.makefile().read().strip()


kind, digest, hashed = said("line office alice").split(" ")
print(said(f"put office alice {digest} $2y$31$" + 53 * "a"))
print(said(f"put office alice {digest} {hashed}"))
END
does 'a hash whose check takes hours' 'setpriv --reuid=rooms-keeper --regid=rooms-keeper \
  --clear-groups python3 -I /usr/local/lib/asks.py'
prints 'is refused' refused done
does 'who else asks' 'for user in nobody www-data rooms rooms-door; do
  ! setpriv --reuid=$user --regid=$(id -g $user) --clear-groups python3 -c "
import socket
socket.socket(socket.AF_UNIX).connect(\"/run/rooms-own-password/file\")" 2>/dev/null || echo $user
  done'
holds 'is nobody' [ ! -s "$work/out" ]
sees_no_other rooms-own-password /run/rooms-own-password/socket
stop_machine
