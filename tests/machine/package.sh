# The package on a machine of its own, where it is installed, serves two rooms, goes over an older
# one, and is removed and purged, while the rooms stay. The machine is a copy of the folder
# ROOMS_DEBIAN (lib/machine.sh). It has a network of its own, without a way out.

top=$here/..
. "$here/lib/machine.sh"
can_package 'the package' || return
older=rooms_0.0.9_amd64.deb
for words in '' '--version 0.0.9'; do
  # shellcheck disable=SC2086
  if ! "$top/tools/package" --program "$rooms" $words </dev/null >said 2>&1; then
    fail 'a package' "$(tail -n 1 said)"
    return
  fi
done
dpkg-deb -x "$package" files
: >nothing

make_machine 'a machine with the package' || return
if [ ! -x "$machine/usr/bin/python3" ]; then
  skip 'a machine with the package' "/usr/bin/python3 isn't in it"
  return
fi
furnish_machine
reply=http://127.0.0.1/doc/letters/reply
room() { (cd "$machine/var/lib/rooms" && stat -c '%n %i %s %y %U' ./* && cksum ./*); }
restarts() { # NAME: all that is amiss is that there is no mail program
  inside "$(block docs/upgrading.md 'rooms-admin check' | sed 's/admin check/& --room office/')"
  holds "$1: status $status, $(head -c 300 "$work/out" "$work/err")" [ "$status" = 1 ]
  holds "$1: $(head -c 300 "$work/out")" \
    grep -qx 'rooms WARNING - office: no mail program, so root is told of nothing: apt-get install bsd-mailx\(, no backup yet: .*\)\?' "$work/out"
}
replies() { # NAME
  does "$1" "curl -s -u alice:typed $reply"
  printf hello >wanted
  same "$1: what it has" "$work/out" wanted
}

# The README's commands on a bare machine.
cp "$older" "$package" "$machine/root/"
does 'the package is installed' \
  "$(block README.md './rooms_' | sed "s/rooms_\*/${older%_amd64.deb}/")"
holds 'it prints the address' grep -q '^Users then open http://' "$work/out"
holds 'and what is left' grep -q 'rooms init' "$work/out"
holds 'which is the last that it prints' \
  eval 'tail -n 3 "$work/out" | grep -q "^Users then open http://"'
does 'its files are whole' 'dpkg -V rooms'
holds 'nothing differs' [ ! -s "$work/out" ]
does 'the user has the folder of rooms' 'stat -c "%U %a" /var/lib/rooms /var/backups/rooms
  cd /etc/nginx/sites-enabled && readlink rooms && ls'
prints 'and so on' 'rooms 700' 'root 700' ../sites-available/rooms rooms
does 'the three commands' "$(block README.md 'runuser')"
holds 'the room is made' grep -q '^ready' "$work/out"
does 'a folder' \
  "$(block docs/operating.md 'rooms.example:80' | sed 's/-u alice/-s -u alice:typed/')"
prints 'is made through nginx' 201
does 'a document' "curl -s -u alice:typed -X PUT -d hello -w '%{http_code}\n' $reply"
prints 'is made' 201
does 'without a password' 'curl -s -o /dev/null -w "%{http_code}\n" http://127.0.0.1/'
prints 'nobody gets in' 401
does 'the page' 'curl -s -u alice:typed http://127.0.0.1/'
same 'is served' "$work/out" files/usr/share/rooms/page/index.html
listens() { # NAME LINE ..
  does "$1" 'grep -o ":224C 00000000:0000 0A" /proc/net/tcp; ls /run/rooms/office'
  prints "$@"
}
listens 'a room at its socket' socket
does 'a port' "$(block docs/operating.md 'set PORT=8780')"
listens 'at its port, and a socket' ':224C 00000000:0000 0A' socket
replies 'the room with its port'
does 'no port' "$(block docs/operating.md 'set PORT= ')"
listens 'at its socket alone' socket
replies 'the room without a port'
does 'the start page' 'curl -s http://127.0.0.1/rooms/'
same 'has the rooms' "$work/out" "$machine/var/lib/rooms-front/start.html"

# A second room, by the blocks of machines.md.
does 'a second room' "$(block docs/machines.md "year' invoices carol accounting")"
holds 'it is made' \
  grep -q '^room /var/lib/rooms/invoices.rooms, of carol and accounting$' "$work/out"
does 'and where it is' 'systemctl is-active rooms@invoices
  cd /etc/systemd/system && ls *.wants/*invoices*
  stat -c "%U %a" /var/lib/rooms/invoices.rooms /var/backups/rooms/invoices'
prints 'it runs' active multi-user.target.wants/rooms@invoices.service \
  timers.target.wants/rooms-nightly@invoices.timer 'rooms 600' 'root 700'
invoice=http://127.0.0.1/invoices/doc/one
second() { # NAME
  does "$1" "curl -s -u carol:typed $invoice; for who in carol:typed@127.0.0.1/doc/letters/reply \
    alice:typed@127.0.0.1/invoices/doc/one; do
    curl -s -o /dev/null -w ' %{http_code}' http://\$who; done; echo"
  prints "$1: each room has its users" 'first 401 401'
}
does 'a document in it' "curl -s -u carol:typed -X PUT -d first -w '%{http_code}\n' $invoice"
prints 'is made' 201
second 'it comes back'
replies 'office beside it'
does 'its backup' 'systemctl start rooms-nightly@invoices && ls /var/backups/rooms/invoices/*'
holds 'has the room' grep -qx invoices.rooms "$work/out"
second 'it runs after its backup'
does 'a tree comes in' 'mkdir -p share/2026 && echo ten >share/2026/bill && echo typed |
  rooms-import --user carol --room http://127.0.0.1/invoices share /archive'
holds 'all of it' grep -q 'left out 0$' "$work/out"
does 'and goes out' 'echo typed |
  rooms-export --user carol --no-lists --room http://127.0.0.1/invoices /archive out &&
  diff -r share out'
refused() { # NAME TEXT ARGUMENT ..
  inside "rooms-admin add ${*:3}"
  holds "$1 is refused" [ "$status" = 2 ]
  holds "$1 is refused by its name" grep -qF "$2" "$work/err"
}
refused 'a room that is there' 'room exists' invoices
refused 'a port of nginx' 'port in use: something listens' --port 80 other dora staff
does 'a room with a port' 'sed -i "s/^PORT=.*/PORT=8780/" /etc/rooms/office.conf'
refused 'a port of a room' 'port in use: /etc/rooms/office.conf has 8780' \
  --port 8780 other dora staff
does 'no port any more' 'sed -i "s/^PORT=.*/PORT=/" /etc/rooms/office.conf'
refused 'a room without an owner' 'OWNER and GROUP are needed' other
inside 'rooms-admin add other "no name" staff'
holds 'an owner that is none fails' [ "$status" = 1 ]
holds 'by its name' grep -q 'refused: A3 bad who' "$work/err"
find "$machine"/etc/{rooms,nginx} "$machine/var/lib/rooms" "$machine/var/backups" -name '*other*' \
  >found
same 'and leaves nothing' found nothing
does 'two rooms of one file' 'sed -i "s/invoices.rooms/office.rooms/" /etc/rooms/invoices.conf
  systemctl restart rooms@invoices || cat /run/rooms@invoices.fault
  systemctl is-active rooms@invoices || :'
prints 'the second one does not start' 'fault: database' inactive
replies 'the first one goes on'
does 'its own file' 'sed -i "s/office.rooms/invoices.rooms/" /etc/rooms/invoices.conf &&
  systemctl start rooms@invoices'
second 'brings it back'
does 'timers that somebody enabled' \
  'systemctl enable --now rooms-directory@invoices.timer rooms-standby@invoices.timer
  echo MOST=1 >/etc/rooms/invoices.groups'
does 'what nginx shows of it' 'ls /var/lib/rooms-web/invoices/people.json'
does 'it is taken away' "$(block docs/machines.md 'rooms-admin remove')"
holds 'with what the web interface was told' is_missing "$machine/var/lib/rooms-web/invoices"
holds 'its file stays' grep -qx 'kept /var/lib/rooms/invoices.rooms' "$work/out"
holds 'what it takes from a directory too' grep -qx 'kept /etc/rooms/invoices.groups' "$work/out"
does 'no unit of it is enabled' \
  'rm /etc/rooms/invoices.groups; ! ls -d /etc/systemd/system/*.wants/*invoices* 2>/dev/null'
does 'nobody gets there' "curl -s -o /dev/null -w '%{http_code}\n' -u carol:typed $invoice
  systemctl is-active rooms@invoices || :"
prints 'and no server runs' 401 inactive
does 'the same room again, by the name that the verb had' \
  'rooms-add --title "Invoices & more" invoices'
holds 'with its users' \
  grep -q 'kept /var/lib/rooms-passwords/rooms-invoices.htpasswd: its 1 users may sign in$' \
    "$work/out"
second 'it is back'
# Passwords are remembered, where nginx alone reads them, and checked where it alone enters.
does 'where they are' 'stat -c "%U %G %a" /run/rooms-front /run/rooms-front/remembered'
prints 'for one user' 'root www-data 710' 'www-data root 700'
does 'nobody else has passwords checked' 'setpriv --reuid=65534 --regid=65534 --clear-groups \
  curl -s -o /dev/null -w "%{http_code}\n" --unix-socket /run/rooms-front/passwords.sock \
  -u alice:typed http://x/password/rooms || :'
prints 'not even with the right one' 000
# A killed nginx leaves its socket, and the next one starts by what is done before.
does 'nginx is killed, and starts again' 'master=$(cat /run/nginx.pid)
  workers=$(cat /proc/$master/task/*/children)
  kill -9 $master $workers; while kill -0 $master 2>/dev/null; do sleep 0.05; done
  rm -f /run/nginx.pid
  [ -S /run/rooms-front/passwords.sock ] && ! nginx 2>/dev/null
  sed -n "s/^ExecStartPre=-//p" /usr/lib/systemd/system/nginx.service.d/rooms.conf | bash -e &&
  nginx'
replies 'office after that'
# Files that nginx refuses, and a site that somebody has edited: what was there goes on.
inside 'sed -i "s/^HOSTS=.*/HOSTS=rooms.example hr.example/" /etc/rooms/site
  echo "nonsense;" >/etc/rooms/nginx/server.d/x.conf; rooms-admin setup'
holds 'files that nginx refuses' [ "$status" = 1 ]
holds 'by its words' grep -q 'nginx refuses its files, and they are as before' "$work/err"
holds 'the site is the old one' \
  eval '! grep -q "server_name rooms.example hr.example" "$machine/etc/nginx/sites-available/rooms"'
does 'once they are mended' 'rm /etc/rooms/nginx/server.d/x.conf; rooms-admin setup && nginx -t -q'
# One that is cut off when nginx's file is there, and nginx hasn't read it: the same again has it do
# so, and isn't done with a look at the file alone.
drive() { # STATUS
  inside "curl -s -o /dev/null -w '%{http_code}' -u alice:typed -X OPTIONS http://127.0.0.1/drive/"
  holds "$1 at the drive's place" [ "$(cat "$work/out")" = "$1" ]
}
cat >"$machine/usr/local/sbin/nginx" <<'END'
#!/bin/sh
[ "$*" != '-t -q' ] || kill -9 $PPID
exec /usr/sbin/nginx "$@"
END
chmod 755 "$machine/usr/local/sbin/nginx"
drive 404
does 'a setup that is killed' 'rooms-admin set DRIVE=yes; ! rooms-admin setup
  rm /usr/local/sbin/nginx; grep -q /drive /etc/nginx/sites-available/rooms'
drive 404
does 'the same again' 'rooms-admin setup'
holds 'has nginx read its file' grep -qx 'systemctl reload nginx' "$work/out"
does 'no drive' 'rooms-admin set DRIVE=; rooms-admin setup; rooms-admin setup'
holds 'which it reads once' [ "$(grep -c 'reload nginx' "$work/out")" = 1 ]
holds 'the site is new' \
  grep -q 'server_name rooms.example hr.example' "$machine/etc/nginx/sites-available/rooms"
echo '# mine' >>"$machine/etc/nginx/sites-available/rooms"
inside 'sed -i "s/^HOSTS=.*/HOSTS=rooms.example/" /etc/rooms/site; rooms-admin setup'
holds 'a site that somebody edited' [ "$status" = 1 ]
holds 'stays' grep -q '^# mine' "$machine/etc/nginx/sites-available/rooms"
inside 'rooms-admin add more dora staff'
holds 'no room is added to it' [ "$status" = 2 -a ! -e "$machine/etc/rooms/more.conf" ]
does 'the new one in its place' \
  'cd /etc/nginx/sites-available && mv rooms.new rooms && rooms-admin setup && nginx -t -q'
holds 'is read by nginx' grep -qx 'systemctl reload nginx' "$work/out"
second 'nothing else has changed'

# An upgrade to the same form.
echo '# mine' >>"$machine/etc/rooms/office.conf"
room >before
does 'the newer package' "$(block docs/upgrading.md 'install -y ./rooms_VERSION' | head -n 1)"
holds 'it says what is left' grep -q "systemctl restart 'rooms@\*'" "$work/out"
room >after
same 'no room is touched' after before
holds 'settings stay' grep -q '^# mine' "$machine/etc/rooms/office.conf"
restarts 'the restart'
replies 'the room after an upgrade'
second 'the other room too'
does 'which version it is' 'dpkg-query -W -f "\${Version}\n" rooms'
prints 'the newer one' "$version"
tree() {
  (cd "$machine" && find etc usr/share/rooms usr/bin usr/sbin var/lib/rooms var/backups/rooms \
    -exec ls -ld --time-style=full-iso {} +)
}
tree >before
does 'scripts that run twice' \
  "for turn in 1 2; do /var/lib/dpkg/info/rooms.postinst configure $version; done"
holds 'have nothing to change' [ "$(grep -c '^nothing to change$' "$work/out")" = 2 ]
tree >after
same 'and change nothing' after before
does 'a backup' "$(block docs/upgrading.md 'start rooms-nightly')"
backup=$(cat "$work/out")

# A full disk: nothing of the room is lost, and the same command goes on.
does 'the way back' "$(block docs/upgrading.md allow-downgrades 0.0.9)"
does 'and its restart' "systemctl restart 'rooms@*'"
replies 'the room after the way back'
if nsenter -t "$first" -m mount -t tmpfs -o size=100k tmpfs "$machine/usr/share/doc" 2>said; then
  inside "apt-get install -y /root/$package"
  holds 'a full disk is noticed' [ "$status" != 0 ]
  holds 'by its name' grep -q 'No space left' "$work/out" "$work/err"
  replies 'the room on a full disk'
  nsenter -t "$first" -m umount "$machine/usr/share/doc"
  does 'once there is room' \
    "apt-get install -y /root/$package && dpkg -V rooms && systemctl restart 'rooms@*'"
  replies 'the room after that'
else
  skip 'a full disk while installing' "no mount: $(head -c 200 said)"
fi

# It is removed, installed again, and purged. Beside these rooms there is one for the front end of
# another machine, and a place of one that is there.
does 'certificates of machines' "mkdir -p -m 700 /etc/rooms/machines && cd /etc/rooms/machines &&
  openssl req -x509 -newkey rsa:2048 -noenc -days 9 -subj /CN=localhost -keyout machine.key \
    -out machine.pem 2>/dev/null &&
  cp machine.pem authority.pem && cp machine.pem front.pem && cp machine.key front.key"
does 'a room behind another front end, and one on another machine' \
  'rooms-admin add --behind ledger dora staff && rooms-admin add --on 127.0.0.1 archive'
behind() { # NAME: who has no certificate gets no further
  does "$1" "curl -sk -o /dev/null -w '%{http_code}\n' https://localhost:8443/ledger/doc/x"
  prints "$1, which asks for a certificate" 400
}
behind 'the port of the other front end'
does 'systemctl stops' 'systemctl stop rooms@ledger'
does 'systemctl stops' 'systemctl stop rooms@office rooms@invoices'
room >before
does 'it is removed' 'apt-get remove -y rooms'
for file in /var/lib/rooms /etc/rooms /var/lib/rooms-passwords/rooms.htpasswd; do
  holds "it says that it keeps $file" grep -qx "rooms: kept $file" "$work/out"
done
holds 'the program is gone' is_missing "$machine/usr/bin/rooms"
holds 'nginx shows it no more' is_missing "$machine/etc/nginx/sites-enabled/rooms"
holds 'no unit is enabled' [ -z "$(find "$machine/etc/systemd/system" -name 'rooms*')" ]
does 'nginx takes the rest' 'nginx -t -q'
# Nothing makes the folder of its socket when the machine starts.
does 'nginx starts with the rest' "nginx -s stop; while [ -e /run/nginx.pid ]; do sleep 0.05; done
  rm -rf /run/rooms-front; nginx"
room >after
same 'the room stays' after before
does 'it is installed again' "$(block docs/upgrading.md 'enable --now "$unit"')"
for room in office invoices; do
  holds "it says how $room is served again" grep -qF \
    "the room $room isn't served, or has no backups, until: systemctl enable --now rooms@$room rooms-nightly@$room.timer" \
    "$work/out"
done
behind 'it is there again'
does 'so is the check of passwords' \
  'stat -c "%U %G %a" /run/rooms-front; cd /run/rooms-front && ls [!c]*.sock; ls c*.sock | wc -l'
prints 'where nginx alone enters' 'root www-data 710' passwords.sock 25
does 'those two rooms go' "systemctl stop rooms@ledger
  rooms-admin remove ledger && rooms-admin remove archive &&
  rm -r /etc/rooms/machines /var/lib/rooms-passwords/rooms-archive.* /var/lib/rooms/ledger.rooms* \
    /var/backups/rooms/ledger"
room >before
holds 'settings have stayed' grep -q '^# mine' "$machine/etc/rooms/office.conf"
replies 'the room is served again'
second 'the other one too'
does 'a certificate' 'openssl req -x509 -newkey rsa:2048 -noenc -days 9 \
  -subj /CN=rooms.example -keyout k.pem -out c.pem 2>/dev/null &&
  rooms-admin setup --tls c.pem k.pem'
does 'removed with TLS' 'systemctl stop rooms@office rooms@invoices; apt-get remove -y rooms'
does 'installed with TLS' \
  "apt-get install -y /root/$package &&
  curl -sk -o /dev/null -w '%{http_code}\n' https://127.0.0.1/ &&
  grep -c 'listen 443' /etc/nginx/sites-available/rooms"
holds 'TLS stays' grep -qx 401 "$work/out"
room >before
# What somebody has put there, as other pages say.
own='/etc/rooms/directory /etc/rooms/directory.secret /etc/rooms/machines /etc/rooms/nginx
  /etc/rooms/office.groups /etc/rooms/restic.password /etc/rooms/session.apache
  /etc/systemd/system/rooms-session.service'
does 'what is beside the settings' \
  "mkdir /etc/rooms/machines; : | tee /etc/rooms/nginx/http.d/mine.conf $(echo $own |
    sed 's# /etc/rooms/\(machines\|nginx\)##g')"
does 'purged' 'apt-get purge -y rooms'
printf '%s\n' /var/lib/rooms /var/backups/rooms $own \
  /var/lib/rooms-passwords/rooms{,-invoices}.{first,htpasswd} | sort >wanted
# It is removed first, which says that all of /etc/rooms stays.
sed -n 's/^rooms: kept //p' "$work/out" | tail -n "$(wc -l <wanted)" | sort >found
same 'it says what stays, and where' found wanted
does 'it stays' "ls -d $(echo $own)"
does 'until it is removed' "rm -r $(echo $own)"
holds 'what the web interface was told is gone' is_missing "$machine/var/lib/rooms-web"
holds 'the settings are gone' [ -z "$(ls -A "$machine/etc/rooms")" ]
holds "and nginx's file of rooms" is_missing "$machine/etc/nginx/sites-available/rooms"
holds 'the passwords stay' [ -s "$machine/var/lib/rooms-passwords/rooms.htpasswd" ]
holds 'those of the other room too' \
  [ -s "$machine/var/lib/rooms-passwords/rooms-invoices.htpasswd" ]
does 'nginx takes what is left' 'nginx -t -q'
room >after
same 'the room stays after a purge' after before
holds 'the backup stays' [ -s "$machine/$backup/office.rooms" ]
cp "$machine"/var/lib/rooms/office.rooms* .
gives 'the room is sound' 0 'sound\n' '' verify office.rooms

# Over an install by hand it is refused, until that is taken away.
"$repo/deploy/install" --destdir "$machine" --program "$rooms" >said 2>&1 </dev/null
inside "apt-get install -y /root/$package"
holds 'over an install by hand' [ "$status" != 0 ]
holds 'the refusal has a name' grep -q 'refused: installed by hand' "$work/out" "$work/err"
holds 'and leaves that one' [ -x "$machine/usr/local/bin/rooms" ]
# What the pages on directories, sessions and standbys enable there.
does 'what is enabled beside' 'for name in directory session; do
    echo "AliasMatch ^/password/ /usr/local/share/rooms/signed-in" >/etc/rooms/$name.apache
  done
  systemctl enable rooms-standby@office.timer rooms-directory@office.timer rooms-passwords.service'
# As the package itself says it.
top=$PWD/files/usr/share/doc/rooms
does 'the install by hand is taken away' "$(block docs/upgrading.md 'rm -f bin/rooms')"
find "$machine/usr/local" "$machine/etc/systemd" -name 'rooms*' >found
same 'nothing of it is left' found nothing
does 'the package after it' "$(block docs/upgrading.md 'enable --now "$unit"')"
replies 'the same room by the package'
holds 'its page is the package'\''s' \
  grep -q 'alias /usr/share/rooms/page/' "$machine/etc/nginx/sites-available/rooms"
holds 'and its program' grep -qx PROGRAM=/usr/bin/rooms "$machine/etc/rooms/office.conf"
cat "$machine"/etc/rooms/{directory,session}.apache >found
printf 'AliasMatch ^/password/ /usr/share/rooms/signed-in\n%.0s' 1 2 >wanted
same 'Apache is told where the file is now' found wanted
holds 'the file is there' [ -s "$machine/usr/share/rooms/signed-in" ]
does 'what was enabled' "[ ! -e rooms.units ] &&
  readlink -e /etc/systemd/system/*.wants/rooms* | sed 's#.*/systemd/system/##'"
prints 'is so again, by the units of the package' rooms-connections.service \
  rooms-passwords.service rooms@.service rooms-earlier.socket rooms-nights.socket \
  rooms-own-password.socket rooms-password-file.socket rooms-picture.socket \
  rooms-would.socket \
  rooms-directory@.timer rooms-nightly@.timer rooms-standby@.timer
