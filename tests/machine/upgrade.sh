# From 1.1.0 to today's: below a folder, over what deploy/install had left there; and on a machine
# with TLS and rooms at a path and at a host, over the package that the scripts of then make.

# Over files by hand.
installs() {
  "$repo/deploy/install" --destdir "$PWD/$1" --program "$rooms" "${@:2}" \
    </dev/null >"$work/out" 2>"$work/err"
  status=$?
}
of_before() {
  rm -rf machine
  mkdir machine
  tar -xzf "$before" -C machine
  (cd machine && while IFS= read -r file; do
    mkdir -p "${file%/*}" && echo 'of 1.1.0' >"$file"
  done <files)
}
settings() { (cd machine/etc/rooms && find . -type f -exec cksum {} + | sort); }
# What is left of them: each room has a door and a socket, and a port beside that only if it had it
# to be asked at.
left_of() { # FOLDER
  local file
  (cd "$1" && for file in *.conf; do
    sed -E -i "s/^(DOOR)=.*/# & says nothing any more: each room has its door./
      s/^(SOCKET)=.*/# & says nothing any more: each room has its socket./
      $(grep -qx SOCKET=yes "$file" && echo 's/^PORT=.*/PORT=/')" "$file"
  done)
}
units=machine/etc/systemd/system
site=machine/etc/nginx/sites-available/rooms
before=$data/before/1.1.0.tar.gz
of_before
# One that had none of both, and its port.
sed -i 's/^\(DOOR\|SOCKET\)=.*/\1=/' machine/etc/rooms/hr.conf
tar -C machine -czf before.tar.gz .
before=before.tar.gz
left_of machine/etc/rooms
settings >before
mkdir -p fresh/etc
cp -a machine/etc/rooms fresh/etc/
of_before
installs fresh
holds "today's site of these settings" [ "$status" = 0 -a -s "${site/machine/fresh}" ]
echo '# mine' >>"$units/rooms-full@.service"
tree() { (cd machine && find . -type f -exec cksum {} + | sort); }
tree >stood
for words in '' --dry-run; do
  # shellcheck disable=SC2086
  installs machine $words
  told "units of before, and no word $words" 2 'files that differ: ' \
    '/etc/systemd/system/rooms@.service' '/etc/systemd/system/rooms-nightly@.service ' \
    'with --replace this version'
  tree >found
  same "units of before, and no word $words: nothing is changed" found stood
done
installs machine --keep
says 'an upgrade by hand' 0 'new /usr/local/bin/rooms, the old one is /usr/local/bin/rooms.old'
says 'a unit that somebody edited' 0 'kept /etc/systemd/system/rooms-full@.service, which differs'
holds 'stays' grep -qx '# mine' "$units/rooms-full@.service"
settings >after
same 'all settings stay but two of each room' after before
for room in hr invoices ledger office; do
  holds "which is told of $room" grep -qxF \
    "new file /etc/rooms/$room.conf, where DOOR and SOCKET said what each room has now" "$work/out"
done
holds 'the port that was asked' grep -qx 'ListenStream=127.0.0.1:8782' \
  "$units/rooms-port@hr.socket.d/port.conf"
holds 'and no other' [ "$(ls -d "$units"/rooms-port@*.d)" = "$units/rooms-port@hr.socket.d" ]
same "nginx has today's site" "$site" "${site/machine/fresh}"
for line in 'upstream room_office { server unix:/run/rooms/office/socket; }' \
  'upstream room_invoices { server unix:/run/rooms/invoices/socket; }' \
  'upstream door_hr { server unix:/run/rooms-door/hr/socket; }' \
  'upstream room_archive { server b.example:8443 max_fails=0; }' \
  '    ssl_certificate /etc/ssl/rooms.pem;'; do
  holds "with $line" grep -qxF "$line" "$site"
done
installs machine --replace
says 'unless that is asked for' 0 'new /etc/systemd/system/rooms-full@.service, the old one is'
for unit in "$repo"/deploy/systemd/rooms*.{service,socket,timer}; do
  same "the unit ${unit##*/} is today's" "$units/${unit##*/}" "$unit"
done
(cd machine && grep -rlx 'of 1.1.0' usr/local/share/rooms/page usr/local/bin usr/local/sbin \
  usr/local/lib usr/share/doc | grep -v '[.]old$') >found
same 'no page, program or document of before is left' found /dev/null
installs machine
holds 'a second run has nothing to change' grep -qx 'nothing to change' "$work/out"
# A site that somebody edited stays, with today's beside it.
of_before
echo '# mine' >>"$site"
cp "$site" edited
installs machine --replace
says 'a site that somebody edited' 1 'kept /etc/nginx/sites-available/rooms, which was edited'
same 'stays as it was' "$site" edited
same "and today's is beside it" "$site.new" "${site/machine/fresh}"
settings >after
same 'all settings stay then too' after before

# Over its package.
rm -r machine fresh
top=$repo
version=none
was=ef6e3271
. "$here/lib/machine.sh"
. "$here/lib/booted.sh"
if ! has git || ! git -C "$repo" cat-file -e "$was:deploy/install" 2>/dev/null; then
  skip 'an upgrade of the package of 1.1.0' "no history with the commit $was, or no git"
  return
fi
mkdir was
git -C "$repo" archive "$was" | tar -x -C was
if ! was/tools/package --program "$rooms" --version 1.1.0~was . >said 2>&1 </dev/null; then
  fail 'the package of 1.1.0' "$(tail -n 1 said)"
  return
fi
mv rooms_1.1.0~was_amd64.deb was.deb
boot_machine 'an upgrade of the package of 1.1.0' || return
cp was.deb "$machine/root/was.deb"
web='curl -sk -m 20 --resolve rooms.example:443:127.0.0.1 --resolve legal.example:443:127.0.0.1'
does 'as its pages say' "dpkg -i was.deb &&
  runuser -u rooms -- rooms init /var/lib/rooms/office.rooms alice staff &&
  systemctl enable --now rooms@office rooms-nightly@office.timer &&
  rooms-admin user add alice <<<'gravel under bridges' &&
  openssl req -x509 -newkey ec -pkeyopt ec_paramgen_curve:P-256 -noenc -days 99 \
    -subj /CN=rooms.example -addext subjectAltName=DNS:rooms.example,DNS:legal.example \
    -keyout /etc/ssl/private/rooms.key -out /etc/ssl/rooms.pem &&
  rooms-admin setup --tls /etc/ssl/rooms.pem /etc/ssl/private/rooms.key &&
  systemctl reload-or-restart nginx &&
  rooms-admin add --title Invoices invoices carol accounting &&
  rooms-admin user add carol --room invoices <<<'walnuts in december' &&
  rooms-admin add --host legal.example --title Legal legal lena law &&
  rooms-admin user add lena --room legal <<<'a lamp on the stairs'"
does 'by hand' "sed -i 's/^KEEP=.*/KEEP=7/' /etc/rooms/office.conf
  mkdir /etc/systemd/system/rooms@office.service.d
  printf '[Service]\nMemoryMax=2G\n' >/etc/systemd/system/rooms@office.service.d/memory.conf
  echo 'set \$legal_from \"\$room \$remote_addr\";
    if (\$legal_from ~ \"^legal (?!127[.]0[.]0[.]1\$)\") { return 403; }' \
    >/etc/rooms/nginx/server.d/legal.conf
  sed -i 's/^\(DOOR\|SOCKET\)=.*/\1=/' /etc/rooms/invoices.conf
  rooms-admin setup && systemctl daemon-reload && systemctl restart rooms@invoices &&
  systemctl reload nginx"
goes_on() { # NAME: each in their room, nobody from elsewhere in the one that is closed
  until_inside "$1: alice" \
    "[ \"\$($web -u 'alice:gravel under bridges' https://rooms.example/can/?)\" = {} ]"
  until_inside "$1: carol" \
    "[ \"\$($web -u 'carol:walnuts in december' https://rooms.example/invoices/can/?)\" = {} ]"
  until_inside "$1: lena" \
    "[ \"\$($web -u 'lena:a lamp on the stairs' https://legal.example/can/?)\" = {} ]"
  # Workers of before may answer for a moment.
  until_inside "$1: lena from elsewhere is shut out" "[ \"\$($web --interface 127.0.0.9 -o said \
    -w '%{http_code}' -u 'lena:a lamp on the stairs' https://legal.example/can/?)\" = 403 ]"
  does "$1: who gets to the port of invoices" 'port=$(sed -n "s/^PORT=//p" /etc/rooms/invoices.conf)
    ! setpriv --reuid=nobody --regid=nogroup --clear-groups curl -s -m 9 -H "Room-User: carol" \
      "http://127.0.0.1:$port/can/?"'
  holds "$1: nobody else does: $(head -c 200 "$work/out")" [ ! -s "$work/out" ]
}
goes_on 'before'
does 'a night' 'systemctl start rooms-nightly@office'
# Nobody reads what the package says, as at night.
does 'the upgrade' 'dpkg -i --force-confold rooms.deb'
goes_on 'after it'
# A room that had neither a door nor a socket has both, before anything is started again.
for room in office invoices; do
  shows "the door of $room" "rooms-door@$room" ActiveState active
done
until_inside 'nginx gets there' "[ \"\$($web -o /dev/null -w '%{http_code}' \
  -u 'carol:walnuts in december' https://rooms.example/invoices/door/find/?x)\" = 200 ]"
does 'the servers are started again' "systemctl restart 'rooms@*'"
goes_on 'with the new program'
for room in office invoices legal; do
  does "a night of $room" "systemctl start rooms-nightly@$room"
done
does 'all backups' 'rooms-admin backups'
holds "are listed: $(cat "$work/out")" [ "$(wc -l <"$work/out")" = 2 ]
does 'what was set' 'grep -x KEEP=7 /etc/rooms/office.conf
  systemctl show rooms@office -p MemoryMax'
prints 'stays' KEEP=7 MemoryMax=2147483648
does 'once more' 'rooms-admin setup'
holds 'has nothing to change' grep -qx 'nothing to change' "$work/out"
# And back, by the page.
# A room of the newer package has settings that 1.1.0 doesn't know.
does 'a room that is new' 'rooms-admin add --title New new nina staff'
does 'what 1.1.0 reads' "$(block docs/upgrading.md 'SOCKET=yes DOOR=yes')"
running="for unit in \$(systemctl list-units --plain --no-legend 'rooms*' | sed 's/ .*//'); do
  case \$unit in rooms-passwords.* | rooms-firewall.* | rooms-connections.* | *.timer) ;;
    *) systemctl show -p MainPID --value \"\$unit\" ;; esac; done | grep '^[1-9]' | sort"
does 'what runs before' "$running"
cp "$work/out" ran
holds 'something does' [ -s ran ]
does 'the way back' "dpkg -i --force-confold was.deb && systemctl restart 'rooms@*'"
goes_on 'with 1.1.0'
does 'its settings are those that 1.1.0 reads' 'rooms-admin setup'
does 'what runs then' "$running"
comm -12 ran "$work/out" >found
same 'no process of the newer package is left' found /dev/null
does 'what it left' "systemctl list-units --all --plain --no-legend 'rooms*' |
  awk '\$2 != \"loaded\" && \$3 != \"inactive\"'"
same 'nor a unit that 1.1.0 has not' "$work/out" /dev/null
does 'what is enabled' "for link in /etc/systemd/system/*.wants/rooms*; do
  [ -e \"\$link\" ] || echo \"\$link\"; done"
same 'nor its link' "$work/out" /dev/null
stop_machine
