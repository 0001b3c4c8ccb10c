# A machine dies, and another one takes its place, by the blocks of backup.md: two folders of
# Debian, one after the other, of which the second gets nothing of the first but what was copied out
# of the house.

top=$here/..
. "$here/lib/machine.sh"
can_package 'a new machine' || return
"$top/tools/package" --program "$rooms" </dev/null >said 2>&1
holds 'a package' [ -s "$package" ]
make_machine 'a new machine' first || return
restic=$(command -v restic)
rsync=$(command -v rsync)
! has ldd || [ -z "$rsync" ] ||
  cp -L "$rsync" $(ldd "$rsync" | grep -o '/[^ ]*') -t "$(mkdir tool && echo tool)"
[ -e tool/ld-linux-x86-64.so.2 ] || rsync=
# What the machine has beside the base system: the package, restic and rsync, and what runs each
# day.
furnish() {
  furnish_machine
  cp "$package" "$machine/root/"
  mkdir -p "$machine/etc/cron.daily" "$machine/mnt"
  [ -z "$restic" ] || cp "$restic" "$machine/usr/bin/restic"
  if [ -n "$rsync" ]; then
    cp -r tool "$machine/usr/local/lib/tool"
    printf '%s\n' '#!/bin/sh' 'exec /usr/local/lib/tool/ld-linux-x86-64.so.2 \
      --library-path /usr/local/lib/tool /usr/local/lib/tool/rsync "$@"' >"$machine/usr/bin/rsync"
    chmod 755 "$machine/usr/bin/rsync"
  fi
  # These are there already, and there is no way out to fetch them.
  printf '%s\n' '#!/bin/sh' 'case "$*" in *restic* | *rsync* | *cron*) exit ;; esac' \
    'exec /usr/bin/apt-get "$@"' >"$machine/usr/local/bin/apt-get"
  printf '%s\n' '#!/bin/sh' 'printf "%s\n" "$*" >>/root/logged' >"$machine/usr/local/bin/logger"
  chmod 755 "$machine"/usr/local/bin/{apt-get,logger}
}
installs() { block docs/backup.md './rooms_'; }
got() { # HOW-CURL-ASKS: the status
  printf "curl -s -k -o body -w '%%{http_code}\\n' %s\n" "$*"
}
site=https://rooms.example
named='--resolve rooms.example:443:127.0.0.1'

# The first machine: TLS, two rooms, passwords that are remembered, settings of its own.
furnish
does 'the package' "$(installs)"
does 'a room' "$(block README.md 'runuser')"
does 'another one' "$(block docs/machines.md "year' invoices carol accounting")"
does 'a certificate' 'openssl req -x509 -newkey ec -pkeyopt ec_paramgen_curve:P-256 -noenc \
  -days 9 -subj /CN=rooms.example -keyout /etc/ssl/private/rooms.key -out /etc/ssl/rooms.pem \
  2>/dev/null
  rooms-admin setup --tls /etc/ssl/rooms.pem /etc/ssl/private/rooms.key'
does 'settings' 'sed -i "s/^KEEP=.*/KEEP=7/" /etc/rooms/office.conf
  sed -i "s/^HOSTS=.*/HOSTS=rooms.example rooms.office.example/" /etc/rooms/site
  echo "# mine" >/etc/rooms/nginx/server.d/mine.conf; rooms-admin setup
  mkdir /etc/systemd/system/rooms@office.service.d
  printf "[Service]\nMemoryMax=4G\n" >/etc/systemd/system/rooms@office.service.d/override.conf
  mkdir -p /etc/cron.d && echo "5 4 * * * root rooms-export" >/etc/cron.d/rooms-export
  nginx -t -q && systemctl reload nginx'
does 'a document' "$(got $named -u alice:typed -X PUT -d hello $site/doc/letter)"
prints 'is made' 201
does 'one in the other room' "$(got $named -u carol:typed -X PUT -d first $site/invoices/doc/one)"
prints 'is made' 201
does 'a unit that is not in a backup' 'printf "%s\n" "[Service]" "ExecStart=/bin/true" "[Install]" \
  "WantedBy=multi-user.target" >/etc/systemd/system/rooms-session.service
  /usr/bin/systemctl --root=/ -q enable rooms-session.service'
does 'what is copied each day' "$(block docs/backup.md 'cron.daily/rooms-offsite <<')"
tells() { # NAME TEXT: a day's copy fails, and the log and the mail of cron say it
  inside ': >logged; /etc/cron.daily/rooms-offsite'
  holds "$1: status $status" [ "$status" = 1 ]
  holds "$1: mail" grep -qF -e "$2" "$work/out"
  holds "$1: the log" grep -qF -e "$2" "$machine/root/logged"
}
copies() { inside ': >logged; /etc/cron.daily/rooms-offsite; wc -c <logged'; }
tells 'no way to copy' 'rooms-offsite: status 127'
does 'one that hangs' 'printf "#!/bin/sh\nexec sleep 9999\n" >/usr/local/sbin/rooms-offsite
  chmod 755 /usr/local/sbin/rooms-offsite; sed -i.kept s/20h/1s/ /etc/cron.daily/rooms-offsite'
tells 'one that hangs' 'rooms-offsite: status 124'
does 'neither is there' 'rm /usr/local/sbin/rooms-offsite
  mv /etc/cron.daily/rooms-offsite{.kept,}'
if [ -n "$restic" ]; then
  does 'a repository' "$(block docs/backup.md '/mnt/offsite --password-file')"
  password=$(tail -n 1 "$work/out")
  tells 'no backup yet' 'no backup of last night in /var/backups/rooms: /etc/rooms/invoices.conf'
fi
does 'a night' 'systemctl start rooms-nightly@office && systemctl start rooms-nightly@invoices'
does 'copies that are no backup' \
  'mkdir /var/backups/rooms/office/{2099-01-0{1.030000.part,2.030000.unsound},hours} && echo x |
  tee /var/backups/rooms/office/{2099-01-0{1.030000.part,2.030000.unsound},hours}/office.rooms'
# As those of a room of that name have.
does 'backups of a room that is called hours' 'cd /var/backups/rooms &&
  mkdir -p hours/2026-11-20.030000 && echo x >hours/2026-11-20.030000/hours.rooms'
if [ -n "$restic" ]; then
  copies
  prints 'a copy out of the house' 0
  holds 'is there' is_there "$machine/mnt/offsite/config"
  does 'an intruder sends more than backups' 'echo evil >/etc/intruder &&
    sed "s#\"\$1\"\$#& /etc/intruder#" /usr/local/sbin/rooms-offsite >sends &&
    sh sends /var/backups/rooms && rm /etc/intruder sends'
  cp -a "$machine/mnt/offsite" .
  does 'a repository that is gone' 'mv /mnt/offsite /mnt/gone'
  tells 'it' /mnt/offsite
fi
if [ -n "$rsync" ]; then
  does 'a disk' "$(block docs/backup.md 'mkdir -m 700 /mnt/rooms')"
  copies
  prints 'a copy by rsync' 0
  cp -a "$machine/mnt/rooms" rsynced
  holds 'has what is finished alone' [ -z "$(find rsynced -name '2099*')" ]
  (cd "$machine/var/backups/rooms" &&
    find . -type f ! -path './office/2099*' ! -path './office/hours/*' -exec cksum {} + |
    sort) >wanted
  (cd rsynced && find . -type f -exec cksum {} + | sort) >found
  same 'and all of it' found wanted
  # A folder that is empty, as that of a disk which isn't mounted, or of a new machine.
  does 'an empty folder' 'mv /var/backups/rooms /root/kept && mkdir /var/backups/rooms'
  tells 'it' 'no backup of last night in /var/backups/rooms: /etc/rooms/office.conf'
  (cd "$machine/mnt/rooms" && find . -type f -exec cksum {} + | sort) >found
  same 'the copies stay' found wanted
  does 'it is back' \
    'rmdir /var/backups/rooms && mv /root/kept /var/backups/rooms && mv /mnt/rooms /mnt/away'
  tells 'a disk that is not there' /mnt/rooms
  holds 'nothing is written below its place' is_missing "$machine/mnt/rooms"
  # What came long ago goes, whatever it is called: here 'long ago' is before the file `mark`.
  # Folders with later names, which whoever sends may make, drive out no other; nor does a link lead
  # away.
  does 'what came before' "mv /mnt/away /mnt/rooms && $(block docs/backup.md '-ctime -90')
    sed -i 's#-ctime -90#-cnewer /mnt/mark#; s#-ctime +89#! -cnewer /mnt/mark#' \
      /etc/cron.daily/rooms-copies
    mkdir -p /mnt/rooms/{office,invoices}/20{20,99}-01-{01..28}.030000 /mnt/rooms/standby \
      /mnt/elsewhere/2020-01-01.030000
    touch /mnt/rooms/standby/office.rooms; ln -s /mnt/elsewhere /mnt/rooms/link
    sleep 0.1; touch /mnt/mark; sleep 0.1; mkdir -p /mnt/rooms/office/9999-01-{01..29}.030000
    /etc/cron.daily/rooms-copies
    cd /mnt/rooms; echo office/[0-9]* | wc -w; echo invoices/[0-9]* | wc -w"
  prints 'stays while few came since' 86 57
  does 'one more' 'mkdir /mnt/rooms/office/2020-01-01.000000 && /etc/cron.daily/rooms-copies
    cd /mnt/rooms; echo office/[0-9]* | wc -w; echo invoices/[0-9]* | wc -w
    ls -d office/2*; ls standby; ls /mnt/elsewhere'
  prints 'and it goes, of that room alone' 30 57 office/2020-01-01.000000 office.rooms \
    2020-01-01.030000
else
  skip 'a copy by rsync' 'no rsync, or none that can be copied'
  cp -a "$machine/var/backups/rooms" rsynced
  rm -r rsynced/office/{2099*,hours}
fi
does 'what is to be made again' "$(block docs/backup.md machine/about)"
holds 'is in the backup' grep -q 'cron.d/rooms-export:5 4' "$work/out"
holds 'the packages too' grep -q '^package nginx ' "$work/out"
if [ -n "$rsync" ]; then
  does 'backups elsewhere' 'mkdir -p -m 700 /backup/rooms &&
    sed -i s#^BACKUPS=.*#BACKUPS=/backup/rooms# /etc/rooms/office.conf
    rm -r /mnt/rooms && mkdir /mnt/rooms && systemctl start rooms-nightly@office &&
    /etc/cron.daily/rooms-offsite
    cd /mnt/rooms && ls -d office/*/machine.tar | wc -l'
  prints 'are copied as before, and those of a room that has others are told' \
    'no backup of last night in /backup/rooms: /etc/rooms/invoices.conf' 1
fi

# It is dead, and another one is there. Its own disk at /mnt has the copies.
stop_proxy
rm -rf "$machine"
make_machine 'a new machine' second || return
furnish
[ -z "$restic" ] || cp -a offsite "$machine/mnt/offsite"
cp -a rsynced "$machine/mnt/rooms"
began=$SECONDS
does 'the package on the new machine' "$(installs)"
if [ -n "$restic" ]; then
  does 'what was out of the house comes back' \
    "export RESTIC_PASSWORD=$password; $(block docs/backup.md '/mnt/offsite restore' |
    grep -v '^$')"
  (cd "$machine/var/backups/rooms" && find . -type f -exec cksum {} + | sort) >found
  (cd rsynced && find . -type f -exec cksum {} + | sort) >wanted
  same 'it is what was copied' found wanted
  holds 'and nothing else' is_missing "$machine/etc/intruder"
  rm -r "$machine"/var/backups/rooms/*
  chown -R daemon "$machine/mnt/rooms"
else
  skip 'what was out of the house' 'no restic'
fi
does 'the backups' "$(block docs/backup.md 'cp -a /mnt/rooms')"
holds 'are of root' [ -z "$(find "$machine/var/backups/rooms" ! -user root)" ]
# (no door runs here, which would have put them there)
does 'dates of documents' \
  'printf "%s\n" "[\"letter\", 1700000000123, 5]" 1 >"$(rooms-admin latest)/dates"'
does 'a look at what would be done' 'rooms-restore --machine --dry-run latest'
holds 'names the passwords' \
  grep -qx 'would: new file /var/lib/rooms-passwords/rooms.htpasswd' "$work/out"
does 'the machine and its rooms' "$(block docs/backup.md 'do rooms-admin restore --room')"
holds 'it says that passwords may be back' grep -q '^Passwords are those of 20' "$work/out"
holds 'it says what is left' \
  grep -q '^  rooms-admin restore --room /etc/rooms/invoices.conf latest$' "$work/out"
holds 'the rooms are restored' [ "$(grep -c '^restored /var/lib/rooms/' "$work/out")" = 2 ]
holds 'the door is told the dates before it was ever there' \
  grep -q '"letter", 5, .*1700000000123' "$machine/var/lib/rooms-told/office.night"
does 'what else the old machine had' "$(block docs/backup.md machine/about)"
inside "$(block docs/backup.md reload-or-restart)"
holds 'the start says what can not be started' grep -q 'rooms-session' "$work/err"
holds "the rooms answer, and so on: $(tail -n 1 "$work/out")" eval \
  'tail -n 1 "$work/out" | grep -q "^rooms WARNING - " && ! tail -n 1 "$work/out" | grep -q answer'
took=$((SECONDS - began))
holds "all of it takes less than ten minutes: $took s" [ "$took" -lt 600 ]
does 'everybody signs in as before' "$(got $named -u alice:typed $site/doc/letter); cat body; echo
  $(got $named -u carol:typed $site/invoices/doc/one); cat body; echo
  $(got $named -u alice:wrong $site/doc/letter)
  $(got $named -u alice:typed $site/invoices/doc/one)
  $(got http://127.0.0.1/)
  $(got $named $site/rooms/); cat body"
{
  printf '%s\n' 200 hello 200 first 401 401 301 200
  cat "$machine/var/lib/rooms-front/start.html"
} >wanted
same 'as on the old machine' "$work/out" wanted
does 'who has what' 'stat -c "%U %G %a %n" /var/lib/rooms-passwords/rooms.htpasswd \
  /etc/ssl/private/rooms.key /var/lib/rooms/office.rooms
  cat /etc/systemd/system/rooms@office.service.d/override.conf; grep ^KEEP /etc/rooms/office.conf
  systemctl is-active rooms@office rooms@invoices \
    rooms-nightly@office.timer rooms-nightly@invoices.timer'
prints 'as on the old machine' 'root www-data 640 /var/lib/rooms-passwords/rooms.htpasswd' \
  'root root 600 /etc/ssl/private/rooms.key' 'rooms rooms 600 /var/lib/rooms/office.rooms' \
  '[Service]' MemoryMax=4G KEEP=7 active active active active
holds 'its names and its own lines' grep -q 'server_name rooms.example rooms.office.example;' \
  "$machine/etc/nginx/sites-available/rooms"
holds 'which are there' [ -e "$machine/etc/rooms/nginx/server.d/mine.conf" ]
does 'a run of setup' 'rooms-admin setup'
holds 'has nothing to change' grep -qx 'nothing to change' "$work/out"
does 'the machine once more, while it serves' 'rooms-restore --machine latest'
prints 'has nothing to change either' 'nothing to change'
does 'who left since' 'sed -i /^alice:/d /var/lib/rooms-passwords/rooms.htpasswd &&
  rooms-restore --machine latest && grep -c ^alice: /var/lib/rooms-passwords/rooms.htpasswd'
holds 'is back' [ "$(tail -n 1 "$work/out")" = 1 ]
holds 'which is said' grep -q '^Passwords are those of 20' "$work/out"
does 'its first night' \
  'systemctl start rooms-nightly@office && ls -d /var/backups/rooms/office/????-??-??.?????? | wc -l'
prints 'leaves one backup more' 2
does 'and it serves' "$(got $named -u alice:typed $site/doc/letter)"
prints 'after that' 200

# It still works, and a third machine gets its rooms, by the blocks of machines.md: with the last
# document.
does 'a document of the last day' "$(got $named -u alice:typed -X PUT -d farewell $site/doc/last)"
prints 'is made' 201
does 'the rooms end, and have a last backup' \
  "$(block docs/machines.md 'systemctl start "rooms-nightly@')"
holds "which all went well: $(cat "$work/err")" \
  [ -z "$(grep -vE "isn't running, and is not started$|the certificate .* ends on " "$work/err")" ]
does 'for good' "$(block docs/machines.md 'systemctl disable --now "rooms@$room"')"
does 'what the old machine serves' '
  for unit in rooms@{office,invoices} rooms-nightly@{office,invoices}.timer; do
    systemctl is-active $unit; done
  find /etc/systemd/system/*.wants -name "rooms@*" -o -name "rooms-*.timer" -o -name "*own-pass*"
  '"$(got $named -u alice:typed $site/doc/last)"
prints 'is nothing' inactive inactive inactive inactive 502
cp -a "$machine/var/backups/rooms" moved
stop_proxy
rm -rf "$machine"
make_machine 'a new machine' third || return
furnish
cp -a moved "$machine/mnt/rooms"
does 'the package on the third machine' "$(installs)"
does 'the backups of the second' "$(block docs/backup.md 'cp -a /mnt/rooms')"
does 'its rooms' "$(block docs/backup.md 'do rooms-admin restore --room')"
inside "$(block docs/backup.md reload-or-restart)"
holds "they start: $(tail -n 1 "$work/out")" eval \
  'tail -n 1 "$work/out" | grep -q "^rooms WARNING - " && ! tail -n 1 "$work/out" | grep -q answer'
does 'and have all' "$(got $named -u alice:typed $site/doc/last); cat body; echo
  $(got $named -u alice:typed $site/doc/letter)
  $(got $named -u carol:typed $site/invoices/doc/one)
  systemctl is-active rooms@office rooms@invoices \
    rooms-nightly@office.timer rooms-nightly@invoices.timer
  find /etc/systemd/system/*.wants -name '*own-pass*' -printf '%f\n'"
prints 'that was answered, and changes of passwords' 200 farewell 200 200 active active active \
  active rooms-own-password.socket

# To another machine by ssh. Both are this one, with a layer above its disk and a network of its
# own.
stop_proxy
machine=$PWD/both
sshd=$(PATH=$PATH:/usr/sbin command -v sshd)
if [ -z "$sshd" ] || ! has ssh-keygen || ! has rrsync || ! has dpkg-query || ! has python3 ||
  [ ! -x /usr/sbin/useradd ]; then
  skip 'copies by ssh' 'no ssh, sshd, rrsync, python3 or useradd'
  return
fi
mkdir both layer
if ! start_machine || ! nsenter -t "$first" -m bash -c '
  cd "$0" && mount -t tmpfs none layer && mkdir layer/{upper,work} &&
  mount -t overlay -o "lowerdir=/,upperdir=$0/layer/upper,workdir=$0/layer/work" none both &&
  mount -t proc proc both/proc && mount --bind /dev both/dev && mount -t tmpfs none both/run &&
  mkdir both/run/sshd' "$PWD" >said 2>&1; then
  skip 'copies by ssh' "no layer above the disk: $(head -c 200 said)"
  return
fi
does 'two machines' 'rm -rf /etc/rooms /srv/* /var/backups/rooms && mkdir -p /etc/rooms \
    /usr/local/bin /var/backups/rooms/{2026-11-20.0300{00,01.part},office/standby}
  printf "#!/bin/sh\n" >/usr/local/bin/apt-get && chmod 755 /usr/local/bin/apt-get &&
    echo "127.0.0.1 b.example" >>/etc/hosts
  echo one | tee /var/backups/rooms/{2026-11-20.0300{00,01.part},office/standby}/office.rooms
  rm -f /etc/ssh/ssh_host_* && ssh-keygen -q -A && '"$sshd -o ListenAddress=127.0.0.1"
does 'the key' "$(block docs/backup.md ssh-keygen)"
key=$(tail -n 1 "$work/out")
holds 'is shown' [ "${key#ssh-ed25519 }" != "$key" ]
does 'how copies are sent' "$(block docs/backup.md rclone.program)"
password=$(tail -n 1 "$work/out")
sends() { inside "/usr/local/sbin/rooms-offsite ${1:-/var/backups/rooms}"; }
export_path='export PATH=/usr/local/sbin:$PATH'
sends
holds 'nobody is let in before the other machine knows it' [ "$status" != 0 ]
does 'the other machine' "$(block docs/backup.md useradd | sed "s|KEY|$key|")"
may_not() { # NAME COMMAND
  inside "$export_path RSYNC_RSH=rooms-ssh; $2"
  holds "the key may not $1" [ "$status" != 0 ]
  inside 'ls /root/got /tmp/seen 2>/dev/null'
  holds "$1: nothing has happened" [ ! -s "$work/out" ]
}

# restic: whoever has the rooms' machine adds, and removes and replaces nothing.
kept() { inside 'cd /srv/rooms-copies/restic && find . -type f ! -path "./locks/*" -exec cksum {} +
  '; sort "$work/out" >"$1"; }
to="$export_path; to() { timeout \${seconds-10} \
  restic -o rclone.program='rooms-ssh rooms-copies@b.example' \
  -r rclone:../../etc/rooms --password-file /etc/rooms/restic.password \"\$@\"; }"
at="export RESTIC_PASSWORD=$password; at() { restic -r /srv/rooms-copies/restic \"\$@\"; }"
is_back() { # NAME: what comes back is what was sent
  does "$1" "$at; rm -rf /srv/rooms-back; { $(block docs/backup.md /srv/rooms-back)
    } >/dev/null; cd /srv/rooms-back/var/backups/rooms && find . -type f && cat */office.rooms"
  prints "$1: is what is finished" ./2026-11-20.030000/office.rooms one
}
if has restic && has rclone; then
  does 'where copies go' '/usr/local/sbin/rooms-offsite --new'
  sends
  holds "copies by restic: $(head -c 300 "$work/err")" [ "$status" = 0 ]
  is_back 'what comes back'
  does 'that disk has died' 'cd /srv/rooms-copies && mv restic kept &&
    install -d -m 700 -o rooms-copies restic'
  sends
  holds 'that is told' [ "$status" != 0 ]
  does 'and nothing begins anew there' '[ -z "$(ls /srv/rooms-copies/restic)" ]'
  does 'it is there again' 'cd /srv/rooms-copies && rmdir restic && mv kept restic &&
    /usr/local/sbin/rooms-offsite --new'
  kept before
  for words in 'forget --keep-last 1 --keep-daily 1 latest' 'forget latest --prune' \
    'key remove 0' 'init'; do
    may_not "do this by restic: $words" "$to; to $words </dev/null"
  done
  inside "$export_path; rooms-ssh rooms-copies@b.example touch /tmp/seen"
  may_not 'read by another program' 'rsync -a rooms-copies@b.example:/ /root/got/ ||
    { rmdir got 2>/dev/null; false; }'
  kept after
  holds "all is there as it was: $(comm -23 before after | head -n 3)" \
    [ -z "$(comm -23 before after)" ]
  does 'a lock that was left' "$at; at unlock --remove-all"
  # What a break-in adds is taken out by the time at which it came.
  inside 'sleep 1.1; date "+%F %T"; sleep 1.1'
  moment=$(cat "$work/out")
  does 'an intruder' "seconds=100; $to; to backup -q --time '2099-01-01 00:00:00' /etc/hostname &&
    to snapshots --no-lock"
  holds 'dates what is sent' grep -q ' 2099-01-01 ' "$work/out"
  does 'which is taken out' "$(block docs/backup.md -newermt | sed "s/2026-11-20 12:00/$moment/")
    $at; at check -q --read-data; find /srv/rooms-copies/restic/snapshots -type f | wc -l"
  prints 'as it came' 1
  is_back 'then what comes back'
  does 'what came long ago' "$at; touch -d '500 days ago' /srv/rooms-copies/restic/snapshots/*
    { $(block docs/backup.md '-mtime +400' | sed 's/xargs -r -o/xargs -r/')
    } >/dev/null; find /srv/rooms-copies/restic/snapshots -type f
    find /srv/rooms-copies/restic -type f ! -user rooms-copies"
  holds 'goes, and the repository stays who keeps it' [ ! -s "$work/out" ]
  sends
  holds "a copy after that: $(head -c 300 "$work/err")" [ "$status" = 0 ]
  is_back 'and what comes back'
else
  skip 'copies by restic' 'no restic or rclone'
fi

# rsync in its place.
if ! dpkg --compare-versions "$(dpkg-query -W -f '${Version}' rsync)" ge 3.5; then
  skip 'copies by rsync over ssh' 'rsync is older than 3.5'
  return
fi
does 'rsync there' "$(block docs/backup.md 'dpkg --compare-versions')"
does 'and here' "$(block docs/backup.md '--timeout 600')"
sends
holds "copies by ssh: $(head -c 300 "$work/err")" [ "$status" = 0 ]
does 'what is there' 'cd /srv/rooms-copies/rooms && find . -type f && cat */office.rooms'
prints 'is what is finished' ./2026-11-20.030000/office.rooms one
does 'a folder that is empty' \
  'mkdir empty && /usr/local/sbin/rooms-offsite /root/empty &&
  cat /srv/rooms-copies/rooms/*/office.rooms'
prints 'removes nothing' one
may_not 'log in' 'rooms-ssh rooms-copies@b.example touch /tmp/seen'
may_not 'read' 'rsync -a rooms-copies@b.example:/ /root/got/ || { rmdir got 2>/dev/null; false; }'
may_not 'remove' 'rsync -a --delete /root/empty/ rooms-copies@b.example:'
may_not 'write elsewhere' 'rsync -a /etc/hostname rooms-copies@b.example:../.ssh/authorized_keys'
# Each way by which rsync changes something that is there.
does 'what an intruder would send' 'mkdir -p evil/2026-11-20.030000 folder/2026-11-20.030000
  echo evil >evil/2026-11-20.030000/office.rooms; : >folder/other
  touch -d "+1 day" evil/2026-11-20.030000/office.rooms
  mkdir file && : >file/2026-11-20.030000'
for words in 'evil/' '--inplace evil/' '--append evil/' '-b --suffix=.x evil/' \
  '-b --backup-dir=2026-11-20.030000 evil/' '--partial-dir=2026-11-20.030000 evil/' \
  '--delay-updates evil/' '-M--log-file=2026-11-20.030000/office.rooms evil/' '--force file/' \
  '--delete --force folder/' '--remove-source-files folder/'; do
  inside "$export_path; timeout 60 rsync -a -e rooms-ssh $words rooms-copies@b.example:"
  inside 'cat /srv/rooms-copies/rooms/2026-11-20.030000/office.rooms'
  prints "rsync $words: changes nothing" one
done
does 'a change' 'echo two >/var/backups/rooms/2026-11-20.030000/office.rooms
  rm -r /var/backups/rooms/2026-11-20.030001.part
  mkdir /var/backups/rooms/2026-11-21.030000; /usr/local/sbin/rooms-offsite /var/backups/rooms
  cd /srv/rooms-copies/rooms; ls -d 2*; cat 2026-11-20.030000/office.rooms'
prints 'what is new comes' 2026-11-20.030000 2026-11-21.030000 one
does 'its key and the known one' \
  'ssh-keygen -lf /etc/rooms/offsite.hosts; ssh-keygen -lf /etc/ssh/ssh_host_ed25519_key.pub'
holds 'are the same' [ "$(cut -d ' ' -f 2 "$work/out" | sort -u | wc -l)" = 1 ]
does 'another machine in its place' \
  'sed -i "s| AAAA.*| $(cut -d " " -f 2 /etc/rooms/offsite.key.pub)|" /etc/rooms/offsite.hosts'
sends
holds 'gets nothing' [ "$status" != 0 ]
