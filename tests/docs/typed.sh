# Each block that the pages give an administrator is typed into a shell on a terminal, as a terminal
# does it that doesn't know of pasted texts. So each line has to get to the shell, and none to a
# command before it that reads from the terminal. The machine is that of machine/package: a copy of
# the folder ROOMS_DEBIAN, or one that debootstrap makes.

top=$here/..
. "$here/lib/machine.sh"
if ! has python3 || ! has dpkg-deb || ! has sha256sum; then
  skip 'what is typed' 'python3, dpkg-deb or sha256sum is missing'
  return
fi
make_machine 'what is typed' || return
furnish_machine
version=$("$rooms" --version 2>&1 </dev/null | sed 's/^rooms //')
package=rooms_${version}_amd64.deb
if ! "$top/tools/package" --program "$rooms" "$machine/root" >said 2>&1 </dev/null; then
  fail 'a package' "$(tail -n 1 said)"
  return
fi

. "$here/lib/stand-ins.sh"
if ! furnish_terminal 2>said; then
  skip 'what is typed' "no terminals: $(head -c 200 said)"
  return
fi

# The blocks of a page, each in a file of its own.
pages='README docs/operating docs/backup docs/people docs/upgrading docs/machines docs/capacity
  docs/lists docs/in-and-out docs/personal docs/program docs/messages docs/directory'
mkdir -p blocks/docs
for page in $pages; do
  awk -v into="blocks/$page" '
    /^```/ {
      if (inside) { inside = 0; close(file) }
      else { inside = 1; file = "/dev/null"; if ($0 == "```sh") file = into "." ++n }
      next
    }
    inside { print >file }' "$top/$page.md"
done
holds 'the pages have blocks' [ "$(find blocks -type f | wc -l)" -gt 80 ]

# The first block of a page that has a text, or that is the text, where it begins with '='.
block_of() { # PAGE TEXT
  local block
  for block in $(printf '%s\n' "blocks/$1".* | sort -V); do
    if [[ $2 = =* ]]; then
      [ "$2" = "=$(<"$block")" ]
    else
      grep -qF -e "$2" "$block"
    fi || continue
    echo "$block"
    return
  done
}

# Types blocks into one shell, one after the other. What differs on this machine is said by a script
# of sed in `edit`, which statuses other than 0 are right in `statuses`, and a folder in `where`.
edit='' statuses='' where=/root
types() { # NAME PAGE TEXT ..
  local name=$1 block each sent=()
  shift
  while [ $# != 0 ]; do
    block=$(block_of "$1" "$2")
    [ -n "$block" ] || { fail "$name" "no such block in $1: $2"; return; }
    for each in "blocks/$1".*; do ! cmp -s "$block" "$each" || echo "$each" >>typed; done
    sent+=("sent.${#sent[@]}")
    sed -e "s/rooms_VERSION/rooms_$version/" -e "$edit" "$block" >"${sent[-1]}"
    shift 2
  done
  : >"$machine/srv/typed"
  rm -f log.faults
  python3 "$here/docs/typed.py" "$machine/srv/typed" "$patience" "${sent[@]}" \
    -- nsenter -t "$first" -n -m -p chroot "$machine" /usr/bin/env -i HOME=/root \
    LC_ALL=C.UTF-8 TERM=dumb PATH=/usr/local/sbin:/usr/local/bin:/usr/sbin:/usr/bin:/sbin:/bin \
    bash -c "cd '$where' && exec bash -i" >"$work/out" 2>"$work/err" </dev/null
  if [ -e "$machine/srv/typed.faults" ] &&
    ! grep -vE "^status (${statuses:-none}): " "$machine/srv/typed.faults" >found; then
    pass
  else
    fail "$name" "$(head -n 5 found) $(head -c 300 "$work/err")"
    tail -c 900 "$work/out" | tr -d '\r' | sed 's/^/  /'
  fi
  rm -f "$machine/srv/typed.faults"
  edit='' statuses='' where=/root
}
shows() { # NAME TEXT ..: what the terminal has shown
  local name=$1 text
  shift
  for text; do holds "$name ($text)" grep -qF -e "$text" "$work/out"; done
}
asks_as() { # STATUS USER METHOD TARGET [BODY]
  printf %s "${5-}" >"$machine/root/body"
  inside "curl -s -o /dev/null -w '%{http_code}' --unix-socket /run/rooms/office/socket -X $3 \
    -H 'Room-User: $2' --data-binary @body http://localhost$4"
  holds "$3 $4 as $2 is answered by $(<"$work/out")" [ "$(<"$work/out")" = "$1" ]
}
: >"$machine/srv/typed"
chmod 666 "$machine/srv/typed"

# The case itself finds what is lost: apt-get takes the lines behind it, unless it is kept from the
# terminal.
printf '%s\n' 'apt-get update' 'apt-get install -y lost' 'echo one' 'echo two' >blocks/docs/lost.1
if tried types 'lost lines' docs/lost two >/dev/null; then
  fail 'lost lines' 'are not noticed'
else
  pass 'lost lines are noticed'
fi
rm blocks/docs/lost.1 typed

# The first hour.
types 'the package' README './rooms_'
types 'the three commands' README 'rooms init'
shows 'they make the room' ready
inside \
  'systemctl stop rooms@office; rm -f /var/lib/rooms/office.rooms*
  : >/var/lib/rooms-passwords/rooms.htpasswd'
types 'the same on its page' docs/operating './rooms_' docs/operating 'rooms init'
shows 'and there' ready 'New password of alice' 'a password for alice'
# What isn't there comes from a folder here, so nothing is fetched.
types 'without internet' docs/operating --download-only docs/operating './*.deb'
types 'without a package' docs/operating 'nginx apache2-utils' docs/operating '=deploy/install'
types 'a folder' docs/operating 'rooms.example:80'
shows 'is made' 201
types 'groups' docs/operating 'cat >groups.csv'
shows 'are taken' '+ sales,carol' 'groups 2, members 3'
types 'lists' docs/operating 'list set / ' docs/operating 'list set --sacl'
shows 'are taken' '+ A:g:staff:rxtc' '+ U:fdF:EVERYONE@:rx' 'done'
# The mail program is one of these tests; machine/package has the warning where there is none.
printf '#!/bin/sh\ncat >>/srv/mails\n' >"$machine/usr/local/bin/mail"
chmod 755 "$machine/usr/local/bin/mail"
statuses='[12]'
types 'somebody is told' docs/operating 'install -y bsd-mailx' \
  docs/operating 'systemctl start rooms-nightly@office'
holds 'by a mail' grep -qx 'Can you read this?' "$machine/srv/mails"
# (No door runs here, which it says before.)
shows 'and all is looked at' 'passwords and documents travel unencrypted'
rm "$machine/usr/local/bin/mail" "$machine/etc/aliases" "$machine/srv/mails"
types 'a port' docs/operating 'set PORT=8780'
does 'the room is there' \
  'curl -sf "http://127.0.0.1:8780/can/?" && curl -sf -u alice:typed http://127.0.0.1/me >/dev/null'
does 'the rule is there' 'nft -f /usr/share/rooms/rooms.nft'
types 'the ports' docs/operating 'nft list table'
types 'a socket' docs/operating 'set PORT= '
does 'it is there' 'curl -sf --unix-socket /run/rooms/office/socket "http://localhost/can/?" &&
  curl -sf -u alice:typed http://127.0.0.1/me >/dev/null'

# TLS, and back.
types 'an authority' docs/operating '=rooms-admin certificate rooms.example' \
  docs/operating 'rooms-admin setup --tls /etc/ssl' \
  docs/operating '=nginx -t && systemctl reload nginx' docs/operating update-ca-certificates
does 'the site with TLS' 'curl -sf --cacert /root/authority/authority.pem \
  --resolve rooms.example:443:127.0.0.1 -u alice:typed https://rooms.example/me >/dev/null'
types 'a public name' docs/operating 'install -y certbot' docs/operating certonly \
  docs/operating letsencrypt/live
holds 'its certificate is used' grep -q letsencrypt "$machine/etc/nginx/sites-available/rooms"
types 'back' docs/operating 'CERTIFICATE= KEY='
does 'without TLS' 'curl -sf -u alice:typed http://127.0.0.1/me >/dev/null'

# Lists.
types 'folders' docs/lists 'for name in policies'
holds 'one of them was there' [ "$(grep -c '^409' "$work/out")" = 1 ]
holds 'and the others are made' [ "$(grep -c '^201' "$work/out")" = 8 ]
types 'each list' docs/lists 'list set /policies' docs/lists 'list set /minutes' \
  docs/lists 'list set /letters' docs/lists 'list set /bob' docs/lists 'list set /personnel' \
  docs/lists 'list set /handbook' docs/lists 'list set /inbox' docs/lists 'list set /drafts' \
  docs/lists 'list set --sacl /contracts'
holds 'all are set' [ "$(grep -c '^done' "$work/out")" = 9 ]
statuses=1
types 'a list is tried' docs/lists 'caller: ivan'
does 'the server runs again' 'systemctl is-active rooms@office
  printf "%s\n" list:ap A:fd:alice:rwanNxDtThHdcCoy A:fdg:staff:rxtc >list.txt'
types 'a list by a request' docs/lists '@list.txt' docs/lists 'cat list.txt'
shows 'after a look' granted
where=/usr/share/doc/rooms/docs/examples
edit=s#docs/examples/NAME#intern-writes#
statuses=1
types 'an example' docs/program docs/examples
does 'an input' "sed -n '/^caller: alice/,/^\`\`\`/p' /usr/share/doc/rooms/docs/program.md |
  sed '/^\`\`\`/,\$d' >input.txt"
types 'a list that is judged' docs/program input.txt
shows 'is' granted
does 'a room of its own' 'rooms init office.rooms alice staff'
types 'some members come' docs/program '--join sales carol'
shows 'who is there then' 'joined 2, left 0, members 2'
types 'a server at a socket' docs/program 'rooms serve'
shows 'lists what is there' '[]'

# People.
types 'many join' docs/people joining.csv
shows 'they have passwords and groups' 'groups 2, members 6'
does 'they leave' 'rooms-admin user remove kim && rooms-admin user remove lee'
types 'somebody joins' docs/people '=rooms-admin user add dana --groups sales'
file=$machine/var/lib/rooms-passwords/rooms.htpasswd
holds 'she has a password' grep -q '^dana:$2y$10\$' "$file"
shows 'she is in her group' 'groups 2, members 4'
types 'somebody changes department' docs/people 'user change dana'
shows 'which is shown' '+ staff,dana' '- sales,dana' 'groups 2, members 4'
does 'and goes back' 'rooms-admin user change dana --add sales --drop staff'
types 'a spreadsheet' docs/people 'members >groups.csv' docs/people 'members --dry-run'
shows 'says what is there' 'groups 2, members 4'
types 'who is there' docs/people '=rooms-admin user list'
shows 'dana is' 'dana  password  sales'
does 'bob has a password' 'rooms-admin user add bob'
for path in reply ' odd '; do asks_as 201 bob PUT "/doc/letters/${path// /%20}" x; done
types 'somebody leaves' docs/people '=rooms-admin user remove bob'
shows 'what is his' 'document bob staff 1 /letters/ odd ' 'document bob staff 1 /letters/reply'
holds 'he has no password' [ "$(grep -c '^bob:' "$file")" = 0 ]
does 'lists of a night' 'systemctl start rooms-nightly@office'
types 'what would be given' docs/people 'rooms-admin handover --dry-run'
shows 'is told' "would: /letters/\\ odd\\ " 'would be given 2, of others by now 0, left out 0'
types 'all of it' docs/people '=rooms-admin user remove bob --to alice'
shows 'is given' 'given 2, of others by now 0, left out 0'
types 'a single one' docs/people '/attr/letters/reply'
shows 'is given too' 204
asks_as 201 alice POST /folder/projects
asks_as 201 alice POST /folder/projects/bridge
types 'somebody from outside' docs/people '=rooms-admin user add eve' docs/people 'A::eve:x' \
  docs/people 'can/projects/bridge' docs/people 'at 18:00'
shows 'may read' '"r":"allowed'
holds 'until a day' grep -q '^at 18:00 2027-01-31$' "$machine/root/due"
holds 'at which her password goes' \
  grep -q '^rooms-admin user remove '\''eve'\'' --password$' "$machine/root/due"
types 'a backup' docs/upgrading 'start rooms-nightly'
asks_as 204 alice PUT /dacl/letters list:ap
asks_as 403 alice GET /folder/letters
types 'somebody is locked out' docs/people 'list set /letters'
asks_as 200 alice GET /folder/letters
types 'the list of the night' docs/people '=rooms-admin lists /letters'
shows 'is printed' A:fdg:staff:rwaxtc A:fi:OWNER@:d
types 'who can read this folder' docs/people '=rooms-admin who /letters'
shows 'alice alone' 'alice  rwanNxDtThHdcCoy  remove  by A:fd:alice:rwanNxDtThHdcCoy' \
  'every other name  nothing'
types 'all of one user' docs/people '=rooms-admin who --user bob'
shows 'by the entries' '/  bob  x' '  by A::AUTHENTICATED@:xt'
types 'a group' docs/people 'lists --group sales'
shows 'has a user' 'member sales dana'
types 'who could change it' docs/people '=rooms-admin who --change /projects'
shows 'alice' '/projects  alice  Co  remove  by '
types 'a new password' docs/people '=rooms-admin user add bob' docs/people 'add bob --random' \
  docs/people 'user add bob --first'

# A deputy, who has an account of the machine.
stand_in visudo </dev/null
mkdir -p "$machine/etc/sudoers.d"
does 'an account' 'useradd carol'
types 'a deputy' docs/operating usermod
holds 'may do what is written for this room' \
  grep -q '^  .*/rooms-admin user list --room office, ' "$machine/etc/sudoers.d/rooms-office"
types 'who asked for what' docs/operating 'journalctl -t rooms-admin'
types 'a deputy no more' docs/operating 'rm /etc/sudoers.d'

# In and out.
types 'a share of Windows' docs/in-and-out smbclient
edit=s#https://rooms.example#http://127.0.0.1#
types 'it comes in' docs/in-and-out 'rooms-admin import --user alice' \
  docs/in-and-out 'rooms-admin import --as alice'
shows 'all of it' 'left out 0' 'there already 3'
types 'it goes out' docs/in-and-out 'rooms-admin export'
does 'as it was' 'cmp "share/ a /b " "out/ a /b "'

# Several rooms.
types 'a second room' docs/machines 'rooms-admin add --title'
does 'a password counts' 'curl -sf -u carol:typed http://127.0.0.1/invoices/me >/dev/null'
types 'a program' docs/people 'user add archive'

# A directory, tickets, sessions.
# What alice gets with the password of nginx's own file, once nobody remembers anything.
answers_as() { # NAME STATUS
  inside 'sleep 11; curl -s -k -L --location-trusted -o /dev/null -w "%{http_code}" -u alice:typed \
    http://127.0.0.1/me'
  holds "$1: $(<"$work/out")" [ "$(<"$work/out")" = "$2" ]
}
types 'where it is' docs/directory 'ldap-utils' docs/directory URI=
does 'the password that was asked for' \
  '[ "$(cat /etc/rooms/directory.secret)" = typed ] &&
  [ "$(stat -c %a /etc/rooms/directory.secret)" = 600 ]'
types 'passwords' docs/directory 'rooms-admin groups --names' \
  docs/directory 'rooms-admin setup --directory /etc'
shows 'are asked there' 'the directory has 2 users' 'file /etc/rooms/directory.apache'
answers_as 'nothing answers in its place' 503
types 'of a further room' docs/directory 'invoices PASSWORDS=' \
  docs/directory invoices.apache
statuses=2
types 'guests' docs/directory GUESTS=yes
shows 'of whom none has a second password' 'two passwords: alice, bob'
does 'no guests' 'rooms-admin set GUESTS= && rooms-admin setup'
types 'groups' docs/directory 'MOST=10' docs/directory '=rooms-admin groups
systemctl enable --now rooms-directory@office.timer'
shows 'come in' '+ hr,alice'
types 'tickets' docs/directory krb5.conf
does 'a key' 'echo key >keytab'
types 'are taken' docs/directory 'install -o rooms-passwords' docs/directory mod_auth_gssapi \
  docs/directory 'map "$status'
does 'a key of before, which Apache read as nginx'"'"'s user' \
  'chown www-data /etc/rooms/kerberos.keytab && rooms-admin setup &&
  stat -c %U /etc/rooms/kerberos.keytab'
holds 'gets its new user' [ "$(tail -n 1 "$work/out")" = rooms-passwords ]
holds 'a password is offered beside' \
  grep -q '^add_header WWW-Authenticate ' "$machine/etc/rooms/nginx/server.d/tickets.conf"
types 'and no more' docs/directory 'rm /etc/rooms/directory.d/kerberos.apache'
types 'the way back' docs/directory 'rooms-admin setup --directory none'
answers_as 'the file counts' 200
# By its settings alone the room asks the directory again, which was set up.
does 'the directory again' 'rooms-admin set PASSWORDS=directory && rooms-admin setup'
shows 'has its Apache started' 'systemctl enable --now rooms-passwords.service'
does 'the way back again' 'rooms-admin setup --directory none'
does 'TLS for sessions' 'rooms-admin setup --tls /etc/ssl/rooms.pem /etc/ssl/private/rooms.key'
types 'sessions' docs/directory libapache2-mod-auth-openidc docs/directory OIDCProviderMetadataURL \
  docs/directory '[Service]' docs/directory PASSWORDS=session
answers_as 'nothing answers in its place either' 503
types 'passwords again' docs/directory 'disable --now rooms-session'
answers_as 'the file counts again' 200

types 'taken away' docs/machines 'rooms-admin remove'

# A second machine that can take over, which is this one.
types 'a standby' docs/machines 'mkdir -p -m 700' docs/machines 'rsync openssh-client'
does 'a copy' 'rooms-admin standby --room office
  cp -a /var/backups/rooms/office/standby/. /var/backups/rooms/standby
  systemctl disable --now rooms@office'
types 'hourly copies' docs/backup HOURS=24
types 'weeks, months and years' docs/backup 'KEEP='
holds 'are kept' \
  grep -qx 'KEEP=14 nights 8 weeks 12 months 5 years' "$machine/etc/rooms/office.conf"
types 'it takes over' docs/machines 'rooms-admin restore /var/backups/rooms/standby'
asks_as 200 alice GET /folder/letters
types 'the old machine no more' docs/machines 'now rooms@office rooms-{'
does 'what was enabled' 'systemctl enable --now rooms@office rooms-nightly@office.timer'

# What is watched, and what is done when something is wrong.
statuses='[12]'
types 'what to watch' docs/capacity '=rooms-admin check'
shows 'it says what there is' 'rooms CRITICAL - office: its door ' 'office: '
types 'how much memory it has' docs/capacity MemoryCurrent
statuses=1
types 'how full it is' docs/capacity 'restart rooms-full@office'
shows 'is said' '0 MB of ' ' are in use'
types 'who was here' docs/personal 'rooms-admin records'
types 'and between two days' docs/people 'records --path /personnel'
statuses=1
types 'by the log too' docs/personal 'zgrep'
types 'old records' docs/capacity 'DELETE FROM audits'
shows 'the room stays sound' sound
types 'which cause it is' docs/messages '=rooms-admin doctor /var/lib/rooms/office.rooms'
shows 'the server has it, and answers' \
  'nothing is wrong: rooms@office serves /var/lib/rooms/office.rooms, and answers'
types 'a unit that gave up' docs/messages reset-failed
types 'a full disk' docs/messages 'df -h' docs/messages vacuum docs/messages 'rooms verify'
shows 'the room is sound' sound
types 'the counter of records' docs/messages sqlite_sequence
shows 'the room stays so' sound
backup=$(cd "$machine/var/backups/rooms/office" && ls -d ????-??-??.?????? | tail -n 1)
edit=s/2026-11-20.040000/$backup/
types 'a restore' docs/backup 'rooms-admin restore --start 2026'
shows 'is done' "restored /var/lib/rooms/office.rooms from /var/backups/rooms/office/$backup"
edit=s/2026-11-20.040000/$backup/
types 'one document' docs/backup 'rooms-admin get 2026' docs/backup '>back/'
shows 'is put back' ', left out 0'
edit=s/2026-11-20.040000/$backup/
types 'a folder of it' docs/backup 'rooms-admin export --backup'
shows 'is written' 'left out 0'
types 'a copy to try things on' docs/backup '--title Trial trial'
does 'it answers, and goes' 'curl -sf -u alice:typed http://127.0.0.1/trial/folder/letters &&
  rooms-admin remove trial && rm -r /var/lib/rooms/trial.rooms*'
types 'the longest list' docs/operating 'lists --longest'
shows 'has an object' ' entries in the dacl of '

# Upgrades, and the way back.
statuses='[12]'
types 'a newer version' docs/upgrading \
  '=apt-get install -y ./rooms_VERSION_amd64.deb -o Dpkg::Options::=--force-confold </dev/null' \
  docs/upgrading 'rooms-admin check' docs/upgrading '=rooms-admin setup
rooms-admin check'
shows 'serves' 'rooms CRITICAL - office: its door '
types 'an older one' docs/upgrading allow-downgrades docs/upgrading "=systemctl restart 'rooms@*'"
edit=s/2026-11-20.040000/$backup/
types 'with its file' docs/upgrading 'rooms-restore 2026'
does 'a file of schema 1' \
  'systemctl stop rooms@office && mkdir kept && mv /var/lib/rooms/office.rooms* kept'
take moved.1.db "$machine/var/lib/rooms/office.rooms"
does 'is the room' 'chown rooms: /var/lib/rooms/office.rooms'
types 'is upgraded and served' docs/messages 'rooms migrate'
shows 'and so on' migrated
does 'the room of before' \
  'systemctl stop rooms@office; rm /var/lib/rooms/office.rooms*; mv kept/* /var/lib/rooms'
does 'what deploy/install has beside' \
  'sed -i s#/usr/share/rooms#/usr/local/share/rooms# /etc/rooms/*.apache
  systemctl enable --now rooms-passwords rooms-standby@office.timer'
types 'from an install by hand' docs/upgrading 'rm -f bin/rooms' \
  docs/upgrading 'enable --now "$unit"'
asks_as 200 alice GET /folder/letters
holds 'no file of Apache looks below /usr/local' \
  [ -z "$(grep -l /usr/local "$machine"/etc/rooms/*.apache)" ]
does 'what was enabled is so' 'systemctl is-active rooms-passwords rooms-standby@office.timer'
does 'the same command again' 'rooms-admin setup --directory /etc/rooms/directory'
holds 'has nothing to add' [ "$(grep -c directory.apache "$work/out")" = 0 ]

# The blocks of the README for who builds the program.
block_of README tools/build >>typed
block_of README .ci/run >>typed
# Blocks of a new machine, and of what is copied for it: machine/new-machine pastes them.
for text in './rooms_' 'cp -a /mnt' 'do rooms-admin restore' reload-or-restart machine/about \
  'rooms-offsite <<' '/mnt/offsite --password-file' '/mnt/offsite restore' 'mkdir -m 700 /mnt' \
  '-ctime -90' ssh-keygen useradd rclone.program /srv/rooms-back -newermt '-mtime +400' \
  'dpkg --compare' '--timeout 600'; do
  block_of docs/backup "$text"
done >>typed
# What would come of a list, by last night's; documents by sqlite3; all that differs from last
# night: docs/pasted-back pastes them.
block_of docs/lists 'rooms-admin would set' >>typed
block_of docs/in-and-out writefile >>typed
block_of docs/backup 'diff -rq' >>typed
# Whose access ends, by last night's too: docs/as-pasted pastes it.
block_of docs/people ':until' >>typed
# Whence one of several rooms is reached: nginx/site pastes it.
block_of docs/people 'geo $inside' >>typed
# Blocks of several machines: nginx/machines, machine/new-machine and admin/standby paste them.
for text in 'certificate --machine' 'add --behind' 'add --on' \
  -mmin 'start "rooms-nightly@' 'now "rooms@$room"'; do
  block_of docs/machines "$text"
done >>typed
# A room's file that was removed: machine/removed-file pastes both.
block_of docs/messages 'kill -STOP' >>typed
block_of docs/messages 'systemctl kill -s KILL' >>typed
# The way back to 1.1.0: machine/upgrade pastes it. Swap would be that of the machine below, which
# stays as it is: it is typed by hand.
block_of docs/upgrading 'SOCKET=yes DOOR=yes' >>typed
block_of docs/capacity fallocate >>typed
find blocks -type f | sort >wanted
while IFS= read -r block; do
  fail "block ${block##*.} of ${block%.*}" "no line here types it: $(head -n 1 "$block")"
done < <(sort -u typed | comm -13 - wanted)
holds 'blocks were typed' [ "$(sort -u typed | wc -l)" -gt 80 ]
