# Several rooms, below a folder: what 'rooms-admin add' makes and refuses, and what 'remove' takes
# away.

verb() { # VERB ARGUMENT ..
  "$repo/admin/rooms-admin" "$1" --destdir "$PWD/machine" "${@:2}" \
    </dev/null >"$work/out" 2>"$work/err"
  status=$?
}
adds() { verb add "$@"; }
removes() { verb remove "$@"; }
installs() {
  "$repo/deploy/install" --destdir "$PWD/machine" --program "$rooms" "$@" \
    </dev/null >"$work/out" 2>"$work/err"
  status=$?
}
tree() {
  (cd machine && find . -exec ls -ld --time-style=full-iso {} + &&
    find . -type f -exec cksum {} +) 2>/dev/null
}
refuses() { # NAME TEXT ARGUMENT ..
  tree >before
  if [ "${3-}" = --remove ]; then removes "${@:4}"; else adds "${@:3}"; fi
  says "$1" 2 "$2"
  tree >after
  same "$1: nothing is changed" after before
}
value() { sed -n "s/^$2=//p" "machine/etc/rooms/$1.conf"; } # ROOM SETTING

adds invoices
says 'a room where nothing is installed' 2 'not installed'
installs
says 'an install' 0 'file /var/lib/rooms-front/start.html'
holds 'office has settings' [ "$(value office UNIT) $(value office PORT)" = 'rooms@office ' ]
refuses 'nothing' 'bad arguments'
refuses 'an address, which no certificate is for' "'10.0.0.2' isn't the name of a machine" \
  --on 10.0.0.2 bills
refuses 'an unknown option' 'bad arguments: no such option: --other' --other invoices
refuses 'no value' 'bad arguments' --port
refuses 'an owner without a group' 'bad arguments' invoices carol
refuses 'too much' 'bad arguments' invoices carol accounting more
refuses 'an option that remove has not' 'bad arguments' --remove --port 8790 invoices
refuses 'an empty name' 'bad arguments: a word is empty' ''
for name in . .. a/b A Rechnung ä 'a b' -a a- a_b 'a;b' "$(printf 'a%.0s' {1..33})"; do
  [ "${name:0:1}" != - ] || continue
  refuses "the name '$name'" 'bad name' "$name"
done
# The same names are refused wherever the administrator lives.
if has localedef && localedef -i de_DE -f UTF-8 "$PWD/de_DE.UTF-8" >said 2>&1; then
  adds_there() {
    env LOCPATH="$PWD" LC_ALL=de_DE.UTF-8 "$repo/admin/rooms-admin" add \
      --destdir "$PWD/machine" "$@" \
      </dev/null >"$work/out" 2>"$work/err"
    status=$?
  }
  for name in bü b-ä ñ; do
    tree >before
    adds_there "$name"
    says "the name '$name' in a German locale" 2 'bad name'
    tree >after
    same "the name '$name' in a German locale: nothing is changed" after before
  done
  tree >before
  adds_there --host bücher.example invoices
  says 'a host in a German locale' 2 'bad host'
  tree >after
  same 'the host changes nothing' after before
else
  skip 'names in a German locale' "no localedef, or no locale: $(head -c 200 said 2>/dev/null)"
fi
for name in doc folder object move dacl sacl attr can me people mine rooms password door drive \
  office; do
  refuses "the name $name" 'bad name' "$name"
done
for wrong in 0 08781 65536 99999 -1 port; do
  refuses "the port $wrong" 'bad port' --port "$wrong" invoices
done
for wrong in 443 8778 8999; do
  refuses "the port $wrong" "isn't one of 8780 to 8998" --port "$wrong" invoices
done
for wrong in 'a"b' 'a\b' "a'b" 'a$b' ' a' 'a ' $'a\nb' "$(printf 'a%.0s' {1..101})"; do
  refuses "the title '$wrong'" 'bad title' --title "$wrong" invoices
done
adds --dry-run --title "$(printf 'ä%.0s' {1..100})" invoices
says 'a title is counted in characters' 0 'would: file /etc/rooms/invoices.conf'
for wrong in 'a b' 'a;b' a- .a a. 'ä' '*' "$(printf 'a%.0s' {1..254})"; do
  refuses "the host '$wrong'" 'bad host' --host "$wrong" invoices
done
refuses "the site's host" 'host in use' --host rooms.example invoices
refuses 'nothing to remove' 'no room: /etc/rooms/invoices.conf' --remove invoices
refuses 'office stays' 'bad name' --remove office

# What is made: two rooms, each with its own.
adds --dry-run invoices
says 'what would be made' 0 'would: file /etc/rooms/invoices.conf'
holds 'is not made' is_missing machine/etc/rooms/invoices.conf
adds --title 'Invoices & <orders>' invoices
says 'a room' 0 'new file /etc/nginx/sites-available/rooms'
holds 'its file' [ "$(value invoices FILE)" = /var/lib/rooms/invoices.rooms ]
holds 'its unit' [ "$(value invoices UNIT)" = rooms@invoices ]
holds 'its title' [ "$(value invoices TITLE)" = 'Invoices & <orders>' ]
holds 'its backups' [ "$(value invoices BACKUPS)" = /var/backups/rooms/invoices ]
holds 'which have a folder' [ -n "$(find machine/var/backups/rooms/invoices -perm 700)" ]
holds 'nobody else reads its passwords' \
  [ -n "$(find machine/var/lib/rooms-passwords/rooms-invoices.htpasswd -perm 600)" ]
holds 'no port' [ -z "$(value invoices PORT)" ]
site=machine/etc/nginx/sites-available/rooms
holds 'nginx goes to its socket' \
  grep -qx 'upstream room_invoices { server unix:/run/rooms/invoices/socket; }' "$site"
holds 'and to that of office' \
  grep -qx 'upstream room_office { server unix:/run/rooms/office/socket; }' "$site"
holds 'nothing is left to fill in' [ -z "$(grep -l '@[A-Z]*@' machine/etc/rooms/*.* "$site")" ]
refuses 'the same room again' 'room exists: /etc/rooms/invoices.conf' invoices
adds --host HR.example hr
says 'a room with a host' 0 'new file /etc/nginx/sites-available/rooms'
holds 'the host' grep -qx ' *server_name rooms.example hr.example;' "$site"
refuses 'the same host again' 'host in use' --host hr.example staff
# Who asks for a port gets that.
adds --port 8790 desk
says 'a room with a port' 0 'file /etc/rooms/desk.conf'
holds 'has it' [ "$(value desk PORT)" = 8790 ]
refuses "a port of another room" "port in use: $PWD/machine/etc/rooms/desk.conf has 8790" \
  --port 8790 staff
at_port=machine/etc/systemd/system/rooms-port@desk.socket.d/port.conf
holds 'by a unit of its own' grep -qx 'ListenStream=127.0.0.1:8790' "$at_port"
holds 'nginx goes to its socket' \
  grep -qx 'upstream room_desk { server unix:/run/rooms/desk/socket; }' "$site"
cp machine/etc/rooms/desk.conf desk.conf
installs
same 'settings stay as they are' machine/etc/rooms/desk.conf desk.conf
removes desk
holds 'nor its unit' [ ! -e "${at_port%/*}" ]
rm machine/var/lib/rooms-passwords/rooms-desk.*
start=machine/var/lib/rooms-front/start.html
links() { sed -n 's/^ *<li>\(.*\)<\/li>$/\1/p' "$start"; }
links >got
printf '%s\n' '<a href="//hr.example/">hr</a>' \
  '<a href="/invoices/">Invoices &amp; &lt;orders&gt;</a>' '<a href="/">office</a>' >wanted
same 'the start page has them all' got wanted
sed -i 's/^TITLE=.*/TITLE=/' machine/etc/rooms/hr.conf
sed -i 's/^TITLE=.*/TITLE=The office/' machine/etc/rooms/office.conf
installs
links >got
printf '%s\n' '<a href="/invoices/">Invoices &amp; &lt;orders&gt;</a>' \
  '<a href="/">The office</a>' >wanted
same 'titles are changed in the settings' got wanted
installs
says 'and once' 0 'nothing to change'

# The backups of a further room are on the disk that those of office are on.
sed -i 's#^BACKUPS=.*#BACKUPS=/disk/rooms/#' machine/etc/rooms/office.conf
refuses 'a disk that is not there' 'no folder: /disk/rooms/, of BACKUPS in /etc/rooms/office.conf' \
  onward
mkdir -p machine/disk/rooms
adds onward
says 'backups elsewhere' 0 'folder /disk/rooms/onward'
holds 'are in the settings' [ "$(value onward BACKUPS)" = /disk/rooms/onward ]
holds 'in a folder of root' [ -n "$(find machine/disk/rooms/onward -perm 700)" ]
removes onward
says 'it goes' 0 'kept /disk/rooms/onward'
sed -i 's#^BACKUPS=.*#BACKUPS=rooms#' machine/etc/rooms/office.conf
refuses 'no path' 'bad settings: BACKUPS' onward
sed -i 's#^BACKUPS=.*#BACKUPS=/var/backups/rooms#' machine/etc/rooms/office.conf

# The settings are those of the scripts and of systemd: names, '=' and values alone.
for room in office invoices hr; do
  grep -vE '^(#|$)' "machine/etc/rooms/$room.conf" | sed 's/=.*//' | tr '\n' ' ' >got
  echo FILE PORT DRIVE LARGEST DATES DATES_NAMES SEARCH SEARCH_SCANS TITLE HOST BEHIND \
    PASSWORDS GUESTS OWN_PASSWORDS BACKUPS KEEP EARLIER EARLIER_FROM MEMORY LIMIT STANDBY \
    HOURS MAIL REVIEW REVIEWER PEOPLE UNIT PROGRAM |
    tr '\n' ' ' >wanted
  same "the settings of $room" got wanted
done

# A new room takes documents of 100 MB, and nginx too.
holds 'a document may be large' [ "$(value office LARGEST)" = 100 ]
holds 'of which the page is told' grep -qx '    office 104857600;' "$site"
holds 'and nginx lets it pass' grep -q 'client_max_body_size 100m;' "$site"

# A port at which something listens.
open_room F 2>/dev/null
if [ -s F ] && start_server F 100; then
  refuses 'a port at which something listens' 'port in use: something listens' --port "$port" staff
  stop_server
fi

# A room's file is never touched: what is there is served, and stays.
echo mine >machine/var/lib/rooms/kept.rooms
refuses 'an owner for a file that is there' 'room exists: /var/lib/rooms/kept.rooms' \
  kept carol accounting
echo half >machine/var/lib/rooms/half.rooms-wal
refuses 'a log without its file' 'half a room' half
echo 'carol:x' >machine/etc/nginx/rooms-kept.htpasswd
adds kept
says 'a file that is there' 0 'kept /etc/nginx/rooms-kept.htpasswd: its 1 users may sign in'
says 'is moved' 0 \
  '/etc/nginx/rooms-kept.htpasswd is now /var/lib/rooms-passwords/rooms-kept.htpasswd'
holds 'with nothing left' is_missing machine/etc/nginx/rooms-kept.htpasswd
mkdir run
export ROOMS_RUN=$PWD/run
removes --dry-run kept
says 'the lock of a room' 0 'would: /etc/rooms/kept.conf is removed'
(umask 077 && mkdir -p run/.rooms-admin)
exec 8<>run/.rooms-admin/rooms@kept
if has flock && flock 8; then
  refuses 'a nightly run is at work' 'busy' --remove kept
else
  skip 'a nightly run is at work' 'no flock'
fi
exec 8<&-
mkdir -p machine/var/lib/rooms-web/{kept,hr}/mine
: | tee machine/var/lib/rooms-web/kept/people.json >machine/var/lib/rooms-web/kept/mine/eve.json
removes --dry-run kept
says 'what would be removed' 0 'would: /etc/rooms/kept.conf is removed'
says 'and of the web interface' 0 'would: /var/lib/rooms-web/kept is removed'
holds 'is still there' is_there machine/etc/rooms/kept.conf
holds 'that too' is_there machine/var/lib/rooms-web/kept/mine/eve.json
: >machine/var/lib/rooms/kept.rooms-wal
removes kept
says 'a room is taken away' 0 'kept /var/lib/rooms/kept.rooms'
says 'with its log' 0 'kept /var/lib/rooms/kept.rooms-wal'
holds 'its file stays' [ "$(cat machine/var/lib/rooms/kept.rooms)" = mine ]
holds 'its passwords stay' \
  [ "$(cat machine/var/lib/rooms-passwords/rooms-kept.htpasswd)" = carol:x ]
holds 'its backups stay' is_there machine/var/backups/rooms/kept
holds 'its settings are gone' is_missing machine/etc/rooms/kept.conf
holds "and what nginx had of it" [ "$(grep -v '^ *#' "$site" | grep -c -w kept)" = 0 ]
holds 'and what the web interface was told' is_missing machine/var/lib/rooms-web/kept
holds 'not that of others' is_there machine/var/lib/rooms-web/hr
mkdir -p machine/var/lib/rooms-web/kept/mine
holds 'the start page has it no more' [ -z "$(grep kept "$start")" ]
adds kept
says 'the same room again' 0 'file /etc/rooms/kept.conf'
holds 'which shows nothing of one before' is_missing machine/var/lib/rooms-web/kept
rm -r machine/var/lib/rooms-web
removes kept
sed 's/^UNIT=.*/UNIT=archive/' machine/etc/rooms/hr.conf >machine/etc/rooms/archive.conf
refuses 'a room that was made by hand' \
  "another unit: UNIT in /etc/rooms/archive.conf is 'archive'" --remove archive
rm machine/etc/rooms/archive.conf

# A file of nginx that somebody has edited is never overwritten: a room that isn't there can't be
# shown.
cp "$site" saved
echo '# mine' >>"$site"
refuses 'an edited site' 'edited: /etc/nginx/sites-available/rooms' staff
refuses 'an edited site, and a room that goes' 'edited: /etc/nginx/sites-available/rooms' \
  --remove hr
sed -i 's/^TITLE=.*/TITLE=Staff/; s/^EARLIER=.*/EARLIER=no/' machine/etc/rooms/hr.conf
cp "$site" edited
verb setup
says 'an edited site stays' 1 'kept /etc/nginx/sites-available/rooms, which was edited'
same 'as it was' "$site" edited
holds 'what it should be is beside' [ "$(grep -c '^    hr yes;' "$site.new")" = 0 ]
says 'what differs is printed' 1 '-    hr yes;'
says 'and what somebody wrote' 1 '-# mine'
cp "$site.new" "$site"
verb setup
says 'once it is in its place' 0 'nothing to change'
adds staff
says 'rooms follow again' 0 'new file /etc/nginx/sites-available/rooms'
removes staff
# Lines of one's own have a place, which is never touched.
for folder in http.d server.d; do
  echo '# mine' >"machine/etc/rooms/nginx/$folder/mine.conf"
  holds "the site includes $folder" grep -q "include /etc/rooms/nginx/$folder/\*.conf;" "$site"
done
verb setup
says 'they are left alone' 0 'nothing to change'
cat machine/etc/rooms/nginx/*/mine.conf >got
printf '# mine\n# mine\n' >wanted
same 'they stay' got wanted
# Settings that can't be.
for wrong in PASSWORDS=ldap HOST=a_b BEHIND=maybe PORT=0 OTHER=x HOST=rooms.example \
  PASSWORDS=directory FILE=/var/lib/rooms/office.rooms; do
  cp machine/etc/rooms/hr.conf hr.conf
  printf '%s\n' "$wrong" >>machine/etc/rooms/hr.conf
  tree >before
  verb setup
  says "the setting $wrong" 2 "$(
    case $wrong in
      OTHER=*) echo 'has none of' ;;
      HOST=rooms*) echo 'host in use' ;;
      FILE=*) echo 'file in use: ' ;;
      *=directory) echo 'no directory: PASSWORDS=directory of hr has none yet' ;;
      *) echo "bad settings: ${wrong%%=*}" ;;
    esac
  )"
  tree >after
  same "the setting $wrong: nothing is changed" after before
  cp hr.conf machine/etc/rooms/hr.conf
done
cp machine/etc/rooms/site site
for wrong in 'HOSTS=' 'HOSTS=a;b' 'CERTIFICATE=/a' 'CERTIFICATE=a' 'KEY=/a b'; do
  echo "$wrong" >>machine/etc/rooms/site
  tree >before
  verb setup
  says "of the site, $wrong" 2 'bad settings'
  tree >after
  same "of the site, $wrong: nothing is changed" after before
  cp site machine/etc/rooms/site
done
rm machine/etc/nginx/sites-enabled/rooms
echo '# mine' >machine/etc/nginx/sites-enabled/rooms
refuses 'another site' 'another site' staff
rm machine/etc/nginx/sites-enabled/rooms
if has openssl; then
  openssl req -x509 -newkey ec -pkeyopt ec_paramgen_curve:P-256 -noenc -subj /CN=rooms.example \
    -keyout one.key -out one.pem \
    -addext subjectAltName=DNS:rooms.example,DNS:staff.example 2>/dev/null
  verb setup --tls one.pem one.key
  says 'a certificate' 0 'new file /etc/nginx/sites-available/rooms'
  refuses 'a host for which the certificate is not' 'no certificate' --host other.example staff
  adds --host staff.example staff
  says 'a host for which it is' 0 'new file /etc/nginx/sites-available/rooms'
else
  skip 'a host with TLS' 'openssl is missing'
fi
