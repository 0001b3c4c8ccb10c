# rooms-admin set: the one way by which settings are written. It needs no room: what it writes is
# looked at as other verbs do.

if [ ! -x /usr/bin/python3 ]; then
  skip 'settings' '/usr/bin/python3 is missing'
  return
fi
conf=machine/etc/rooms/office.conf
mkdir -p machine/etc/rooms
printf '%s\n' '# a comment' FILE=/var/lib/rooms/office.rooms BACKUPS=/var/backups/rooms KEEP=30 \
  '# of KEEP' KEEP=7 TITLE=office HOURS=0 >$conf
printf '%s\n' TITLE=Bills ON=b.example PORT=8443 >machine/etc/rooms/bills.on
printf '%s\n' HOSTS=rooms.example CERTIFICATE= KEY= >machine/etc/rooms/site
# What a room on another machine needs.
mkdir machine/etc/rooms/machines
touch machine/etc/rooms/machines/{front.pem,front.key,authority.pem}
chmod 640 $conf
sets() { # WORD ..
  "$repo/admin/rooms-admin" set --destdir "$PWD/machine" "$@" >"$work/out" 2>"$work/err" </dev/null
  status=$?
}
is() { # NAME FILE LINE ..
  printf '%s\n' "${@:3}" >wanted
  same "$1" "machine/etc/rooms/$2" wanted
}
first=('# a comment' FILE=/var/lib/rooms/office.rooms BACKUPS=/var/backups/rooms KEEP=30
  '# of KEEP')

sets KEEP=14
told 'a setting' 0 'new file /etc/rooms/office.conf, with KEEP=14'
is 'stands where its last line was' office.conf "${first[@]}" KEEP=14 TITLE=office HOURS=0
holds 'in a file of the mode that it had' [ "$(stat -c %a $conf)" = 640 ]
holds 'and is read at the next run' [ "$(grep -c 'counts after' "$work/out")" = 0 ]
sets KEEP=14
told 'the same again' 0 'nothing to change'
sets --dry-run KEEP=3 DRIVE=yes
told 'what would be done' 0 'would: new file /etc/rooms/office.conf, with KEEP=3, DRIVE=yes' \
  'it counts after: rooms-admin setup; systemctl restart rooms-door@office'
is 'is not done' office.conf "${first[@]}" KEEP=14 TITLE=office HOURS=0
sets DRIVE=yes 'TITLE=Our office = ours' KEEP=14
told 'several' 0 'with DRIVE=yes, TITLE=Our office = ours' \
  'it counts after: rooms-admin setup; systemctl restart rooms-door@office'
is 'of which one is new' office.conf "${first[@]}" KEEP=14 'TITLE=Our office = ours' HOURS=0 \
  DRIVE=yes
sets PEOPLE=no
told 'no names for users' 0 'it counts after: rooms-admin people; rooms-admin mine'
sets PEOPLE=names
told 'and names again' 0 'with PEOPLE=names'
sed -i /^PEOPLE=/d $conf
sets HOURS=24
told 'hourly copies, whose timer is off' 0 \
  'it counts after: systemctl enable --now rooms-standby@office.timer'
sets HOURS=0 SEARCH_SCANS=5
told 'scans' 0 'it counts after: rooms-admin setup'
sets SEARCH_SCANS=0
sed -i /^SEARCH_SCANS/d $conf
sets LIMIT=300
told 'a limit' 0 'it counts after: systemctl restart rooms-full@office'
sets SEARCH=yes
told 'a search, which the door has from its start' 0 \
  'it counts after: rooms-admin setup; systemctl restart rooms-door@office'
sets LIMIT= DRIVE=no SEARCH=no
told 'none any more' 0 'with LIMIT=, DRIVE=no, SEARCH=no'
cp $conf before
for wrong in \
  'no such name;KEP=3;no setting: /etc/rooms/office.conf has no KEP; did you mean KEEP?' \
  "no value;KEEP;bad arguments: 'KEEP' isn't NAME=VALUE" \
  "a bad one;KEEP=-1;bad settings: KEEP in /etc/rooms/office.conf isn't a number of nights" \
  "half of one;KEEP=1 nights 8 weeks;bad settings: KEEP in /etc/rooms/office.conf isn't" \
  'a quote that goes on;TITLE="x;goes on in the next one for systemd' \
  'a backslash at the end;TITLE=x\;goes on in the next one for systemd' \
  'one of two;REVIEW=/audit;REVIEW and REVIEWER in /etc/rooms/office.conf need one another' \
  'what says nothing any more;DOOR=yes;no setting: /etc/rooms/office.conf has no DOOR'; do
  IFS=';' read -r name value text <<<"$wrong"
  sets "$value"
  told "$name" 2 "$text"
  same "$name: nothing is changed" $conf before
done
sets KEEP=3 KEEP=4
told 'one twice' 2 'bad arguments: KEEP stands twice'
sets $'TITLE=x\nPROGRAM=/tmp/x'
told 'two lines' 2 "isn't NAME=VALUE"
same 'nothing is changed' $conf before
sets REVIEW=/audit REVIEWER=alice
told 'both of two' 0 'with REVIEW=/audit, REVIEWER=alice'
# What setup would refuse isn't written, with who is asked for passwords before anybody is set up.
cp $conf before
sets PASSWORDS=directory
told 'a directory that nobody has set up' 2 'no directory: PASSWORDS=directory of office has none' \
  'docs/directory.md, and then rooms-admin setup --directory /etc/rooms/directory'
same 'nothing is changed' $conf before
sets --dry-run PASSWORDS=directory
told 'nor would be' 2 'no directory: PASSWORDS=directory of office has none'
sets PASSWORDS=session
told 'sessions without TLS' 2 'PASSWORDS=session in ' 'needs TLS'
sets --site CERTIFICATE=/etc/ssl/rooms.pem KEY=/etc/ssl/rooms.key
told 'TLS' 0 'it counts after: rooms-admin setup'
sets PASSWORDS=session
told 'sessions of nobody' 2 'no sessions: PASSWORDS=session of office has none yet' \
  '/etc/rooms/session.apache and its unit first, as docs/directory.md has them'
same 'nor are they written' $conf before
touch machine/etc/rooms/{session,directory}.apache
sets PASSWORDS=session
told 'sessions' 0 'new file /etc/rooms/office.conf, with PASSWORDS=session'
sets --site CERTIFICATE= KEY=
told 'no TLS any more, while there are some' 2 'PASSWORDS=session in ' 'needs TLS'
sets PASSWORDS=directory
told 'a directory' 0 'new file /etc/rooms/office.conf, with PASSWORDS=directory'
rm machine/etc/rooms/session.apache
sets --site CERTIFICATE= KEY=
told 'and without TLS' 0 'it counts after: rooms-admin setup'
# What one room alone can have, and what none can.
printf '%s\n' FILE=/var/lib/rooms/hr.rooms BACKUPS=/b PORT=8790 >machine/etc/rooms/hr.conf
printf '%s\n' FILE=/var/lib/rooms/old.rooms BACKUPS=/b UNIT=old >machine/etc/rooms/old.conf
cp $conf before
for wrong in \
  "another room's file;FILE=/var/lib/rooms/hr.rooms;file in use: ;hr.conf has /var/lib/rooms/hr.r" \
  "also by another way;FILE=/var/lib/rooms/./hr.rooms;file in use: ;office.conf has to be another" \
  "or of a unit of one's own;FILE=/var/lib/rooms/old.rooms;file in use: ;old.conf has to be anoth" \
  "another room's unit;UNIT=rooms@hr;unit in use: ;has rooms@hr too, and UNIT in " \
  "the port of nginx;PORT=443;bad settings: PORT in ;isn't one of 8780 to 8998, which the firew" \
  "that of an Apache;PORT=8778;bad settings: PORT in ;isn't one of 8780 to 8998" \
  "another room's port;PORT=8790;port in use: ;hr.conf has 8790" \
  "addresses without commas;MAIL=a@office b@office;bad settings: MAIL in ;isn't addresses with co" \
  "no day;EARLIER_FROM=2026-13-40;bad settings: EARLIER_FROM in ;isn't a day or the name of a b" \
  "no time;EARLIER_FROM=2026-11-20.990000;bad settings: EARLIER_FROM in ;isn't a day or the n"; do
  IFS=';' read -r name value text more <<<"$wrong"
  sets "$value"
  told "$name" 2 "$text" "$more"
  same "$name: nothing is changed" $conf before
done
sed '$ a UNIT=rooms@office' $conf >machine/etc/rooms/copy-of-office.conf
sets PORT=8998 EARLIER_FROM=2026-11-20.030000
told 'what can be' 0 'with PORT=8998, EARLIER_FROM=2026-11-20.030000'
sets PORT= EARLIER_FROM=
told 'or nothing' 0 'with PORT=, EARLIER_FROM='
rm machine/etc/rooms/{hr,old,copy-of-office}.conf
# By hand anything is written: what mends one of two things is taken, and says the other.
echo HOST=rooms.example >>$conf
sets DRIVE=yes
told 'what was refused before' 0 'host in use: HOST in '
sets HOST= DRIVE=no PASSWORDS=
told 'mended' 0 'new file /etc/rooms/office.conf'
sets --room bills PASSWORDS=directory
told 'a room elsewhere' 0 'new file /etc/rooms/bills.on, with PASSWORDS=directory' \
  'it counts after: rooms-admin setup'
sets --room bills KEEP=3
told 'which has other settings' 2 'no setting: /etc/rooms/bills.on has no KEEP: the room bills' \
  ' is on b.example; there: rooms-admin set '
cp machine/etc/rooms/bills.on before
sets --room bills ON=10.0.0.2
told 'an address, which no certificate is for' 2 "ON in " "isn't a machine's name in a network"
same 'nor written' machine/etc/rooms/bills.on before
for wrong in 1.2.3 10.0.0.256 '[10.0.0.2]' :: '[::1' 'a.example ::g' ..; do
  case $wrong in ::) text='new file /etc/rooms/site' wants=0 ;; *) text='HOSTS in ' wants=2 ;; esac
  sets --site --dry-run "HOSTS=$wrong"
  told "the site's name $wrong" "$wants" "$text"
done
sets --room none KEEP=3
told 'no room' 2 "no settings: /etc/rooms/none.conf isn't there"
sets --site 'HOSTS=docs.example rooms.example'
told 'the site' 0 'it counts after: rooms-admin setup'
is 'has its own' site 'HOSTS=docs.example rooms.example' CERTIFICATE= KEY=
sets HOST=rooms.example
told 'a host that is in use' 2 'host in use: HOST in '
sets HOST=
told 'as it was' 0 'nothing to change'
holds 'of which nothing is said' [ ! -s "$work/err" ]
sets --site CERTIFICATE=/etc/ssl/rooms.pem
told 'half a pair' 2 'CERTIFICATE and KEY in /etc/rooms/site need one another'
sets --site --room office KEEP=3
told 'both' 2 'not allowed with argument'
holds 'nothing else is left' \
  [ "$(cd machine/etc/rooms && echo *.*)" = 'bills.on directory.apache office.conf' ]
holds 'nor hidden' [ -z "$(find machine -name '.*')" ]

# Where no backup can come, it is said now, and not at night.
mkdir place store run
printf '%s\n' "FILE=$PWD/place/F" "BACKUPS=$PWD/store" "PROGRAM=$rooms" UNIT=rooms >own.conf
ROOMS_RUN=$PWD/run "$repo/admin/rooms-admin" set --dry-run --room "$PWD/own.conf" \
  "BACKUPS=$PWD/none" >"$work/out" 2>"$work/err" </dev/null
status=$?
told 'what would be no folder' 2 "no folder: $PWD/none, of BACKUPS in "
mkdir shared other
chmod 777 shared
cp own.conf before
for wrong in "BACKUPS=$PWD/none;no folder: $PWD/none, of BACKUPS in " \
  "BACKUPS=$PWD/shared;not root's: others can change $PWD/shared" \
  "STANDBY=$PWD/none;no folder: $PWD/none, of STANDBY in " \
  "FILE=$PWD/place;no file: $PWD/place, of FILE in " "FILE=$PWD/place/;no file: "; do
  ROOMS_RUN=$PWD/run "$repo/admin/rooms-admin" set --room "$PWD/own.conf" "${wrong%%;*}" \
    >"$work/out" 2>"$work/err" </dev/null
  status=$?
  told "what can't work, ${wrong%%;*}" 2 "${wrong#*;}"
  same "isn't written, ${wrong%%;*}" own.conf before
done
ROOMS_RUN=$PWD/run "$repo/admin/rooms-admin" set --room "$PWD/own.conf" "BACKUPS=$PWD/other" \
  "STANDBY=$PWD/store" >"$work/out" 2>"$work/err" </dev/null
status=$?
told 'folders that are there' 0 "with BACKUPS=$PWD/other, STANDBY=$PWD/store"
holds 'a folder that is there is no news' [ ! -s "$work/err" ]

# Nor does a server start by a mistyped place, after the restart that the verb asks for.
cp own.conf before
for wrong in "FILE=$PWD/palce/F;no folder: $PWD/palce, of FILE in " \
  "PROGRAM=$rooms.not;no program: $rooms.not, of "; do
  ROOMS_RUN=$PWD/run "$repo/admin/rooms-admin" set --room "$PWD/own.conf" "${wrong%%;*}" \
    >"$work/out" 2>"$work/err" </dev/null
  status=$?
  told "a mistyped ${wrong%%=*}" 2 "${wrong#*;}"
  same "which isn't written" own.conf before
done
ROOMS_RUN=$PWD/run "$repo/admin/rooms-admin" set --room "$PWD/own.conf" "FILE=$PWD/place/E" \
  >"$work/out" 2>"$work/err" </dev/null
status=$?
told 'a file that comes later' 0 "no file: $PWD/place/E isn't there"

# A port that another program has.
sed -i 's/^UNIT=.*/UNIT=/' own.conf
cp own.conf before
python3 -m http.server --bind 127.0.0.1 8993 >/dev/null 2>&1 &
until (: </dev/tcp/127.0.0.1/8993) 2>/dev/null; do sleep 0.1; done
for words in --dry-run ''; do
  # shellcheck disable=SC2086
  ROOMS_RUN=$PWD/run "$repo/admin/rooms-admin" set $words --room "$PWD/own.conf" PORT=8993 \
    >"$work/out" 2>"$work/err" </dev/null
  status=$?
  told "a port of another program $words" 2 'port in use: something listens at 127.0.0.1:8993'
  same "which isn't written $words" own.conf before
done
kill %1
wait

# Whoever reads the first lines alone ends nothing.
mkdir -p unread/etc/rooms
printf '%s\n' FILE=/F BACKUPS=/b KEEP=1 >unread/etc/rooms/office.conf
{
  sleep 0.3
  "$repo/admin/rooms-admin" set --destdir "$PWD/unread" KEEP=2 HOURS=3 </dev/null 2>&1
  echo "$?" >status
} | true
holds 'a change that nobody reads' [ "$(cat status)" = 0 ]
holds 'is done whole' \
  [ "$(tail -n 2 unread/etc/rooms/office.conf | tr '\n' ' ')" = 'KEEP=2 HOURS=3 ' ]

# Nor does whoever closes a standard stream: what is opened next isn't taken for it, and a verb that
# had something to print ends with 1.
admin() { "$repo/admin/rooms-admin" "$@"; }
closed() { # STREAMS STATUS WORD ..: with these streams closed, of i, o, e
  local name="closed: $1 of $3"
  (
    exec >"$work/out" 2>"$work/err" </dev/null
    case $1 in *i*) exec <&- ;; esac
    case $1 in *o*) exec >&- ;; esac
    case $1 in *e*) exec 2>&- ;; esac
    admin "${@:3}"
  )
  status=$?
  holds "$name: status $status" [ "$status" = "$2" ]
  holds "$name: no traceback" [ "$(cat "$work/out" "$work/err" | grep -c Traceback)" = 0 ]
}
for streams in i o e io ie oe ioe; do
  case $streams in *o*) lost=1 ;; *) lost=0 ;; esac
  closed "$streams" $lost help set
  closed "$streams" $lost set --destdir "$PWD/unread" --dry-run KEEP=9
  closed "$streams" 2 set --destdir "$PWD/unread" KEEP=x
  closed "$streams" 1 doctor --program "$rooms" "$PWD/none/F"
  closed "$streams" 2 user add eve --room "$PWD/none.conf"
  closed "$streams" 2 list set / --room "$PWD/none.conf"
  ROOMS_SETTINGS=$PWD/none closed "$streams" 2 check
done
closed o 1 help set
told 'which is said' 1 'failed: standard output is closed, so nobody has what was printed'
