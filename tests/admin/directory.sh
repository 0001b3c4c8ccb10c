# rooms-admin groups: groups of a directory, what it refuses, and an interruption at each of its
# calls.

. "$here/lib/directory.sh"
if [ "$loopback" = no ] || ! has flock || ! has setpriv || ! has setsid || ! has timeout; then
  skip 'groups of a directory' 'no loopback, or no flock, setpriv, setsid'
  return
fi
# Groups in groups, two of which are in one another; names beyond ASCII and with spaces; one who has
# left, and one without a name.
people=(alice bob carol dana jürgen 'anna maria')
if ! {
  for name in "${people[@]}"; do person "$name" x; done
  person gone x 'employeeType: gone'
  entry 'cn=nameless,ou=people,dc=example,dc=net' organizationalRole 'cn: nameless'
  group interns dana "$(group_dn sales)"
  group sales bob "$(group_dn interns)"
  group staff alice bob gone "$(group_dn sales)"
  group büro carol jürgen 'anna maria'
  group 'Human Resources' carol
  group abroad jürgen
  group guests dana
  entry cn=unix,ou=groups,dc=example,dc=net posixGroup 'cn: unix' 'gidNumber: 1000' \
    'memberUid: bob' 'memberUid: nobody' 'memberUid: gone'
  entry cn=twice,ou=groups,dc=example,dc=net posixGroup 'cn: twice' 'gidNumber: 1001'
  entry ou=more,dc=example,dc=net organizationalUnit 'ou: more'
  entry cn=twice,ou=more,dc=example,dc=net posixGroup 'cn: twice' 'gidNumber: 1002'
} | load_directory || ! start_directory; then
  skip 'groups of a directory' "${why-no slapd, ldap-utils or openssl}"
  return
fi
# slapd sets memberOf when members are set and are there, which what it was loaded with wasn't.
touch_groups() {
  local one
  for one in interns sales staff büro 'Human Resources' abroad; do
    {
      echo "dn: $(group_dn "$one")"
      printf '%s\n' 'changetype: modify' 'replace: member'
      ldapsearch -x -LLL -o ldif-wrap=no -H "ldap://127.0.0.1:$ldap" -b "$(group_dn "$one")" \
        -s base member | grep '^member:'
    } >change.ldif
    as_root_of_directory ldapmodify -f change.ldif || fail 'members are set again' "$(cat said)"
  done
}
make_stand
cp conf office.conf
sed -i 's/^KEEP=.*/KEEP=0/' office.conf
echo secret-word >secret
chmod 600 secret
where() {
  printf '%s\n' "URI=ldap://127.0.0.1:$ldap" BASE=dc=example,dc=net \
    'USERS=(&(objectClass=inetOrgPerson)(!(employeeType=gone)))' MEMBERS=member "$@"
}
where >directory
asked() { printf '%s\n' "$@" >office.groups; }
brings() { verb groups "$@" --room "$PWD/office.conf"; }
members() { as_user "$rooms" groups-out "$PWD/office/F" >got; }
stopped() { unit stop; members; unit start; }
new_office() {
  unit stop
  rm -f office/* run/* root/var/lib/rooms-web/office/members.csv
  rm -rf backups/office/2*
  as_user "$rooms" init "$PWD/office/F" root staff >/dev/null
  printf '%s\n' group,user own,erin staff,frank >members.csv
  chmod 644 members.csv
  as_user "$rooms" groups "$PWD/office/F" "$PWD/members.csv" >/dev/null
  unit start
}
has_members() { # NAME PAIR ..
  printf '%s\n' group,user "${@:2}" >wanted
  stopped
  same "$1" got wanted
}
was_stopped() { grep -q ' systemctl stop' "$stand/steps"; }
back_up() { # DATE: a backup of the room as it is
  unit stop
  mkdir "backups/office/$1"
  as_user "$rooms" dump "$PWD/office/F" >"backups/office/$1/lists.txt"
  cp office/F* "backups/office/$1"
  unit start
}
prints() { # NAME LINE ..: on standard output
  printf '%s\n' "${@:2}" >wanted
  same "$1" "$work/out" wanted
}

# Groups come in, nested ones flattened, under the names that the room gives them; the room's own
# stay.
mkdir -p -m 700 backups/office
new_office
asked 'MOST=1' 'group staff = staff' "group sales = $(group_dn sales)" 'group bureau = büro' \
  'group hr = Human Resources'
brings
says 'groups' 0 'groups 5, members 8'
prints 'the pairs that come and go' '+ bureau,carol' '+ hr,carol' '+ sales,bob' '+ sales,dana' \
  '+ staff,alice' '+ staff,bob' '+ staff,dana' '- staff,frank'
says 'a name beyond ASCII' 0 "left out of bureau: 'jürgen' can't be a user of a room"
says 'a name with a space' 0 "left out of bureau: 'anna maria' can't be a user of a room"
unit_runs 'the server runs after it'
all=(bureau,carol hr,carol own,erin sales,bob sales,dana staff,alice staff,bob staff,dana)
has_members 'they are the members' "${all[@]}"
holds 'nothing is left in the folder' [ -z "$(ls office | grep groups)" ]
holds 'nothing is owed' [ -z "$(ls run)" ]
holds 'the web interface offers them at once' \
  grep -qF '"groups":{"bureau":[],"hr":[],"own":[],"sales":[],"staff":[]}' \
  root/var/lib/rooms-web/office/people.json
brings
says 'the same again' 0 ''
holds 'says only who is left out' [ ! -s "$work/out" ]
holds 'and does not stop the server' eval '! was_stopped'
holds 'and sends no message' [ ! -s "$stand/messages" ]

rm root/var/lib/rooms-web/office/members.csv
brings --dry-run
says 'a look before there is a backup' 0 "what rooms has isn't known"
printf '+ %s\n' "${all[@]}" | grep -v own, >wanted
same 'prints all that the directory has' "$work/out" wanted
brings
says 'a run without a backup' 0 ''
# One joins, one leaves: seen first, then done.
change() { # GROUP add|delete NAME
  {
    echo "dn: $(group_dn "$1")"
    printf '%s\n' 'changetype: modify' "$2: member" "member: uid=$3,ou=people,dc=example,dc=net"
  } >change.ldif
  as_root_of_directory ldapmodify -f change.ldif || fail "a change of the directory" "$(cat said)"
}
change interns add carol
change staff delete alice
brings --dry-run
says 'what would change' 0 ''
prints 'is printed' '+ sales,carol' '+ staff,carol' '- staff,alice'
holds 'without a stop' eval '! was_stopped'
has_members 'and is not done' "${all[@]}"
back_up 2020-01-01.030000
brings
says 'what changes' 0 'groups 5, members 9'
all=(bureau,carol hr,carol own,erin sales,bob sales,carol sales,dana staff,bob staff,carol
  staff,dana)
has_members 'is done' "${all[@]}"

# A restore brings back who has left. A later backup doesn't know of it, so a run looks into the
# room, and the next one needn't.
back_up 2020-01-02.030000
unit stop
verb restore --room "$PWD/office.conf" 2020-01-01.030000
says 'a restore' 0 'restored '
unit start
brings --dry-run
says 'a look after it' 0 'compared with the backup 2020-01-02.030000: this file of the room is new'
brings
says 'a run after it' 0 'groups 5, members 9'
prints 'takes away who has left' '+ sales,carol' '+ staff,carol' '- staff,alice'
holds 'for which the server was stopped' was_stopped
unit_runs 'the server runs after that'
has_members 'the directory counts after a restore' "${all[@]}"
brings
holds 'and the next run has nothing to do' [ "$status" = 0 -a ! -s "$work/out" ]
holds 'for which it stops nothing' eval '! was_stopped'
# What is refused after a restore is read from the room once.
unit stop
verb restore --room "$PWD/office.conf" 2020-01-01.030000
says 'another restore' 0 'restored '
unit start
asked 'MOST=0' 'group staff = staff'
brings
says 'too much after a restore' 2 'too much: 1 pairs would go'
holds 'is read from the room' was_stopped
brings
says 'is refused again' 2 'too much: 1 pairs would go'
holds 'without another stop' eval '! was_stopped'
asked 'MOST=1' 'group staff = staff' "group sales = $(group_dn sales)" 'group bureau = büro' \
  'group hr = Human Resources'
brings
says 'and then done' 0 'groups 5, members 9'
rm -r office/before-restore.* backups/office/2020*

# What somebody has changed by hand is seen when a backup is newer.
printf '%s\n' group,user own,erin sales,zoe >members.csv
unit stop
as_user "$rooms" groups "$PWD/office/F" "$PWD/members.csv" >/dev/null
unit start
brings
holds 'a change by hand is not known yet' [ "$status" = 0 -a ! -s "$work/out" ]
mkdir backups/office/2099-01-01.030000
cp office/F backups/office/2099-01-01.030000/
printf 'member own erin\nmember sales zoe\n' >backups/office/2099-01-01.030000/lists.txt
touch -d '1 hour' backups/office/2099-01-01.030000/lists.txt
brings
says 'and is, after a night' 0 'groups 5, members 9'
rm -r backups/office/2099*
has_members 'the directory counts' "${all[@]}"

# Who would be somebody else in the room, since the directory spells the name in another way.
brings --names
says 'names without a backup' 2 'no backup yet'
cp members.csv members.before
printf '%s\n' group,user Carol,bob own,erin staff,DANA >members.csv
unit stop
as_user "$rooms" groups-out "$PWD/office/F" >got
as_user "$rooms" groups "$PWD/office/F" "$PWD/members.csv" >/dev/null
printf '%s\n' list:a D:fd:BOB:r A:fdg:CAROL:rx A:fd:ERIN:rx A::EVERYONE@:x |
  as_user "$rooms" reset "$PWD/office/F" / dacl >/dev/null
back_up 2020-01-01.030000
printf '%s\n' 'document Alice Bob 5 /Carol' dacl list:a sacl list:a \
  >>backups/office/2020-01-01.030000/lists.txt
unit stop
cp got members.csv
as_user "$rooms" groups "$PWD/office/F" "$PWD/members.csv" >/dev/null
unit start
brings --names
says 'names' 0 ''
prints 'in other capitals' 'Alice: the directory has alice' 'BOB: the directory has bob' \
  'DANA: the directory has dana'
holds 'without a stop' eval '! was_stopped'
rm -r backups/office/2020*
mv members.before members.csv

# memberOf, and groups of names alone.
touch_groups
where MEMBERS=memberOf >directory
brings
says 'by memberOf the same' 0 ''
holds 'nothing changes by it' [ ! -s "$work/out" ]
where MEMBERS=memberUid >directory
asked 'group unix = unix'
brings
says 'names alone' 0 '+ unix,bob'
where >directory

# Refused, or failed: no member is changed, and the server runs.
unchanged() { # NAME STATUS TEXT
  says "$1" "$2" "$3"
  unit_runs "$1: the server runs"
  holds "$1: it was not stopped" eval '! was_stopped'
  holds "$1: nothing is owed" [ -z "$(ls run)" ]
  holds "$1: there is a mail" \
    grep -q '^mail -s rooms on .*: groups of the directory failed root$' "$stand/messages"
  holds "$1: which says so" grep -qF -e "$3" "$stand/messages"
}
members_before() { stopped; cp got before; }
members_before
asked 'group staff = nothere'
brings
unchanged 'a group that is not there' 2 "no group: the directory has 0 groups 'nothere'"
brings --dry-run
says 'a look' 2 "no group: the directory has 0 groups 'nothere'"
holds 'is no mail' [ ! -s "$stand/messages" ]
echo mail >"$stand/no-tool"
brings
rm "$stand/no-tool"
holds 'without mail it is in the log' grep -qF -e \
  "logger -p daemon.err -t rooms-admin-groups -- no group: the directory has 0 groups 'nothere'" \
  "$stand/messages"
asked "group staff = $(group_dn nothere)"
brings
unchanged 'a DN that is not there' 2 'no group: the directory has no'
asked 'group staff = twice'
brings
unchanged 'a name of two groups' 2 "2 groups 'twice'"
asked 'group staff = *'
brings
unchanged 'a star is no pattern' 2 "0 groups '*'"
asked 'group staff = nothere' 'group sales = *'
brings
unchanged 'none of two' 2 "no group: the directory has 0 groups '*'"
holds 'both are named' grep -qF -e \
  "staff stays as it is: no group: the directory has 0 groups 'nothere'" "$stand/messages"
asked 'group abroad = abroad'
brings
unchanged 'a group without a member' 2 'empty: abroad would have no member; --force'
asked 'MOST=0' 'group staff = staff' 'group sales = Human Resources'
brings
unchanged 'too much would go' 2 'too much: 2 pairs would go, and MOST is 0'
brings --dry-run
says 'of which a dry run shows the pairs, and says so' 2 'too much: 2 pairs would go, and MOST is 0'
holds 'both of them' [ "$(grep -c '^- ' "$work/out")" = 2 ]
asked 'group staff = staff' 'group bad name = sales'
brings
unchanged 'a group that no room has' 2 "'bad name' can't be a group of a room"
asked 'MOST=many' 'group staff = staff'
brings
unchanged 'a limit that is none' 2 'MOST in'
asked 'rm -rf /'
brings
unchanged 'a line of another kind' 2 "is neither 'group NAME = WHAT'"
: >office.groups
brings
unchanged 'no group' 2 'names no group'
rm office.groups
brings
unchanged 'no settings' 2 'no settings'
asked 'group staff = staff'
where BASE=dc=other,dc=net >directory
brings
unchanged 'another base' 1 'the directory failed: '
where 'BIND=cn=root,dc=example,dc=net' "SECRET=$PWD/secret" >directory
brings
unchanged 'a wrong password' 1 'Invalid credentials'
where 'USERS=(objectClass=nothing)' >directory
brings
unchanged 'no users' 2 'empty: staff'
where 'USERS=(objectClass=inetOrgPerson' >directory
brings
unchanged 'a filter that is none' 2 'bad settings: USERS'
where 'USERS=(&(objectClass=inetOrgPerson)' >directory
brings
unchanged 'half a filter' 1 'Bad search filter'
rm directory
brings
unchanged 'no directory is named' 2 'no settings'
where WAIT=2 >directory
kill -STOP "$slapd"
brings
unchanged 'a directory that hangs' 1 'the directory failed: no answer within 2 seconds'
# Nor is the room locked meanwhile by a run that has to start a server first.
: >run/rooms-directory.rooms
(brings) &
run=$!
until [ ! -e run/rooms-directory.rooms ] || [ ! -d "/proc/$run" ]; do sleep 0.05; done
holds 'nobody waits for a run that waits for it' flock -w 1 run/.rooms-admin/rooms true
holds 'which still does' [ -d "/proc/$run" ]
wait "$run"
kill -CONT "$slapd"
stop_directory
brings
unchanged 'a directory that is down' 1 "Can't contact LDAP server"
start_directory
where >directory
for words in '--other' '--after --dry-run' '--names --force' '--names --after' 'a b'; do
  # shellcheck disable=SC2086
  verb groups $words
  says "the words '$words'" 2 'bad arguments'
done
stopped
same 'no member is changed by any of them' got before
asked 'MOST=0' 'group staff = staff' 'group sales = Human Resources' 'group abroad = abroad'
brings --force
says 'what is meant' 0 '- sales,bob'
has_members 'is done' bureau,carol hr,carol own,erin sales,carol staff,bob staff,carol staff,dana \
  unix,bob
asked 'MOST=9' 'group staff = Human Resources'

# A group that was renamed in the directory stays as it is, whoever left another one goes, and the
# renamed one is named.
rename_group() { # CN CN: the entry stays what it is, under another name
  printf '%s\n' "dn: $(group_dn "$1")" 'changetype: modrdn' "newrdn: cn=$2" 'deleteoldrdn: 1' \
    >change.ldif
  as_root_of_directory ldapmodify -f change.ldif || fail 'a group gets another name' "$(cat said)"
}
asked 'MOST=9' 'group staff = staff' "group guests = $(group_dn guests)" \
  'group hr = Human Resources'
brings
says 'three groups' 0 'members '
rename_group guests visitors
rename_group 'Human Resources' People
change interns delete carol
brings --dry-run
says 'a look at renamed groups' 1 \
  "guests stays as it is: no group: the directory has no '$(group_dn guests)'"
prints 'shows the others' '- staff,carol'
holds 'and is no mail' [ ! -s "$stand/messages" ]
brings
says 'groups that were renamed' 1 \
  "guests stays as it is: no group: the directory has no '$(group_dn guests)'"
says 'each of them' 1 "hr stays as it is: no group: the directory has 0 groups 'Human Resources'"
prints 'the others are taken' '- staff,carol'
holds 'a mail names them' \
  [ "$(grep -c '^[a-z]* stays as it is: no group: ' "$stand/messages")" = 2 ]
unit_runs 'the server runs after renamed groups'
has_members 'whoever left has left, and the renamed ones are as they were' bureau,carol \
  guests,dana hr,carol own,erin sales,carol staff,bob staff,dana unix,bob
change interns add carol
rename_group visitors guests
rename_group People 'Human Resources'
brings
says 'under their old names' 0 '+ staff,carol'
asked 'MOST=9' 'group staff = Human Resources'
# The server fails to start, or the import fails: the status says so, and the server runs.
asked 'MOST=9' 'group staff = Human Resources'
echo groups >"$stand/no-word"
brings
says 'an import that fails' 1 'groups failed'
rm "$stand/no-word"
unit_runs 'an import that fails: the server runs'
asked 'MOST=9' 'group staff = Human Resources'
echo groups-out >"$stand/no-word"
brings
says 'members that can not be read' 1 'groups-out failed'
rm "$stand/no-word"
unit_runs 'members that can not be read: the server runs'
: >"$stand/no-start"
brings
says 'a server that does not start' 1 "doesn't start"
holds 'is in a mail' grep -qF -e "rooms doesn't start" "$stand/messages"
rm "$stand/no-start"
verb groups --after --room "$PWD/office.conf"
says 'is started after it' 1 'interrupted'
holds 'which is in a mail' \
  grep -qF -e 'interrupted: a run that had stopped rooms was cut off' "$stand/messages"
unit_runs 'a second start'
unit stop
asked 'group staff = staff'
brings
says 'a server that somebody stopped' 0 'groups '
unit_rests 'stays so'
unit start

# An interruption at each call, alone and followed by what the unit does after each run.
for how in TERM KILL; do
  stopped
  for number in {1..60}; do
    if [ "$(grep -c '^staff,' got)" = 1 ]; then
      group=staff wanted='bob carol dana '
    else
      group='Human Resources' wanted='carol '
    fi
    asked 'MOST=9' "group staff = $group"
    cut_off "$how" "$number" brings || break
    unit_goes_on "$name"
    verb groups --after --room "$PWD/office.conf"
    unit_runs "$name, and after"
    holds "$name: nothing is owed" [ -z "$(ls run)" ]
    holds "$name: nothing is left in the folder" [ -z "$(ls office | grep groups)" ]
    # What is known of a run that was cut off is never wrong: the next one does what is left.
    brings
    stopped
    holds "$name: the next run has all members" \
      [ "$(sed -n 's/^staff,//p' got | tr '\n' ' ')" = "$wanted" ]
  done
  holds "$how: the calls came to an end" [ "$number" -gt 5 -a "$number" -lt 60 ]
done
brings
holds 'a run after all' [ "$status" = 0 ]

# Ten thousand members.
stop_directory
rm -rf entries entries.ldif
ldap=
{ for ((n = 10000; n < 20000; n++)); do person "user$n" x; done
  echo "dn: $(group_dn all)"; printf '%s\n' 'objectClass: groupOfNames' 'cn: all'
  for ((n = 10000; n < 20000; n++)); do echo "member: uid=user$n,ou=people,dc=example,dc=net"; done
  echo; } | load_directory && start_directory || fail 'ten thousand members' "${why-}"
where >directory
asked 'MOST=9' 'group all = all'
began=$SECONDS
brings
says 'ten thousand members' 0 'members '
holds "come in within a minute: $((SECONDS - began)) s" [ $((SECONDS - began)) -le 60 ]
stopped
holds 'all of them' [ "$(grep -c '^all,user1[0-9][0-9][0-9][0-9]$' got)" = 10000 ]
asked 'MOST=9' 'group all = all' 'group more = all' 'group most = all'
brings
unchanged 'more than a room takes' 2 'too many: '
unit_runs 'the server runs'
stop_others
