# What pages tell an administrator to paste beside people, pasted: what comes back out of a backup,
# an upgrade, odd names, files of a Windows server, records that go, and what comes out without the
# program.

. "$here/lib/pasted.sh" || return
bin/systemctl stop rooms
printf 'group,user\nstaff,a.bob\nsales,carol\nsales,dana\n' >members.csv
gives 'the members' 0 'groups 2, members 3\n' '' groups room/office.rooms members.csv
bin/systemctl start rooms
answers 'a document of alice' ' 204' \
  alice PUT /attr/letters/reply '{"group":"staff","owner":"alice"}'

mkdir backups/office/2026-11-20.040000

# Documents out of a backup: one is changed meanwhile, and comes back.
for name in b e; do answers "the folder $name" ' 201' alice POST "/folder/letters/$name"; done
for name in a%20%C3%BC b/c d e/f; do
  answers "the document $name" ' 201' alice PUT "/doc/letters/$name" 'then'
done
bin/systemctl stop rooms
cp room/office.rooms* backups/office/2026-11-20.040000/
bin/systemctl start rooms
answers 'it is overwritten' ' 204' alice PUT /doc/letters/reply 'Dear Madam'
paste_in "$(blocks backup.md 'rooms-admin get 2026')"
prints 'one document out of a backup' 'made 0, replaced 1, there already 1, left out 0'
answers 'is the old one' 'Dear Sir 200' alice GET /doc/letters/reply
mkdir none
paste_in "cd $PWD/none && $(blocks backup.md '>back/' | sed 's#/letters/reply >#/letters/none >#')"
holds 'one that is not in it' [ "$status" != 0 -a ! -s "$work/out" -a ! -s none/back/reply ]
answers 'replaces nothing' 'Dear Sir 200' alice GET /doc/letters/reply
answers 'of the same owner' '{"group":"staff","kind":"document","owner":"alice"} 200' \
  alice GET /attr/letters/reply

# Only what bob changed, by nginx's log: what carol wrote stays, and what bob was refused.
for name in 'a ü' b/c d; do
  answers "the change of $name" ' 204' alice PUT "/doc/letters/${name// ü/%20%C3%BC}" now
done
answers 'a folder goes' ' 204' alice DELETE /object/letters/e/f
answers 'with what was in it' ' 204' alice DELETE /object/letters/e
mkdir log
log_line() { echo "192.0.2.7 - $1 [01/Dec/2026:10:00:00 +0000] \"$2\" $3 0"; } # USER REQUEST STATUS
{ log_line bob 'PUT /drive/letters/a%20%C3%BC' 204 && log_line carol 'PUT /doc/letters/b/c' 204 &&
  log_line bob 'PUT /doc/letters/d' 403; } >log/access.log
# (Whoever did it chose the names.)
{ log_line bob 'DELETE /drive/letters/e' 204 && log_line bob 'PUT /door/doc/letters/new' 201 &&
  log_line bob 'PUT /doc/letters/-dash' 201; } |
  gzip >log/access.log.2.gz
paste_in "cd $PWD/none && $(blocks security.md zcat | sed "s#/var/log/nginx#$PWD/log#")"
prints 'what one account changed' 'folders 3, documents 5, left out 0' \
  'made 2, replaced 1, there already 1, left out 0'
holds 'and what is newer' grep -q "cannot stat 'new'" "$work/err"
holds 'a name like an option too' grep -q "cannot stat '-dash'" "$work/err"
for name in 'a ü:then' b/c:now d:now e/f:then; do
  path=${name%:*}
  answers "$path is of ${name#*:}" "${name#*:} 200" \
    alice GET "/doc/letters/${path// ü/%20%C3%BC}"
done
for path in a%20%C3%BC b/c b d e/f e; do
  answers "$path goes again" ' 204' alice DELETE "/object/letters/$path"
done

# An upgrade: a backup, the new files, the restart; the earlier files; the earlier room.
mkdir -p deploy run
printf '#!/usr/bin/env bash\nexec "%s/../deploy/install" --destdir "%s/machine" --program "%s" "$@"\n' \
  "$here" "$PWD" "$rooms" >deploy/install
chmod 755 deploy/install
stand_in nginx <<'END'
END
stand_in rooms-restore <<END
exec "$repo/admin/rooms-admin" restore --room "$PWD/root/etc/rooms/office.conf" "\$@"
END
rm -rf backups/office/2026-11-20.040000*
export ROOMS_RUN=$PWD/run
if has flock; then
  paste_in "$(blocks upgrading.md 'start rooms-nightly')"
  backup=$(ls -d "$PWD"/backups/office/*)
  prints 'a backup before an upgrade' "$backup"
  holds 'has the room' [ -s "$backup/office.rooms" ]
  paste_in "$(blocks people.md 'rooms-admin lists /letters')"
  prints 'the list of that night' list:a "A:fdI:alice:$ALL" A:fdgI:staff:rwaxtc
  paste_in "$(blocks people.md 'rooms-admin who /letters')"
  prints 'who can read a folder' \
    'a.bob  rwaxtc  remove  by A:fdgI:staff:rwaxtc, A:fdg:staff:rwaxtc of /' \
    "alice  $ALL  remove  by A:fdI:alice:$ALL" 'every other name  nothing' \
    'a caller without a name  nothing' 'group staff: a.bob'
  paste_in "$(blocks lists.md 'rooms-admin would set')"
  cp "$work/out" got
  blocks lists.md 'by the night' | sed "s/by the night .*:/by the night ${backup##*/}:/" >wanted
  same 'who would lose by a list' got wanted
else
  skip 'a backup before an upgrade' 'no flock'
  backup=
fi
paste_in "$(blocks operating.md 'deploy/install')"
holds 'the new files' cmp -s machine/usr/local/bin/rooms "$rooms"
paste_in "$(blocks upgrading.md 'rooms-admin check')
$(blocks upgrading.md 'nginx -t')"
holds "the new program serves: $(head -c 300 "$work/out")" \
  grep -q '^rooms OK - office: answers, ' "$work/out"
answers 'what was there before' 'Dear Sir 200' alice GET /doc/letters/reply
echo '# older' >>machine/usr/local/sbin/rooms-admin
paste_in "$(blocks operating.md 'deploy/install')"
same 'the files of the version before' machine/usr/local/sbin/rooms-admin \
  "$repo/admin/rooms-admin"
paste_in "$(blocks upgrading.md "systemctl restart 'rooms" | tail -n 1)"
prints_nothing() {
  if [ "$status" = 0 ] && [ ! -s "$work/out" ]; then pass; else fail "$1" "status $status"; fi
}
prints_nothing 'its program runs'
answers 'on the same room' 'Dear Sir 200' alice GET /doc/letters/reply
if [ -n "$backup" ]; then
  answers 'a change after the backup' ' 204' alice PUT /doc/letters/reply 'Dear Madam'
  mkdir differs
  paste_in "cd $PWD/differs && $(blocks backup.md 'diff -rq')"
  tail -n 1 "$work/out" >got
  echo 'Files now/letters/reply and then/letters/reply differ' >wanted
  same 'what differs from last night' got wanted
  paste_in "$(blocks upgrading.md 'rooms-restore 2026' | sed "s/2026-11-20.040000/${backup##*/}/")"
  holds 'the room of the backup' [ "$status" = 0 ]
  answers 'has what was there then' 'Dear Sir 200' alice GET /doc/letters/reply
  bin/systemctl stop rooms
  mkdir kept
  mv room/office.rooms* kept/
  take moved.1.db room/office.rooms
  paste_in "$(blocks messages.md 'rooms migrate')"
  prints 'a file of schema 1' migrated
  holds 'is served then' [ "$(curl -s -o /dev/null -w '%{http_code}' --unix-socket "$sock" \
    'http://localhost/can/?')" = 200 ]
  bin/systemctl stop rooms
  rm -f room/office.rooms*
  mv kept/* room/
  bin/systemctl start rooms
fi

# The same verbs for odd names. The server rests meanwhile.
odd_users=(-x 0815 1e3 'OFFICE\bob' 'OFFICE\\bob' 'OFFICE\nbob' 'pc-7$' user)
{ echo group,user && printf 'staff,%s\n' "${odd_users[@]}" 815 1000 OFFICEbob bob; } >members.csv
all_members() {
  gives 'members' 0 'groups 1, members 12\n' '' groups room/office.rooms members.csv
}
members_are() { # NAME FILE
  "$rooms" groups-out room/office.rooms | sort >got
  sort "$2" >wanted
  same "$1" got wanted
}
odd_path='/a "b"\n, c '
answers 'a folder of an odd name' ' 201' alice POST '/folder/a%20%22b%22%5Cn%2C%20c%20'
answers 'and its list' ' 204' \
  alice PUT '/dacl/a%20%22b%22%5Cn%2C%20c%20' $'list:ap\nA::OFFICE\\nbob:C'
for at in "${!odd_users[@]}"; do
  answers 'a document' ' 201' alice PUT "/doc/letters/odd$at" 12345
  answers "of ${odd_users[at]}" ' 204' \
    alice PUT "/attr/letters/odd$at" "{\"group\":\"staff\",\"owner\":\"${odd_users[at]//\\/\\\\}\"}"
done
bin/systemctl stop rooms
for at in "${!odd_users[@]}"; do
  name=${odd_users[at]}
  all_members
  paste_in "rooms-admin user remove '$name'"
  sed -n '1,2p; / \/letters\/odd/p' "$work/out" >got
  printf '%s\n' "- staff,$name" 'groups 1, members 11' "document $name staff 5 /letters/odd$at" \
    >wanted
  same "$name leaves" got wanted
  grep -vxF -e "staff,$name" members.csv >rest.csv
  members_are 'and nobody else' rest.csv
done
paste_in "rooms-admin user add 'OFFICE\\tdana' --groups staff"
{ cat rest.csv && printf '%s\n' 'staff,OFFICE\tdana'; } >more.csv
members_are 'a name that joins' more.csv
holds 'and has a password' grep -qF 'OFFICE\tdana:$2y$' passwords
refuses_user() { # NAME TEXT WORD ..: nothing is changed
  cp -L passwords before
  bin/rooms-admin user "${@:3}" </dev/null >"$work/out" 2>"$work/err"
  status=$?
  told "$1" 2 "$2"
  same "$1: no password is changed" passwords before
  members_are "$1: nor a member" more.csv
}
refuses_user 'no words' 'bad arguments'
refuses_user 'another verb' 'bad arguments' rename bob
refuses_user 'a name that is none' "'b ob' can't be the name of a user" add 'b ob'
refuses_user 'a group that is none' "'a:b' can't be the name of a user" add bob --groups a:b
refuses_user 'a user who would inherit from themselves' 'bob would give to bob' remove bob --to bob
refuses_user 'a room that is not there' 'no settings' add bob --room nowhere
ROOMS_RUN=$PWD/run "$repo/admin/rooms-admin" user add bob --room "$PWD/root/etc/rooms/office.conf" \
  </dev/null >"$work/out" 2>"$work/err"
status=$?
told 'no password' 2 'bad password'
# What a night leaves of a path and of a user.
night=backups/office/9999-12-31.030000
mkdir -m 700 "$night"
cp room/office.rooms "$night"
echo 'number 1000' >"$night/run"
"$rooms" review room/office.rooms / >"$night/review.csv"
"$rooms" dump room/office.rooms >"$night/lists.txt"
{
  echo at,user,path,bits,granted,entry,kind &&
    printf '1000,%s,/x,r,no,1,audit\n' 0815 815 'OFFICE\nbob' OFFICEbob &&
    printf '%s,bob,/personnel/a  b,r,no,1,audit\n' 1804031999 1804032000 1805327999 1805328000
} >"$night/records.csv"
paste_in "$(blocks people.md 'rooms-admin lists' | sed "s|/letters|'${odd_path//\\/\\\\}'|")"
prints 'the list of an odd path' list:ap 'A::OFFICE\nbob:C'
paste_in "$(blocks people.md 'who --change' | sed "s|/projects|'${odd_path//\\/\\\\}'|")"
grep '  Co*  ' "$work/out" >got
printf '%s\n' "/  alice  Co  by A:fd:alice:$ALL" \
  '/a\ \"b\"\\n,\ c\   OFFICE\nbob  C  remove  by A::OFFICE\nbob:C, A:fdg:staff:rwaxtc of /' \
  >wanted
same 'who can have changed it' got wanted
for name in 0815 'OFFICE\nbob'; do
  paste_in "$(blocks personal.md 'rooms-admin records' | sed "s|bob|'${name//\\/\\\\}'|")"
  grep '^1970' "$work/out" >got
  echo "1970-01-01T00:16:40Z  $name  r  denied  /x  audit by entry 1" >wanted
  same "records of $name" got wanted
done
holds 'and an entry' grep -qxF 'A::OFFICE\nbob:C' "$work/out"
paste_in "cd $PWD/none && $(blocks people.md 'records --path')"
printf '%s\tbob\tr\tdenied\t/personnel/a\\ \\ b\taudit by entry 1\n' 2027-03-03T00:00:00Z \
  2027-03-17T23:59:59Z >wanted
same 'records of some days, as a table' none/records.txt wanted
rm -r "$night"

# Where groups-out or dump fails, whatever it has printed, all members stay, and the room is served.
all_members
rm bin/rooms
stand_in rooms <<END
case \$1 in
  groups-out | dump) "$rooms" "\$@" | head -n 3; echo 'fault: store' >&2; exit 3 ;;
esac
exec "$rooms" "\$@"
END
sed -i "s#^PROGRAM=.*#PROGRAM=$PWD/bin/rooms#" root/etc/rooms/office.conf
for one in 'user add dana;groups-out' 'user remove bob;groups-out'; do
  text=${one%;*}
  bin/systemctl start rooms
  paste_in "$(blocks people.md "$text" | head -n 1)"
  told "no members in part, by $text" 1 "${one#*;} failed: " 'fault: store'
  holds 'nothing is imported' [ "$(grep -c '^groups' "$work/out")" = 0 ]
  answers 'the room is served' '{"group":"staff","kind":"document","owner":"user"} 200' \
    alice GET /attr/letters/odd7
  bin/systemctl stop rooms
  members_are 'all members are there' members.csv
done
rm bin/rooms
ln -s "$rooms" bin/rooms
bin/systemctl start rooms

# Files of a Windows server, which Samba plays, come to this machine and into the room.
smbd=$(PATH=$PATH:/usr/sbin command -v smbd)
if [ -n "$smbd" ] && has smbclient && has smbpasswd && has setsid && [ "$(id -u)" = 0 ]; then
  mkdir -p samba/state samba/share/empty 'samba/share/a b/ü'
  printf one >'samba/share/a b/100% ü.txt'
  printf two >'samba/share/a b/ü/.hidden'
  printf 'not for all' >samba/share/secret
  {
    printf '%s\n' '[global]' 'server role = standalone server' 'interfaces = 127.0.0.1' \
      'bind interfaces only = yes' "smb ports = $((port + 2))" 'disable netbios = yes' \
      'load printers = no' "passdb backend = tdbsam:$PWD/samba/passdb.tdb" \
      "log file = $PWD/samba/log" "ncalrpc dir = $PWD/samba/state/ncalrpc"
    for name in 'private dir' 'lock directory' 'state directory' 'cache directory' \
      'pid directory'; do
      echo "$name = $PWD/samba/state"
    done
    printf '%s\n' '[share]' "path = $PWD/samba/share"
  } >samba/conf
  printf 'word\nword\n' | smbpasswd -c samba/conf -L -s -a root >said 2>&1
  setsid "$smbd" -s "$PWD/samba/conf" -F --no-process-group --debug-stdout \
    >samba/said 2>&1 </dev/null &
  others+=("$!")
  for turn in {1..500}; do
    (exec 3<>"/dev/tcp/127.0.0.1/$((port + 2))") 2>/dev/null && break
    sleep 0.02
  done
  # The port is another one, and a password that is asked for is given.
  stand_in smbclient <<END
exec "$(command -v smbclient)" -s "$PWD/samba/conf" -p $((port + 2)) \\
  "\${@/#alice/root%\$(cat "$PWD/samba/word")}"
END
  fetching="mkdir \$PWD/fetch; cd \$PWD/fetch && $(
    blocks in-and-out.md smbclient | sed 's/SERVER/127.0.0.1/'
  )"
  echo word >samba/word
  paste_in "$fetching"
  holds 'a share comes' [ "$(tail -n 1 "$work/out")" = 3 ]
  diff -r samba/share fetch/share >found 2>&1
  same 'all of it' found /dev/null
  paste_in "cd $PWD/fetch && $(blocks in-and-out.md 'rooms-admin import --as')"
  prints 'and goes into the room' 'made 7, replaced 0, there already 0, left out 0'
  rm -r fetch
  echo wrong >samba/word
  paste_in "$fetching"
  holds 'a wrong password is told' grep -q NT_STATUS_LOGON_FAILURE <(tail -n 1 "$work/out")
  rm -r fetch
  stop_others
  rm bin/smbclient
else
  skip 'a share of Windows' 'no root, smbd, smbclient, smbpasswd or setsid'
fi

# Records that are older than two years. Without a backup nothing is done, and after a fault nothing
# is served.
if has_sqlite && has flock; then
  removing=$(blocks capacity.md 'DELETE FROM audits')
  records_are() { # NAME NUMBER
    holds "$1" [ "$(sqlite3 room/office.rooms 'SELECT count(*) FROM audits')" = "$2" ]
  }
  stays_down() { # NAME: the block fails, prints no 'sound', and leaves the server stopped
    holds "$1 (status $status)" [ "$status" != 0 ]
    holds "$1: it isn't called sound" [ "$(grep -c sound "$work/out")" = 0 ]
    holds "$1: nothing is served" [ ! -e pid ]
    bin/systemctl stop rooms
  }
  bin/systemctl stop rooms
  sqlite3 room/office.rooms "INSERT INTO audits (at, user, path, bits, granted, entry)
    VALUES (1000, 'bob', '/', 1, 0, 1), (unixepoch(), 'bob', '/', 1, 0, 1);"
  bin/systemctl start rooms
  mv backups backups.away
  paste_in "$removing"
  holds "no folder of backups (status $status)" [ "$status" != 0 ]
  holds 'the server runs' [ -e pid ]
  mv backups.away backups
  paste_in "${removing/FROM audits/FROM audit}"
  stays_down 'a mistake in what it does'
  records_are 'no record is gone' 2
  bin/systemctl start rooms
  paste_in "$removing"
  prints 'old records are removed' sound
  bin/systemctl stop rooms
  run audit room/office.rooms
  holds 'the others stay' [ "$(sed 's/^[0-9]*,/T,/' "$work/out")" \
    = $'at,user,path,bits,granted,entry,kind\nT,bob,/,r,no,1,audit' ]
  set_list room/office.rooms / sacl list:a U:F:EVERYONE@:r
  bin/systemctl start rooms
  answers 'a denied list' '{"at":"/","bits":"r","entry":null,"text":null} 403' eve GET /folder/
  bin/systemctl stop rooms
  holds 'no number is given twice' \
    [ "$(sqlite3 room/office.rooms 'SELECT seq FROM audits ORDER BY seq' | tr '\n' ' ')" = '2 3 ' ]
  gives 'the room is sound' 0 'sound\n' '' verify room/office.rooms
  sqlite3 room/office.rooms "INSERT INTO audits (at, user, path, bits, granted, entry)
    VALUES (unixepoch(), 'OFFICE\\bob', '/', 1, 0, 1);"
  bin/systemctl start rooms
  paste_in "$(sed 's/WHERE at .*;/WHERE user = '\''OFFICE\\bob'\'';/' <<<"$removing")"
  prints 'records of one person are removed' sound
  bin/systemctl stop rooms
  records_are 'and none of others' 2
  bin/systemctl start rooms
  # The night before finds nothing.
  sed -i "s#^PROGRAM=.*#PROGRAM=$rooms#" root/etc/rooms/office.conf
  rm bin/rooms
  stand_in rooms <<END
[ "\$1" != verify ] || { echo 'V3 broken-law' >&2; exit 1; }
exec "$rooms" "\$@"
END
  paste_in "$removing"
  stays_down 'a room with a fault'
  rm bin/rooms
else
  skip 'old records are removed' 'no flock, or no sqlite3, or one that is too old'
fi
bin/systemctl stop rooms

# All documents by sqlite3 alone, as the program would print them, and for nobody else.
if has_sqlite; then
  mkdir alone && cp room/office.rooms* alone/
  paste_in "cd $PWD/alone && $(blocks in-and-out.md writefile)"
  holds "documents come out without the program: $(head -c 300 "$work/err")" [ "$status" = 0 ]
  run dump room/office.rooms
  sed -n 's/^document [^ ]* [^ ]* [0-9]* //p' "$work/out" >documents
  holds 'as many' [ -s documents -a \
    "$(find alone/out -type f | wc -l)" = "$(wc -l <documents)" ]
  while IFS= read -r path; do
    run get room/office.rooms "$path"
    same "without the program: $path" "alone/out$path" "$work/out"
  done <documents
  holds 'nobody else reads them' [ -z "$(find alone/out -perm /077)" ]
  # Whoever had the room's server in their hands may have left other names in it.
  rm -r alone/out
  sqlite3 alone/office.rooms "UPDATE nodes SET name = '../' || name
    WHERE id IN (SELECT node FROM bodies LIMIT 1);
    UPDATE nodes SET name = '..' WHERE id IN (SELECT node FROM bodies LIMIT 1 OFFSET 1)"
  paste_in "cd $PWD/alone && $(blocks in-and-out.md writefile)"
  holds "names that lead elsewhere: $(head -c 300 "$work/err")" [ "$status" = 0 ]
  holds 'are left out' [ "$(find alone -type f ! -name 'office.rooms*' | wc -l)" = \
    $(($(wc -l <documents) - 2)) ]
fi
