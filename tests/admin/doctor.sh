# rooms-admin doctor: each cause for which a room can't be opened is made, the program fails by it,
# the script names it, and what the script says mends it.

if ! has findmnt || ! has setpriv || [ ! -x /usr/bin/python3 ]; then
  skip 'what a doctor finds' 'findmnt, setpriv or python3 is missing'
  return
fi

# The room belongs to another user where the machine allows that, since root may do everything.
mkdir var settings bin run
user=$(id -un)
program=$rooms
other=no
if [ "$(id -u)" = 0 ]; then
  chmod 755 "$work" .
  if setpriv --reuid=65534 --regid=65534 --clear-groups "$rooms" --version \
    </dev/null >/dev/null 2>&1; [ $? = 2 ]; then
    other=yes
    user=$(getent passwd 65534 | cut -d : -f 1)
    chown 65534:65534 var
  fi
fi
chmod 700 var
as_user() {
  if [ "$other" = yes ]; then
    setpriv --reuid=65534 --regid=65534 --clear-groups -- "$@"
  else
    "$@"
  fi
}
file=$PWD/var/F
new_file() {
  chmod -R u+rwX var
  [ "$other" = no ] || chown 65534:65534 var
  rm -rf var/*
  as_user "$rooms" init "$file" root staff >/dev/null
}
doctor() { # FILE [WORD ..]
  ROOMS_SETTINGS=$PWD/settings ROOMS_RUN=$PWD/run PATH=$PWD/bin:$PATH "$repo/admin/rooms-admin" \
    doctor --user "$user" --program "$program" "$@" </dev/null >"$work/out" 2>"$work/err"
  status=$?
}
fails() { # NAME FAULT [FILE]: the program does, as the room's user
  as_user "$program" verify "${3-$file}" </dev/null >said 2>&1
  holds "$1: the program says $(head -c 100 said)" grep -qxF "$2" said
}
# This cause, no other, and that it is mended by what stands behind it.
finds() { # NAME FAULT CAUSE [TEXT]
  fails "$1" "$2"
  doctor "$file"
  told "$1" 1 "$3: ${4-}"
  holds "$1: no other cause" [ "$(wc -l <"$work/out")" = 1 ]
}
well() { # NAME
  doctor "$file"
  told "$1" 0 "nothing is wrong: $user can open $file, and it is sound"
}

ROOMS_SETTINGS=$PWD/settings "$repo/admin/rooms-admin" doctor >"$work/out" 2>"$work/err"
status=$?
told 'without a file, and without settings' 2 "no settings: $PWD/settings/office.conf can't be read"
"$repo/admin/rooms-admin" doctor --room office F >"$work/out" 2>"$work/err"
status=$?
told 'a file and a room' 2 'bad arguments: FILE and --room both say which room it is'
"$repo/admin/rooms-admin" doctor --paint x F >"$work/out" 2>"$work/err"
status=$?
told 'an option that is none' 2 'no such option: --paint'
"$repo/admin/rooms-admin" doctor --program "$PWD/none" ./F >"$work/out" 2>"$work/err"
status=$?
told 'no program' 2 'no program'
"$repo/admin/rooms-admin" doctor --program "$rooms" --user nobody-here ./F >"$work/out" \
  2>"$work/err"
status=$?
told 'no user' 2 'there is no user nobody-here'

# By its name of before.
ln -s "$repo/admin/rooms-admin" rooms-doctor
./rooms-doctor --program "$rooms" --user nobody-here ./F >"$work/out" 2>"$work/err"
status=$?
told 'the old name' 2 'rooms-doctor: its name is now rooms-admin doctor' \
  'there is no user nobody-here'

new_file
state() { ls -l --time-style=full-iso var && cksum var/*; }
state >before
well 'a room that is well'
# It is named as the room too, and a word that is neither is no file of this folder.
echo "FILE=$file" >settings/office.conf
doctor office
told 'a room by its name' 1 "read-only: the unit rooms@office may not write there: "
doctor ofice
told 'a mistyped one' 2 "no room: ofice is neither a file here nor a room" 'did you mean office?'
rm settings/office.conf
cd var || return
doctor F
cd .. || return
told 'a file by its name here' 0 "nothing is wrong: $user can open $file, and it is sound"
state >after
same 'is not touched' after before
# The program runs as the room's user alone, on whatever the file holds.
if [ "$other" = yes ]; then
  printf '#!/bin/sh\nid -u >>%s/as; exec "%s" "$@"\n' "$PWD" "$program" >bin/noted
  chmod 755 bin/noted
  : >as
  chmod 666 as
  real=$program
  program=$PWD/bin/noted
  well 'and by whom it is looked at'
  program=$real
  holds 'is its user' [ "$(sort -u as)" = 65534 ]
fi

# No file.
finds_file() { # NAME CAUSE TEXT FILE
  fails "$1" 'fault: file' "$4"
  doctor "$4"
  told "$1" 1 "$2: $3"
}
finds_file 'a wrong name' 'no file' "$PWD/var/G isn't there" "$PWD/var/G"
finds_file 'a folder that is missing' 'no file' "the folder $PWD/gone isn't there" "$PWD/gone/F"
mkdir var/restoring.G
doctor "$PWD/var/G"
told 'a restore that was cut off' 1 'rooms-admin restore --undo'
rm -r var/restoring.G
ln -s nowhere var/G
doctor "$PWD/var/G"
told 'a link that leads nowhere' 1 'no file: '
rm var/G
doctor "$PWD/var"
told 'a folder' 1 'not a room: '
mv var/F kept
: >var/F-wal
doctor "$file"
told 'a log alone' 1 'no file: ' "$file-wal is alone there"
mv kept var/F

# Whose it is, and what its user may.
if [ "$other" = yes ]; then
  chown 0:0 var/F
  chmod 600 var/F
  finds 'a file of root' 'fault: database' owner "$file belongs to root, and not to $user"
  bash -c "$(sed -n 's/.*: \(chown .*\)/\1/p' "$work/out")"
  well 'which is mended as it says'
  new_file
  chown 0:0 var
  chmod 755 var
  doctor "$file"
  told 'a folder of root' 1 "owner: $PWD/var belongs to root"
  bash -c "$(sed -n 's/.*: \(chown .*\)/\1/p' "$work/out")"
  well 'which is mended too'
  # What the room's user has put there in its place leads to nothing that is given away.
  cp var/F kept
  for end in -wal ''; do
    rm -f "var/F$end"
    ln -s "$PWD/kept" "var/F$end"
    doctor "$file"
    told "a link in the place of F$end" 1 "not a room: $file$end is a link"
    holds "of F$end nobody gets what it leads to" eval '! grep -q chown "$work/out"'
    rm "var/F$end"
  done
  new_file
  chmod 400 var/F
  finds 'a file that is only read' 'fault: database' permission "$user can't write $file"
  bash -c "$(sed -n 's/.*: \(chmod .*\)/\1/p' "$work/out")"
  well 'which is mended by chmod'
  chmod 000 var/F
  finds 'a file that nobody reads' 'fault: database' permission "$user can't read $file"
  chmod 600 var/F
  mkdir -m 700 shut
  doctor "$PWD/shut/F"
  told 'a folder that is shut' 1 "permission: $user can't enter the folder $PWD/shut: is the name"
  new_file
else
  skip "a room of another user" 'this user is not root, or no other user can run the program here'
fi

# Two names.
ln var/F second
finds 'a second name' 'fault: database' 'two names' "$file has 2 names"
rm second
well 'which is gone'

# No room.
cp var/F sound
: >var/F
rm -f var/F-wal
chmod 600 var/F
finds 'an empty file' 'refused: not a rooms file' 'not a room' "$file is empty"
printf 'some text that is no database' >var/F
finds 'a text' 'fault: database' 'not a room' "$file is no database"
if [ "$other" = yes ]; then
  chown root:root var var/F
  chmod 755 var
  for mode in 644 600; do
    chmod $mode var/F
    doctor "$file"
    told "root's, of mode $mode, which isn't to be given away" 1 'not a room: '
    holds "and nothing but that, $mode" eval '! grep -q chown "$work/out"'
  done
  chown 65534:65534 var var/F
  chmod 700 var
  chmod 600 var/F
fi
cat "$data/moved.1.db" >var/F
finds 'an older room' 'refused: schema 1 is old' 'not a room' "$file is of another version"
if has_sqlite; then
  rm var/F
  sqlite3 var/F 'CREATE TABLE t (a INTEGER);'
  [ "$other" = no ] || chown 65534:65534 var/F
  finds 'another database' 'refused: not a rooms file' 'not a room' \
    "$file is a database of another program"
  altered() { # NAME SQL TEXT
    cat sound >var/F
    rm -f var/F-wal
    sqlite3 var/F "$2" 2>/dev/null || { skip "$1" 'this sqlite3 makes none'; return; }
    [ "$other" = no ] || chown 65534:65534 var/F
    finds "$1" 'fault: database' 'not a room' "another program changed the tables of $file: $3"
  }
  altered 'a table more' 'CREATE TABLE notes (x);' "table notes isn't a room's"
  altered 'a table that is gone' 'DROP TABLE members;' \
    'table members is missing, index sqlite_autoindex_members_1 is missing'
  altered 'a column that is gone' 'ALTER TABLE nodes DROP COLUMN sacl_inh;' \
    'table nodes lacks the column sacl_inh'
  altered 'a column more' 'ALTER TABLE audits ADD COLUMN note TEXT;' \
    'table audits has a column note'
  altered 'an index' 'CREATE INDEX owners ON nodes (owner);' "index owners isn't a room's"
  altered 'a trigger' \
    'CREATE TRIGGER gone AFTER DELETE ON nodes BEGIN DELETE FROM audits; END;' \
    "trigger gone isn't a room's"
  altered 'a table without its rules' \
    'DROP TABLE meta; CREATE TABLE meta (key TEXT PRIMARY KEY, value INTEGER);
    INSERT INTO meta VALUES ('"'rooms'"', 2);' 'table meta has other rules'
  cat sound >var/F
  rm -f var/F-wal
  sqlite3 var/F "INSERT INTO sqlite_sequence VALUES ('audits', 9223372036854775807);"
  [ "$other" = no ] || chown 65534:65534 var/F
  doctor "$file"
  told 'a counter at its end' 1 'no numbers: each request that a list wants a record of' \
    'docs/messages.md'
  cat sound >var/F
  rm -f var/F-wal
  sqlite3 var/F "INSERT INTO nodes VALUES (9223372036854775807, 1, 'last', 1, 'root', 'staff',
    1, 1, '', 'A:fdI:OWNER@:rwanNxDtThHdcCoy' || char(10), '', '');"
  [ "$other" = no ] || chown 65534:65534 var/F
  doctor "$file"
  told 'an object of the largest number' 1 'or each that makes an object' 'docs/messages.md'
fi

# Damaged, with the file's beginning as it was.
cat sound >var/F
size=$(stat -c %s sound)
head -c $((size - 4096)) /dev/zero | tr '\0' x | dd of=var/F bs=4096 seek=1 conv=notrunc 2>/dev/null
doctor "$file"
told 'a damaged file' 1 'damaged: verify gives status' 'rooms-admin restore'
new_file
if has_sqlite; then
  sqlite3 var/F "INSERT INTO audits (at, user, path, bits, granted, entry)
    VALUES (1, 'bob', 'no path', 1, 1, 1)"
  [ "$other" = no ] || chown 65534:65534 var/F*
  doctor "$file"
  told 'a record that cannot be read' 1 \
    "damaged: the room is sound, but a record can't be read: fault: database" 'records.csv'
  new_file
fi
well 'a new one'

# A server has it, and two rooms want it.
if [ "$other" = yes ]; then
  printf '#!/bin/sh\nexec setpriv --reuid=65534 --regid=65534 --clear-groups -- "%s" "$@"\n' \
    "$program" >bin/rooms
  chmod 755 bin/rooms
  rooms=$PWD/bin/rooms
fi
if start_server var/F 1; then
  finds 'a room that is served' 'fault: database' busy "process $server ("
  stop_server
  well 'which is no longer'
fi
# Served by its own unit, which answers, it is well.
serve_one() { # COUNT
  printf 'FILE=%s\nPORT=%s\n' "$file" "$((port + 1))" >settings/one.conf
  start_server var/F "$1" || return
  sed -i "s/^PORT=.*/PORT=$port/" settings/one.conf
  # The process of the room's user.
  served=$server
  printf '#!/bin/sh\ncase "$*" in *MainPID*) echo %s ;; *ReadWritePaths*) echo %s ;; esac\n' \
    "$served" "$PWD/var" >bin/systemctl
  chmod 755 bin/systemctl
}
if serve_one 100; then
  doctor "$file"
  told 'a room that its unit serves' 0 "nothing is wrong: rooms@one serves $file, and answers"
  holds 'which goes on' kill -0 "$server"
  kill -STOP "$served"
  sed -i 's/^PORT=.*/PORT=1/' settings/one.conf
  doctor "$file"
  told 'one whose unit does not answer' 1 "busy: rooms@one has it open, and doesn't answer"
  kill -CONT "$served"
  stop_server
  # At its socket, and not at its port, where somebody else might listen.
  mkdir -p run/rooms/one
  [ "$other" = no ] || chown 65534:65534 run/rooms/one
  if start_at_socket var/F "$PWD/run/rooms/one/socket" 100; then
    printf 'FILE=%s\nPORT=%s\n' "$file" "$port" >settings/one.conf
    sed -i "s/echo $served/echo $server/" bin/systemctl
    doctor "$file"
    told 'a room that its unit serves at a socket' 0 \
      "nothing is wrong: rooms@one serves $file, and answers"
    stop_server
  fi
  rm -r run/rooms
fi
rm -f bin/systemctl settings/one.conf
rooms=$program
echo "FILE=$file" >settings/one.conf
echo "FILE=$file" >settings/two.conf
printf '#!/bin/sh\necho %s\n' "$PWD/var" >bin/systemctl
chmod 755 bin/systemctl
doctor "$file"
told 'two rooms of one file' 1 'busy: two rooms name this file'
doctor "$file" --json
text='two rooms name this file, so that only one of them runs'
rows_are 'the same for a program' \
  '{"cause": "busy", "text": "'"$text: grep -H ^FILE= $PWD/settings/*.conf"'"}'
holds 'and its status' [ "$status" = 1 ]
rm settings/two.conf
# A line by which nginx can't start again is none of a file that no room is.
if [ "$(id -u)" = 0 ]; then
  mkdir -p root/etc/nginx/sites-enabled
  ln -s ../sites-available/rooms root/etc/nginx/sites-enabled/rooms
  printf '#!/bin/sh\necho %s\nexit 1\n' "'nginx: [emerg] no \";\" in x.conf:3'" >bin/nginx
  chmod 755 bin/nginx
  export ROOMS_ROOT=$PWD/root
  doctor "$file"
  told 'files that nginx refuses' 1 "front end: nginx refuses its files, and can't start again: \
no \";\" in x.conf:3: mend that line"
  holds 'files that nginx refuses: no other cause' [ "$(wc -l <"$work/out")" = 1 ]
  mv settings/one.conf kept
  well 'and no room of settings'
  mv kept settings/one.conf
  unset ROOMS_ROOT
  rm bin/nginx
else
  skip 'files that nginx refuses' 'this user is not root'
fi
well 'one room, in a folder that its unit may write'
doctor "$file" --json
rows_are 'nothing for a program'
holds 'and the status of that' [ "$status" = 0 ]
echo '#!/bin/sh' >bin/systemctl
doctor "$file"
told 'a folder that its unit may not write' 1 "read-only: the unit rooms@one may not write there" \
  "ReadWritePaths=$PWD/var"
rm settings/one.conf bin/systemctl

# Disks.
if [ "$(id -u)" = 0 ] && mkdir small &&
  mount -t tmpfs -o size=6m,mode=755 rooms-small small 2>said; then
  cp var/F small/F
  [ "$other" = no ] || chown -R 65534:65534 small
  file=$PWD/small/F
  well 'a room on a small disk'
  head -c 6000000 /dev/zero >small/ballast 2>/dev/null
  cat /dev/zero >>small/ballast 2>/dev/null
  doctor "$file"
  told 'a full disk' 1 "no space: $user can't write"
  TMPDIR=$PWD/small doctor "$file"
  # A copy isn't made where another account could change it.
  unknown='unknown: whether it is sound'
  [ "$other" = no ] || unknown="not root's: others can change $PWD/small"
  told 'no place for a copy either' 1 'no space: ' "$unknown"
  holds 'nothing is left of it' [ "$(ls -A small)" = "$(printf '%s\n' F ballast)" ]
  rm small/ballast
  mount -o remount,ro small
  finds 'a disk that is only read' 'fault: database' read-only "$PWD/small is mounted read-only"
  mount -o remount,rw small
  well 'which is written again'
  umount small
  file=$PWD/var/F
else
  skip 'a full disk, and one that is only read' 'no root, or no mount'
fi
if [ "$(id -u)" = 0 ] && has chattr && chattr +i var/F 2>/dev/null; then
  finds 'a file that nobody may change' 'fault: database' read-only "$file has the attribute i"
  chattr -i var/F
  well 'which somebody may'
else
  skip 'a file that nobody may change' 'no root, or a file system without that'
fi
